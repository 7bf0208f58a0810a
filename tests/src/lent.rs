//! Memory lent to a call, bytes or words, with guards on both sides.

use std::ops::Deref;

const GUARD: usize = 24;

/// What can be lent, with what stands around it.
pub trait Unit: Copy + PartialEq {
    const GUARD: Self;
}

impl Unit for u8 {
    const GUARD: u8 = 0xC3;
}

impl Unit for u16 {
    const GUARD: u16 = 0xC3C3;
}

impl Unit for u32 {
    const GUARD: u32 = 0xC3C3_C3C3;
}

pub struct Lent<T = u8> {
    memory: Vec<T>,
    start: usize,
    len: usize,
}

impl<T: Unit> Lent<T> {
    /// A copy of `units`, at an odd place so that no further alignment is taken for granted.
    pub fn new(units: &[T]) -> Lent<T> {
        let start = GUARD + 1 + units.len() % 4;
        let mut memory = vec![T::GUARD; start + units.len() + GUARD];
        memory[start..start + units.len()].copy_from_slice(units);
        Lent {
            memory,
            start,
            len: units.len(),
        }
    }

    pub fn lend(&mut self) -> &mut [T] {
        &mut self.memory[self.start..self.start + self.len]
    }

    /// What the call left, once nothing around it is seen to have changed.
    pub fn back(self) -> Vec<T> {
        let end = self.start + self.len;
        let guards = self.memory[..self.start].iter().chain(&self.memory[end..]);
        assert!(
            guards.into_iter().all(|&unit| unit == T::GUARD),
            "memory around a lent buffer of {} was changed",
            self.len
        );
        self.memory[self.start..end].to_vec()
    }
}

impl<T> Deref for Lent<T> {
    type Target = [T];
    fn deref(&self) -> &[T] {
        &self.memory[self.start..self.start + self.len]
    }
}
