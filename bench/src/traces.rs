//! Traces: the blocks of some slots, and how an implementation plays them.

use bellacush_tests::random::Random;
use bellacush_tests::slots::{State, TABLE_LEN};
use bellacush_tests::traffic::Traffic;

/// No divisor of any n², so that a block meets other offsets in each pass.
const BLOCKS: usize = 251;

/// A slot call, as both implementations offer it.
pub type SlotFn = fn(&mut [u8], u32, u32, &[u8], u16, &mut [u8], &mut [u8]) -> u32;

#[derive(Clone, Copy, PartialEq)]
pub struct Load {
    pub name: &'static str,
    /// How many in 64 of the request bits are set.
    pub asked: usize,
}

pub const FULL: Load = Load {
    name: "full",
    asked: 64,
};
pub const HALF: Load = Load {
    name: "half",
    asked: 32,
};
pub const LIGHT: Load = Load {
    name: "light",
    asked: 4,
};

pub struct Trace {
    pub ports: usize,
    pub mode: u32,
    pub blocks: Vec<Vec<u8>>,
}

impl Trace {
    /// Requests alone, every host heard and enabled.
    pub fn new(ports: usize, load: Load, mode: u32) -> Trace {
        Trace::of(ports, mode, Traffic::requests(load.asked))
    }

    pub fn of(ports: usize, mode: u32, traffic: Traffic) -> Trace {
        let mut random = Random::new(1);
        let blocks = (0..BLOCKS)
            .map(|_| traffic.block(&mut random, ports))
            .collect();
        Trace {
            ports,
            mode,
            blocks,
        }
    }
}

/// One implementation at work on a trace: its state and buffers, warm and never cleared.
pub struct Player {
    slot: SlotFn,
    state: Vec<u8>,
    due: u32,
    out: Vec<u8>,
    table: Vec<u8>,
}

impl Player {
    pub fn new(slot: SlotFn, trace: &Trace) -> Player {
        Player {
            slot,
            state: State::fresh(trace.ports, 0).bytes(),
            due: 0,
            out: vec![0; 7 * trace.ports],
            table: vec![0; TABLE_LEN],
        }
    }

    fn serve(&mut self, trace: &Trace, block: &[u8]) -> u32 {
        let word = (self.slot)(
            &mut self.state,
            self.due,
            trace.mode,
            block,
            0,
            &mut self.out,
            &mut self.table,
        );
        self.due = self.due.wrapping_add(1);
        word
    }

    /// Serves a block; gives the sets connected.
    pub fn connected(&mut self, trace: &Trace, block: &[u8]) -> Vec<u8> {
        assert_eq!(self.serve(trace, block) % 256, 0, "a slot was declined");
        self.table.clone()
    }

    /// Serves the whole trace once.
    pub fn pass(&mut self, trace: &Trace) {
        for block in &trace.blocks {
            let word = self.serve(trace, block);
            assert_eq!(word % 256, 0, "a slot of the trace was declined");
        }
    }
}

/// Sees that both implementations answer a trace alike, over every offset.
pub fn agree(trace: &Trace, one: SlotFn, other: SlotFn) {
    side_by_side(trace, one, other, |one, other| {
        assert_eq!(one.out, other.out);
    });
}

/// The same, the grant frames aside.
#[cfg(before)]
pub fn agree_but_for_grants(trace: &Trace, one: SlotFn, other: SlotFn) {
    side_by_side(trace, one, other, |_, _| ());
}

fn side_by_side(trace: &Trace, one: SlotFn, other: SlotFn, also: fn(&Player, &Player)) {
    let (mut one, mut other) = (Player::new(one, trace), Player::new(other, trace));
    for _ in 0..4 {
        for block in &trace.blocks {
            assert_eq!(one.serve(trace, block), other.serve(trace, block));
            assert_eq!(one.state, other.state);
            assert_eq!(one.table, other.table);
            also(&one, &other);
        }
    }
}
