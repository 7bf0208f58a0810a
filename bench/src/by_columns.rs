//! The central rule over columns in plain Rust, written to be measured against: a column of the
//! requests is a word, and bit i of a plane is one digit of the number of targets still to come
//! that initiator i asks for.

use crate::plain::{Place, Rows, Work};

/// The digits from the highest down.
type Planes = [u16; 4];

pub fn central(at: Place, work: &mut Work) {
    let columns = transposed(&work.live);
    let mut planes = counted(&columns);
    let mut free = u16::MAX;
    let (mut first, mut target) = (at.i, at.j);
    for _ in 0..at.n {
        let asked = columns[target];
        one_less(&mut planes, asked);
        let among = asked & free;
        if among != 0 {
            let winner = if among >> first & 1 == 1 {
                first
            } else {
                fewest(among, &planes, first)
            };
            free &= !(1 << winner);
            work.held[winner] |= 1 << target;
        }
        first = at.next(first);
        target = at.next(target);
    }
}

/// Four rows to a word, turned over by halves, quarters and so on.
fn transposed(rows: &Rows) -> Rows {
    let word = |k: usize| {
        (0..4).fold(0, |word, row| {
            word | u64::from(rows[4 * k + row]) << (16 * row)
        })
    };
    let mut words = [0, 1, 2, 3].map(|k| within(word(k)));
    across(&mut words, 0, 1, 4, 0x0F0F_0F0F_0F0F_0F0F);
    across(&mut words, 2, 3, 4, 0x0F0F_0F0F_0F0F_0F0F);
    across(&mut words, 0, 2, 8, 0x00FF_00FF_00FF_00FF);
    across(&mut words, 1, 3, 8, 0x00FF_00FF_00FF_00FF);
    let mut columns = [0; 16];
    for (k, column) in columns.iter_mut().enumerate() {
        *column = (words[k / 4] >> (k % 4 * 16)) as u16;
    }
    columns
}

/// Each square of four rows and four columns of the word.
fn within(word: u64) -> u64 {
    let swapped = |word: u64, by: u32, mask: u64| {
        let moved = (word ^ word >> by) & mask;
        word ^ moved ^ moved << by
    };
    let by_one = swapped(word, 15, 0x0000_AAAA_0000_AAAA);
    swapped(by_one, 30, 0x0000_0000_CCCC_CCCC)
}

fn across(words: &mut [u64; 4], low: usize, high: usize, by: u32, mask: u64) {
    let moved = (words[low] >> by ^ words[high]) & mask;
    words[high] ^= moved;
    words[low] ^= moved << by;
}

/// A digit and its carry of three words added bit by bit.
fn added(a: u16, b: u16, c: u16) -> (u16, u16) {
    let half = a ^ b;
    (half ^ c, a & b | half & c)
}

/// How many columns each initiator is in, modulo 16: eights, fours, twos, ones.
fn counted(columns: &Rows) -> Planes {
    let (mut ones, mut twos, mut fours, mut eights) = (0, 0, 0, 0);
    for part in columns.chunks_exact(4) {
        let (sum, carry) = added(ones, part[0], part[1]);
        let (all, more) = added(sum, part[2], part[3]);
        ones = all;
        let (sum, carry) = added(twos, carry, more);
        twos = sum;
        eights ^= fours & carry;
        fours ^= carry;
    }
    [eights, fours, twos, ones]
}

fn one_less(planes: &mut Planes, asked: u16) {
    let mut borrow = asked;
    for plane in planes.iter_mut().rev() {
        *plane ^= borrow;
        borrow &= *plane;
    }
}

/// Of those, who has the fewest choices; of equals the first from `first` on.
fn fewest(among: u16, planes: &Planes, first: usize) -> usize {
    let narrowed = |left: u16, out: u16| match left & !out {
        0 => left,
        rest => rest,
    };
    let equals = planes
        .iter()
        .fold(among, |left, &plane| narrowed(left, plane));
    narrowed(equals, (1 << first) - 1).trailing_zeros() as usize
}
