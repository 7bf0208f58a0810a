//! The queues of the compact shelf in plain Rust, on the same records and with the same test of
//! them: what the calls are measured against.

use crate::by_columns;
use crate::plain::{self, Place, Rows, Work};

const CELL_LEN: usize = 64;
const MOST_CELLS: usize = 960;
const HEAD_LEN: usize = 3;

fn pair(entry: u32) -> (usize, usize) {
    (entry as usize / 16 % 16, entry as usize % 16)
}

fn cell_of(entry: u32) -> usize {
    entry as usize / 256
}

/// Each cell of the pool has one entry, and each entry a pair of the shelf.
fn in_order(records: &[u32]) -> bool {
    let &[ports, cells, held, ref entries @ ..] = records else {
        return false;
    };
    if !(1..=16).contains(&ports) || !(1..=MOST_CELLS as u32).contains(&cells) {
        return false;
    }
    if held > cells || entries.len() != cells as usize {
        return false;
    }
    let mut seen = [false; MOST_CELLS];
    for &entry in entries {
        let (i, t) = pair(entry);
        if cell_of(entry) >= entries.len() || i >= ports as usize || t >= ports as usize {
            return false;
        }
        seen[cell_of(entry)] = true;
    }
    seen[..entries.len()].iter().all(|&met| met)
}

fn usable(records: &[u32], pool_len: usize) -> bool {
    in_order(records) && pool_len == records[1] as usize * CELL_LEN
}

#[inline(never)]
pub fn add(records: &mut [u32], (i, t): (u32, u32), cell: &[u8], pool: &mut [u8]) -> u32 {
    if cell.len() != CELL_LEN {
        return 8;
    }
    let ports = records.first().copied().unwrap_or(0);
    if !(1..=16).contains(&ports) {
        return 1;
    }
    if i >= ports || t >= ports || !usable(records, pool.len()) {
        return 17;
    }
    if records[1] == records[2] {
        return 16;
    }
    let free = HEAD_LEN + records[2] as usize;
    let entry = records[free] / 256 * 256 + 16 * i + t;
    records[free] = entry;
    records[2] += 1;
    pool[CELL_LEN * cell_of(entry)..][..CELL_LEN].copy_from_slice(cell);
    0
}

#[inline(never)]
pub fn slot(
    state: &mut [u8],
    slot: u32,
    mode: u32,
    records: &mut [u32],
    pool: &[u8],
    out: &mut [u8],
    table: &mut [u8],
) -> u32 {
    if state.len() != 9 || table.len() != 32 {
        return 8;
    }
    let at = Place {
        n: usize::from(state[0]),
        i: usize::from(state[1]),
        j: usize::from(state[2]),
    };
    if !usable(records, pool.len()) || records[0] as usize != at.n {
        return 17;
    }
    let due = u32::from_be_bytes([state[3], state[4], state[5], state[6]]);
    let number = plain::due_refusal(at, due, slot, mode);
    if number != 0 {
        return number;
    }
    if out.len() < CELL_LEN * at.n {
        return 7;
    }
    let held = records[2] as usize;
    let mut live = [0; 16];
    for &entry in &records[HEAD_LEN..][..held] {
        let (i, t) = pair(entry);
        live[i] |= 1 << t;
    }
    let mut work = Work {
        live,
        held: [0; 16],
    };
    let rounds = plain::serve(by_columns::central, at, mode, &mut work);
    forward(records, work.held, pool, out);
    plain::put_table(&work.held, table);
    plain::advance(state, at, due);
    rounds * 256
}

/// The first entry of each granted pair leaves, and its cell goes to its target's place.
fn forward(records: &mut [u32], mut granted: Rows, pool: &[u8], out: &mut [u8]) {
    let held = records[2] as usize;
    let (head, entries) = records.split_at_mut(HEAD_LEN);
    let (mut left, mut kept) = ([0; 16], 0);
    let mut leaving = 0;
    for k in 0..held {
        let entry = entries[k];
        let (i, t) = pair(entry);
        if granted[i] >> t & 1 == 1 {
            granted[i] ^= 1 << t;
            let cell = &pool[CELL_LEN * cell_of(entry)..][..CELL_LEN];
            out[CELL_LEN * t..][..CELL_LEN].copy_from_slice(cell);
            left[leaving] = entry;
            leaving += 1;
        } else {
            entries[kept] = entry;
            kept += 1;
        }
    }
    entries[kept..held].copy_from_slice(&left[..leaving]);
    head[2] = kept as u32;
}
