//! The calls of the queues measured against the same in plain Rust.

use bellacush_tests::queues::{self, Shelf, CELL_LEN, MOST_CELLS};
use bellacush_tests::random::Random;
use bellacush_tests::slots::TABLE_LEN;
use std::hint::black_box;

use crate::timing::{compare, Times};
use crate::{micro, plain_queues, MODES, MOST_RATIO, MOST_SECONDS};

pub const PORTS: usize = 16;
const MOST_ADD_SECONDS: f64 = 1e-6;

type SlotFn = fn(&mut [u8], u32, u32, &mut [u32], &[u8], &mut [u8], &mut [u8]) -> u32;
type AddFn = fn(&mut [u32], (u32, u32), &[u8], &mut [u8]) -> u32;

/// All cells held, in random pairs.
pub fn full_shelf(seed: u64) -> Shelf {
    let mut random = Random::new(seed);
    let mut shelf = Shelf::new(PORTS, MOST_CELLS);
    while shelf.held() < MOST_CELLS {
        let cell = [shelf.held() as u8; CELL_LEN];
        shelf.add(random.below(PORTS), random.below(PORTS), cell);
    }
    shelf
}

/// One call after the other, each from the same full records.
struct Player {
    slot: SlotFn,
    records: Vec<u32>,
    state: Vec<u8>,
    out: Vec<u8>,
    table: Vec<u8>,
    due: u32,
}

impl Player {
    fn new(slot: SlotFn, shelf: &Shelf) -> Player {
        Player {
            slot,
            records: shelf.records.clone(),
            state: shelf.state.bytes(),
            out: vec![0; CELL_LEN * PORTS],
            table: vec![0; TABLE_LEN],
            due: 0,
        }
    }

    fn pass(&mut self, shelf: &Shelf, mode: u32) {
        self.records.copy_from_slice(black_box(&shelf.records));
        let word = (self.slot)(
            &mut self.state,
            self.due,
            mode,
            &mut self.records,
            &shelf.pool,
            &mut self.out,
            &mut self.table,
        );
        assert_eq!(word % 256, 0, "a slot was declined");
        self.due = self.due.wrapping_add(1);
    }
}

fn slot_times(shelf: &Shelf, mode: u32) -> Times {
    let (mut ours, mut rust) = (
        Player::new(queues::slot, shelf),
        Player::new(plain_queues::slot, shelf),
    );
    for _ in 0..300 {
        ours.pass(shelf, mode);
        rust.pass(shelf, mode);
        assert_eq!((&ours.state, &ours.table), (&rust.state, &rust.table));
        assert_eq!((&ours.out, ours.records[2]), (&rust.out, rust.records[2]));
    }
    compare(1, || ours.pass(shelf, mode), || rust.pass(shelf, mode))
}

/// The last cell again and again: the count goes back by one before each.
fn add_times(shelf: &Shelf) -> Times {
    let add = |call: AddFn| {
        let (mut records, mut pool) = (shelf.records.clone(), shelf.pool.clone());
        move || {
            records[2] = MOST_CELLS as u32 - 1;
            assert_eq!(call(&mut records, (3, 5), &[7; CELL_LEN], &mut pool), 0);
        }
    };
    compare(1, add(queues::add), add(plain_queues::add))
}

fn row(work: &str, times: Times, most: f64) {
    let limits = match (times.ours <= most, times.ratio() <= MOST_RATIO) {
        (true, true) => "met",
        (true, false) => "ratio missed",
        (false, true) => "time missed",
        (false, false) => "both missed",
    };
    let (ours, rust) = (micro(times.ours), micro(times.rust));
    println!(
        "| {work} | {ours:.3} | {rust:.3} | {:.2} | {limits} |",
        times.ratio()
    );
}

pub fn section() {
    let shelf = full_shelf(1);
    println!("\n## The queues, 16 ports, {MOST_CELLS} cells held\n");
    println!("One call through the C form against the same in plain Rust, which tests the records by the");
    println!("same rule; both copy full records back before each slot. Limits: 8.5 µs a slot, 1 µs an add,");
    println!("and a ratio of {MOST_RATIO}. Both were first seen to forward the same cells.\n");
    println!("| Work | C form, µs | Rust, µs | Ratio | Limits |");
    println!("|---|---|---|---|---|");
    for (mode, number) in MODES {
        row(
            &format!("slot, {mode}"),
            slot_times(&shelf, number),
            MOST_SECONDS,
        );
    }
    row("add", add_times(&shelf), MOST_ADD_SECONDS);
}
