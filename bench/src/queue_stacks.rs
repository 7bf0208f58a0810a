//! How much stack the calls of the queues use, the scheduler's own included.

use bellacush_tests::queues::{self, AddCall, CountCall, SlotCall, CELL_LEN};
use bellacush_tests::slots::{State, TABLE_LEN};

use crate::queues::{full_shelf, PORTS};
use crate::stack::{taken, Job, Stack};
use crate::EVERY_MODE;

const MOST_STACK: usize = 2048;
const SHELVES: u64 = 8;

/// A call of the queues; a slot has its mode with it.
#[derive(Clone, Copy)]
enum Call {
    Slot(SlotCall, u32),
    Add(AddCall),
    Count(CountCall),
}

impl Call {
    fn all() -> Vec<(String, Call)> {
        let slots = EVERY_MODE.map(|(mode, number)| {
            let slot = Call::Slot(queues::SLOT, number);
            (format!("slot, {mode}"), slot)
        });
        let others = [
            ("add", Call::Add(queues::ADD)),
            ("count", Call::Count(queues::COUNT)),
        ];
        let others = others.map(|(name, call)| (name.to_string(), call));
        slots.into_iter().chain(others).collect()
    }

    /// The same with a call that needs no stack of its own.
    fn idle(self) -> Call {
        match self {
            Call::Slot(_, mode) => Call::Slot(idle_slot, mode),
            Call::Add(_) => Call::Add(idle_add),
            Call::Count(_) => Call::Count(idle_count),
        }
    }
}

unsafe extern "C" fn idle_slot(
    _: *mut u8,
    _: usize,
    _: u32,
    _: u32,
    _: *mut u32,
    _: usize,
    _: *const u8,
    _: usize,
    _: *mut u8,
    _: usize,
    _: *mut u8,
    _: usize,
) -> u32 {
    0
}

unsafe extern "C" fn idle_add(
    _: *mut u32,
    _: usize,
    _: u32,
    _: u32,
    _: *const u8,
    _: usize,
    _: *mut u8,
    _: usize,
) -> u32 {
    0
}

unsafe extern "C" fn idle_count(_: *const u32, _: usize, _: u32, _: u32) -> u32 {
    0
}

#[derive(Clone)]
struct QueueJob {
    call: Call,
    full: Vec<u32>,
    records: Vec<u32>,
    pool: Vec<u8>,
    state: Vec<u8>,
    cell: [u8; CELL_LEN],
    out: Vec<u8>,
    table: Vec<u8>,
    word: u32,
}

impl QueueJob {
    fn new(call: Call, seed: u64) -> QueueJob {
        let shelf = full_shelf(seed);
        QueueJob {
            call,
            full: shelf.records,
            records: Vec::new(),
            pool: shelf.pool,
            state: Vec::new(),
            cell: [7; CELL_LEN],
            out: vec![0; CELL_LEN * PORTS],
            table: vec![0; TABLE_LEN],
            word: 0,
        }
    }
}

impl Job for QueueJob {
    fn prepare(&mut self) {
        self.records = self.full.clone();
        self.state = State::fresh(PORTS, 0).bytes();
        if let Call::Add(_) = self.call {
            self.records[2] -= 1;
        }
    }

    fn run(&mut self) {
        let records_len = self.records.len();
        // sound: each pointer comes from a buffer of the length beside it
        self.word = unsafe {
            match self.call {
                Call::Slot(call, mode) => call(
                    self.state.as_mut_ptr(),
                    self.state.len(),
                    0,
                    mode,
                    self.records.as_mut_ptr(),
                    records_len,
                    self.pool.as_ptr(),
                    self.pool.len(),
                    self.out.as_mut_ptr(),
                    self.out.len(),
                    self.table.as_mut_ptr(),
                    self.table.len(),
                ),
                Call::Add(call) => call(
                    self.records.as_mut_ptr(),
                    records_len,
                    3,
                    5,
                    self.cell.as_ptr(),
                    CELL_LEN,
                    self.pool.as_mut_ptr(),
                    self.pool.len(),
                ),
                Call::Count(call) => call(self.records.as_ptr(), records_len, 3, 5),
            }
        };
    }
}

/// The most bytes that the call takes over some full shelves; of an add, the last cell's.
fn most_stack(call: Call) -> usize {
    let mut stack = Stack::new();
    let mut most = 0;
    for seed in 1..=SHELVES {
        let mut job = QueueJob::new(call, seed);
        let mut idle = QueueJob {
            call: call.idle(),
            ..job.clone()
        };
        most = most.max(taken(&mut stack, &mut idle, &mut job));
        assert_eq!(job.word % 256, 0, "a call was declined");
    }
    most
}

pub fn section() {
    println!("\n## The stack that one call of the queues uses\n");
    println!("Measured as that of the slot call, the scheduler's own included: the most over {SHELVES} shelves");
    println!("of 16 ports with 960 cells held, of an add with 959. Limit: {MOST_STACK} bytes, in a test too.\n");
    println!("| Call | Bytes | Limit |");
    println!("|---|---|---|");
    for (name, call) in Call::all() {
        let bytes = most_stack(call);
        let met = if bytes <= MOST_STACK { "met" } else { "missed" };
        println!("| {name} | {bytes} | {met} |");
    }
}

#[cfg(test)]
mod tests {
    use super::*;

    #[test]
    fn a_call_of_the_queues_keeps_to_its_stack() {
        for (name, call) in Call::all() {
            let bytes = most_stack(call);
            assert!(bytes <= MOST_STACK, "{name}: {bytes} bytes of stack");
        }
    }
}
