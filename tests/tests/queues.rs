//! The queues of the compact shelf against plain lists: random histories, every refusal, and records
//! spoilt in every field.

use bellacush_tests::lent::Lent;
use bellacush_tests::queues::{
    add, count, declined, new_queues, Cell, Shelf, CELL_LEN, HEAD_LEN, MOST_CELLS,
};
use bellacush_tests::random::{cases, Random};

const MODES: [u32; 5] = [0, 1, 4, 16, 17];

fn cell(random: &mut Random) -> Cell {
    let bytes = random.bytes(CELL_LEN);
    let mut cell = [0; CELL_LEN];
    cell.copy_from_slice(&bytes);
    cell
}

/// Adds and slots in a random mix: few slots until the pool is full, then many for a while.
fn history(random: &mut Random, ports: usize, cells: usize, calls: usize) {
    let mut shelf = Shelf::new(ports, cells);
    let (mut came, mut refused, mut draining) = (0, 0, 0);
    for _ in 0..calls {
        let adds = if draining > 0 { 16 } else { 31 };
        draining -= usize::from(draining > 0);
        if random.chance(adds, 32) {
            let (i, t) = (random.below(ports), random.below(ports));
            if shelf.add(i, t, cell(random)) == 0 {
                came += 1;
            } else {
                (refused, draining) = (refused + 1, cells / 4 + 8);
            }
        } else {
            let before = shelf.held();
            shelf.serve(random.pick(&MODES));
            came -= before - shelf.held();
        }
        assert_eq!(came, shelf.held());
    }
    shelf.counts();
    assert!(refused > 0, "the pool never filled up");
}

#[test]
fn queues_answer_as_plain_lists() {
    let mut random = Random::of_test("queues_answer_as_plain_lists");
    for _ in 0..cases(60) {
        let ports = random.between(1, 16);
        let cells = random.between(1, 40);
        history(&mut random, ports, cells, 400);
    }
}

#[test]
fn large_pools_answer_as_plain_lists() {
    let mut random = Random::of_test("large_pools_answer_as_plain_lists");
    for ports in [1, 3, 16] {
        history(&mut random, ports, MOST_CELLS, 4500);
    }
}

#[test]
fn a_full_pool_is_emptied_in_the_order_of_arrival() {
    let mut random = Random::of_test("a_full_pool_is_emptied_in_the_order_of_arrival");
    for mode in MODES {
        let mut shelf = Shelf::new(16, MOST_CELLS);
        while shelf.held() < MOST_CELLS {
            let (i, t) = (random.below(16), random.below(16));
            assert_eq!(shelf.add(i, t, cell(&mut random)), 0);
        }
        assert_eq!(shelf.add(0, 0, cell(&mut random)), 16);
        let mut slots = 0;
        while shelf.held() > 0 {
            shelf.serve(mode);
            slots += 1;
            assert!(slots <= MOST_CELLS, "a slot with requests forwards a cell");
        }
        shelf.counts();
    }
}

/// Whatever the other queues hold and in any mode, a head waits for fewer than n² served slots.
#[test]
fn a_head_is_forwarded_within_n_squared_slots() {
    let mut random = Random::of_test("a_head_is_forwarded_within_n_squared_slots");
    for ports in 1..=8 {
        for _ in 0..cases(8) {
            let mut shelf = Shelf::new(ports, 4 * ports * ports);
            for k in 0..2 * ports * ports {
                shelf.add(k / ports % ports, k % ports, cell(&mut random));
            }
            for _ in 0..random.below(2 * ports) {
                shelf.serve(random.pick(&MODES));
            }
            let (i, t) = (random.below(ports), random.below(ports));
            shelf.add(i, t, cell(&mut random));
            let mut served = 0;
            let waiting = shelf.list(i, t).len();
            while shelf.list(i, t).len() == waiting {
                assert!(served < ports * ports, "a head waited {served} slots");
                shelf.serve(random.pick(&MODES));
                served += 1;
                for other in (0..ports).filter(|&other| other != i) {
                    shelf.add(other, t, cell(&mut random));
                }
            }
        }
    }
}

#[test]
fn new_queues_are_refused_in_order() {
    let tests = [
        (HEAD_LEN + 4, 0, 4 * CELL_LEN, 1),
        (HEAD_LEN + 4, 17, 4 * CELL_LEN, 1),
        (HEAD_LEN + 3, 16, 4 * CELL_LEN, 8),
        (HEAD_LEN, 16, 0, 17),
        (
            HEAD_LEN + MOST_CELLS + 1,
            16,
            (MOST_CELLS + 1) * CELL_LEN,
            17,
        ),
        (HEAD_LEN + 4, 16, 4 * CELL_LEN + 1, 17),
        (HEAD_LEN + 4, 16, 4 * CELL_LEN, 0),
        (HEAD_LEN + MOST_CELLS, 1, MOST_CELLS * CELL_LEN, 0),
        (HEAD_LEN + 1, 1, CELL_LEN, 0),
    ];
    for (words, ports, pool_len, number) in tests {
        let mut records = Lent::new(&vec![0xB7B7_B7B7; words]);
        assert_eq!(new_queues(records.lend(), ports, pool_len), number);
        let kept = records.back().iter().all(|&word| word == 0xB7B7_B7B7);
        assert_eq!(kept, number != 0);
    }
}

/// An add that must decline: nothing lent changes.
fn add_declined(records: &[u32], pair: (u32, u32), cell_len: usize, pool_len: usize) -> u32 {
    let (mut lent, mut pool) = (Lent::new(records), Lent::new(&vec![0x5C; pool_len]));
    let number = add(lent.lend(), pair, &vec![1; cell_len], pool.lend());
    assert_ne!(number, 0, "the cell was added");
    assert_eq!(lent.back(), records);
    assert!(pool.back().iter().all(|&byte| byte == 0x5C));
    number
}

#[test]
fn an_add_is_refused_in_order() {
    let shelf = Shelf::new(4, 3);
    let pool_len = shelf.pool.len();
    for len in [0, 63, 65] {
        assert_eq!(add_declined(&shelf.records, (0, 0), len, pool_len), 8);
    }
    for pair in [(4, 0), (0, 4), (u32::MAX, 0), (0, u32::MAX)] {
        assert_eq!(add_declined(&shelf.records, pair, CELL_LEN, pool_len), 17);
        assert_eq!(count(&shelf.records, pair), (17, 0));
    }
    for len in [0, CELL_LEN, pool_len - 1, pool_len + 1, 4 * CELL_LEN] {
        assert_eq!(add_declined(&shelf.records, (0, 0), CELL_LEN, len), 17);
    }
    for len in [0, 1, 2, HEAD_LEN, shelf.records.len() - 1] {
        let number = add_declined(&shelf.records[..len], (0, 0), CELL_LEN, pool_len);
        assert_eq!(number, if len == 0 { 1 } else { 17 });
    }
    let zeros = vec![0; shelf.records.len()];
    assert_eq!(add_declined(&zeros, (0, 0), CELL_LEN, pool_len), 1);
    assert_eq!(count(&zeros, (0, 0)), (1, 0));
}

#[test]
fn a_slot_is_refused_in_order() {
    let mut random = Random::of_test("a_slot_is_refused_in_order");
    let mut shelf = Shelf::new(4, 6);
    shelf.add(1, 2, cell(&mut random));
    let (state, pool_len, room) = (shelf.state.bytes(), shelf.pool.len(), 4 * CELL_LEN);
    assert_eq!(declined(&shelf, &state[..8], 0, 0, pool_len, room), 8);
    for len in [0, pool_len - 1, pool_len + CELL_LEN] {
        assert_eq!(declined(&shelf, &state, 1, 99, len, 0), 17);
    }
    let mut other = state.clone();
    other[0] = 5;
    assert_eq!(declined(&shelf, &other, 0, 0, pool_len, 5 * CELL_LEN), 17);
    let mut offset = state.clone();
    offset[1] = 4;
    assert_eq!(declined(&shelf, &offset, 1, 99, pool_len, 0), 2);
    assert_eq!(declined(&shelf, &state, u32::MAX, 99, pool_len, 0), 3);
    assert_eq!(declined(&shelf, &state, 1, 99, pool_len, 0), 4);
    assert_eq!(declined(&shelf, &state, 0, 18, pool_len, 0), 5);
    for len in [0, room - 1] {
        assert_eq!(declined(&shelf, &state, 0, 0, pool_len, len), 7);
    }
    shelf.serve(0);
    assert_eq!(shelf.held(), 0);
}

/// Every word of the records spoilt: only a change that leaves another order of the same kind can be
/// taken.
#[test]
fn spoilt_records_are_refused() {
    let mut random = Random::of_test("spoilt_records_are_refused");
    for _ in 0..cases(40) {
        let (ports, cells) = (random.between(1, 16), random.between(2, 30));
        let mut shelf = Shelf::new(ports, cells);
        for _ in 0..random.below(cells) {
            let (i, t) = (random.below(ports), random.below(ports));
            shelf.add(i, t, cell(&mut random));
        }
        for k in 0..shelf.records.len() {
            let mut spoilt = shelf.clone();
            spoilt.records[k] = match random.below(4) {
                0 => random.long(),
                1 => spoilt.records[k] ^ (1 << random.below(32)),
                2 => spoilt.records[k].wrapping_add(256),
                _ => spoilt.records[HEAD_LEN + random.below(cells)],
            };
            if in_order(&spoilt.records) {
                continue;
            }
            let n = spoilt.records[0];
            let number = if n == 0 || n > 16 { 1 } else { 17 };
            assert_eq!(count(&spoilt.records, (0, 0)), (number, 0));
            assert_eq!(
                add_declined(&spoilt.records, (0, 0), CELL_LEN, shelf.pool.len()),
                number
            );
            let state = shelf.state.bytes();
            assert_eq!(
                declined(&spoilt, &state, 0, 0, shelf.pool.len(), 16 * CELL_LEN),
                17
            );
        }
    }
}

/// The order of records in our own words: head, then each cell of the pool once, and pairs of the
/// shelf.
fn in_order(records: &[u32]) -> bool {
    let [ports, cells, held] = [records[0], records[1], records[2]].map(|word| word as usize);
    let head = (1..=16).contains(&ports) && (1..=MOST_CELLS).contains(&cells);
    if !head || held > cells || records.len() != HEAD_LEN + cells {
        return false;
    }
    let entries = &records[HEAD_LEN..];
    let mut seen: Vec<usize> = entries.iter().map(|&entry| entry as usize / 256).collect();
    seen.sort_unstable();
    let paired = |&entry: &u32| (entry as usize / 16 % 16) < ports && (entry as usize % 16) < ports;
    seen == (0..cells).collect::<Vec<_>>() && entries.iter().all(paired)
}
