//! The ledger's feed measured against a plain Rust ledger, and what it costs to find the sets
//! asked.

use bellacush_tests::calls;
use bellacush_tests::slots::{State, TABLE_LEN};
use std::hint::black_box;

use crate::timing::{compare, Times};
use crate::traces::{Load, Player, Trace, FULL, HALF, LIGHT};
use crate::{micro, plain_ledger, MOST_RATIO};

const PORTS: usize = 16;

/// A feed, as both implementations offer it.
type FeedFn = fn(&mut [u32], u32, &[u8], &[u8]) -> u32;

/// The sets asked and connected in one slot.
type Tables = (Vec<u8>, Vec<u8>);

/// Those of each slot of a run.
fn tables(trace: &Trace) -> Vec<Tables> {
    let mut player = Player::new(calls::slot, trace);
    let slots = trace.blocks.iter();
    slots
        .map(|block| {
            let mut asked = vec![0; TABLE_LEN];
            let state = State::fresh(PORTS, 0).bytes();
            assert_eq!(calls::asked(&state, block, &mut asked), 0);
            (asked, player.connected(trace, block))
        })
        .collect()
}

/// One implementation's ledger, warm and fed on and on.
struct Ledger {
    feed: FeedFn,
    words: Vec<u32>,
}

impl Ledger {
    fn new(feed: FeedFn) -> Ledger {
        Ledger {
            feed,
            words: vec![0; plain_ledger::LEDGER_LEN],
        }
    }

    fn pass(&mut self, slots: &[Tables]) {
        for (asked, connected) in black_box(slots) {
            let number = (self.feed)(&mut self.words, PORTS as u32, asked, connected);
            assert_eq!(number, 0, "a slot was not counted");
        }
    }
}

fn measure(slots: &[Tables]) -> Times {
    let (mut ours, mut rust) = (Ledger::new(calls::feed), Ledger::new(plain_ledger::feed));
    for _ in 0..4 {
        ours.pass(slots);
        rust.pass(slots);
        assert_eq!(ours.words, rust.words);
    }
    compare(slots.len(), || ours.pass(slots), || rust.pass(slots))
}

fn asking(trace: &Trace) -> Times {
    let (mut our_table, mut rust_table) = ([0; TABLE_LEN], [0; TABLE_LEN]);
    let state = State::fresh(PORTS, 0);
    let (bytes, owners) = (state.bytes(), black_box(state.owners));
    for block in &trace.blocks {
        calls::asked(&bytes, block, &mut our_table);
        plain_ledger::asked(PORTS, owners, block, &mut rust_table);
        assert_eq!(our_table, rust_table);
    }
    compare(
        trace.blocks.len(),
        || {
            for block in black_box(&trace.blocks) {
                calls::asked(&bytes, block, &mut our_table);
            }
        },
        || {
            for block in black_box(&trace.blocks) {
                plain_ledger::asked(PORTS, owners, block, &mut rust_table);
            }
        },
    )
}

fn row(work: &str, load: Load, times: Times, limited: bool) {
    let (ours, rust, ratio) = (micro(times.ours), micro(times.rust), times.ratio());
    let limit = match (limited, ratio <= MOST_RATIO) {
        (false, _) => "none",
        (true, true) => "met",
        (true, false) => "missed",
    };
    let load = load.name;
    println!("| {work} | {load} | {ours:.3} | {rust:.3} | {ratio:.2} | {limit} |");
}

pub fn section() {
    println!("\n## The ledger, 16 ports\n");
    println!("One feed through the C form against a plain Rust ledger in the same words; limit: a");
    println!("ratio of {MOST_RATIO:.1}. First the tables of one slot again and again, so that what waits goes on");
    println!(
        "waiting; then those of a central run, whose requests are drawn anew in each slot. Then"
    );
    println!("the call that finds the sets asked, which reads the block's frames.\n");
    println!("| Work | Load | C form, µs | Rust, µs | Ratio | Limit |");
    println!("|---|---|---|---|---|---|");
    let runs = [FULL, HALF, LIGHT].map(|load| (load, Trace::new(PORTS, load, 0)));
    for (load, trace) in &runs {
        row("feed, one slot", *load, measure(&tables(trace)[..1]), true);
    }
    for (load, trace) in &runs {
        row("feed, a run", *load, measure(&tables(trace)), true);
    }
    for (load, trace) in &runs {
        row("sets asked", *load, asking(trace), false);
    }
}
