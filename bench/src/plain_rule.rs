//! The slot call and the replay beside those of an archive of the same sources in which the plain
//! rule serves every slot.

use bellacush_tests::calls::{self, SlotCall};
use bellacush_tests::slots::{CENTRAL, TABLE_LEN};

use crate::central::{row, HEADS, LOADS};
use crate::plain::{Place, Work};
use crate::replays::{contents_alone, long_run, recorded, replay, BodyFn};
use crate::timing::compare_all;
use crate::traces::{agree, Player, SlotFn, Trace, HALF};
use crate::{by_columns, plain, plain_check};

const MOST_OF_PLAIN: f64 = 1.03;
const MOST_OF_PLAIN_AT_HALF: f64 = 0.6;
const MOST_OF_RUST: f64 = 1.2;
const MODES: [(&str, u32); 2] = [("central", CENTRAL), ("diagonal first", 17)];

extern "C" {
    fn plain_rule_slot(
        state: *mut u8,
        state_len: usize,
        slot: u32,
        mode: u32,
        block: *const u8,
        block_len: usize,
        link: u16,
        out: *mut u8,
        out_len: usize,
        table: *mut u8,
        table_len: usize,
    ) -> u32;
    fn plain_rule_replay(
        n: u32,
        first: u32,
        slots: u32,
        body: *const u8,
        body_len: usize,
        tables: *mut u8,
        tables_len: usize,
    ) -> u32;
}

const PLAIN: SlotCall = plain_rule_slot;

fn slot_by_plain(
    state: &mut [u8],
    slot: u32,
    mode: u32,
    block: &[u8],
    link: u16,
    out: &mut [u8],
    table: &mut [u8],
) -> u32 {
    calls::slot_by(PLAIN, state, slot, mode, block, link, out, table)
}

fn replay_by_plain(n: u32, first: u32, slots: u32, body: &[u8], tables: &mut [u8]) -> u32 {
    // sound: pointers show the bytes of slices, of which only the tables may be written
    unsafe {
        plain_rule_replay(
            n,
            first,
            slots,
            body.as_ptr(),
            body.len(),
            tables.as_mut_ptr(),
            tables.len(),
        )
    }
}

/// The plain Rust slot with Rust by columns in it.
#[inline(never)]
fn slot_by_columns(
    state: &mut [u8],
    slot: u32,
    mode: u32,
    block: &[u8],
    link: u16,
    out: &mut [u8],
    table: &mut [u8],
) -> u32 {
    plain::slot_by(
        by_columns::central,
        state,
        slot,
        mode,
        block,
        link,
        out,
        table,
    )
}

const SLOTS: [SlotFn; 4] = [slot_by_plain, calls::slot, plain::slot, slot_by_columns];

fn slot_times(trace: &Trace) -> [f64; 4] {
    for slot in SLOTS {
        agree(trace, calls::slot, slot);
    }
    let mut players = SLOTS.map(|slot| Player::new(slot, trace));
    let [a, b, c, d] = &mut players;
    compare_all(
        trace.blocks.len(),
        [
            &mut || a.pass(trace),
            &mut || b.pass(trace),
            &mut || c.pass(trace),
            &mut || d.pass(trace),
        ],
    )
}

fn slots() {
    println!("\n## A central slot from bytes to bytes, plain and by columns\n");
    println!(
        "The slot call, and that of the same sources with the plain rule at every port count."
    );
    println!("Limits: {MOST_OF_PLAIN} of the plain rule's time; at 16 ports and half load {MOST_OF_PLAIN_AT_HALF} of it and");
    println!("{MOST_OF_RUST} of Rust by columns.\n");
    println!("| Mode | Ports | Load | {HEADS} | Limits |");
    println!("|---|---|---|---|---|---|---|---|---|---|");
    for (mode, word) in MODES {
        for ports in 1..=16 {
            for load in LOADS {
                let times = slot_times(&Trace::new(ports, load, word));
                let limits = verdict(times, ports == 16, load == HALF);
                row(&format!("{mode} | {ports} | {}", load.name), times, limits);
            }
        }
    }
}

fn verdict([plain, columns, _, by_columns]: [f64; 4], sixteen: bool, half: bool) -> &'static str {
    let most = if sixteen && half {
        MOST_OF_PLAIN_AT_HALF
    } else {
        MOST_OF_PLAIN
    };
    match (
        columns <= most * plain,
        !sixteen || columns <= MOST_OF_RUST * by_columns,
    ) {
        (true, true) => " met |",
        (false, true) => " plain missed |",
        (true, false) => " Rust missed |",
        (false, false) => " both missed |",
    }
}

/// A body's tables by plain Rust: its check, then block after block.
fn rust_replay(central: impl Fn(Place, &mut Work), n: u32, body: &[u8], tables: &mut [u8]) -> u32 {
    let (fields, check) = body.split_at(body.len() - 2);
    if plain_check::by::<16>(fields).to_be_bytes() != check {
        return 14;
    }
    let mut at = Place {
        n: n as usize,
        i: fields[1].into(),
        j: fields[2].into(),
    };
    let blocks = fields[3..].chunks_exact(11 * at.n);
    for (block, table) in blocks.zip(tables.chunks_exact_mut(TABLE_LEN)) {
        let (mut work, _) = plain::begin(at, 0, block);
        central(at, &mut work);
        plain::put_table(&work.held, table);
        at.i = at.next(at.i);
        if at.i == 0 {
            at.j = at.next(at.j);
        }
    }
    0
}

#[inline(never)]
fn plain_rust(n: u32, _: u32, _: u32, body: &[u8], tables: &mut [u8]) -> u32 {
    rust_replay(plain::central, n, body, tables)
}

#[inline(never)]
fn rust_by_columns(n: u32, _: u32, _: u32, body: &[u8], tables: &mut [u8]) -> u32 {
    rust_replay(by_columns::central, n, body, tables)
}

const BODIES: [BodyFn; 4] = [replay_by_plain, calls::replay, plain_rust, rust_by_columns];

fn replay_times(run: &Trace) -> [f64; 4] {
    let file = recorded(run);
    let mut tables = BODIES.map(|of_body| {
        let mut tables = vec![0; TABLE_LEN * run.blocks.len()];
        replay(contents_alone, of_body, &file, &mut tables);
        tables
    });
    assert!(tables.iter().all(|answer| *answer == tables[0]));
    let pass = |of_body: BodyFn, tables: &mut [u8]| replay(contents_alone, of_body, &file, tables);
    let ([a, b, c, d], [one, two, three, four]) = (&mut tables, BODIES);
    compare_all(
        run.blocks.len(),
        [
            &mut || pass(one, a),
            &mut || pass(two, b),
            &mut || pass(three, c),
            &mut || pass(four, d),
        ],
    )
}

fn replays() {
    println!("\n## The replay of whole traces, 16 ports, central, plain and by columns\n");
    println!(
        "From the bytes of a file of 1004 slots to their tables, a slot's share of it; the Rust"
    );
    println!("programs check each body, too.\n");
    println!("| Load | {HEADS} |");
    println!("|---|---|---|---|---|---|---|");
    for load in LOADS {
        row(load.name, replay_times(&long_run(load)), "");
    }
}

pub fn section() {
    slots();
    replays();
}
