//! The central rule four ways: plain and by columns, proved and in Rust. From tables to sets, and,
//! beside an archive of the same sources in which the plain rule serves every slot, from bytes to
//! bytes and over whole traces.

use bellacush_tests::calls;
use bellacush_tests::measured;
use bellacush_tests::slots::{State, TABLE_LEN};

use crate::plain::{Place, Rows, Work};
use crate::timing::compare_all;
use crate::traces::{Load, Trace, FULL, HALF, LIGHT};
use crate::{by_columns, micro, plain};

pub const LOADS: [Load; 3] = [FULL, HALF, LIGHT];
pub const HEADS: &str = "Plain, µs | Columns, µs | Plain Rust, µs | Rust by columns, µs | To plain | To Rust by columns";

/// A table of live requests as the C form lays it out, and the offsets that it meets.
struct Requests {
    at: Place,
    live: Vec<u8>,
}

/// From the live requests to the sets held.
type Rule = fn(Place, &[u8], &mut [u8]);

const RULES: [Rule; 4] = [plain_rule, column_rule, plain_rust, rust_by_columns];

fn plain_rule(at: Place, live: &[u8], sets: &mut [u8]) {
    measured::plain_rule([at.n, at.i, at.j], live, sets);
}

fn column_rule(at: Place, live: &[u8], sets: &mut [u8]) {
    measured::column_rule([at.n, at.i, at.j], live, sets);
}

#[inline(never)]
fn plain_rust(at: Place, live: &[u8], sets: &mut [u8]) {
    rust_rule(plain::central, at, live, sets);
}

#[inline(never)]
fn rust_by_columns(at: Place, live: &[u8], sets: &mut [u8]) {
    rust_rule(by_columns::central, at, live, sets);
}

fn rust_rule(central: impl Fn(Place, &mut Work), at: Place, live: &[u8], sets: &mut [u8]) {
    let mut work = Work {
        live: rows(live),
        held: [0; 16],
    };
    central(at, &mut work);
    plain::put_table(&work.held, sets);
}

fn rows(table: &[u8]) -> Rows {
    let mut rows = [0; 16];
    for (row, bytes) in rows.iter_mut().zip(table.chunks_exact(2)) {
        *row = u16::from_be_bytes([bytes[0], bytes[1]]);
    }
    rows
}

fn requests(trace: &Trace) -> Vec<Requests> {
    let n = trace.ports;
    let slots = trace.blocks.iter().enumerate();
    slots
        .map(|(k, block)| {
            let (i, j) = (k % n, k / n % n);
            let mut live = vec![0; TABLE_LEN];
            let state = State::fresh(n, 0).bytes();
            assert_eq!(calls::asked(&state, block, &mut live), 0);
            Requests {
                at: Place { n, i, j },
                live,
            }
        })
        .collect()
}

fn rule_times(trace: &Trace) -> [f64; 4] {
    let slots = requests(trace);
    for slot in &slots {
        let sets = RULES.map(|rule| {
            let mut sets = vec![0; TABLE_LEN];
            rule(slot.at, &slot.live, &mut sets);
            sets
        });
        assert!(sets.iter().all(|answer| *answer == sets[0]));
    }
    let mut sets = [[0; TABLE_LEN]; 4];
    let [a, b, c, d] = &mut sets;
    let pass = |rule: Rule, sets: &mut [u8]| {
        for slot in &slots {
            rule(slot.at, &slot.live, sets);
        }
    };
    let [one, two, three, four] = RULES;
    compare_all(
        slots.len(),
        [
            &mut || pass(one, a),
            &mut || pass(two, b),
            &mut || pass(three, c),
            &mut || pass(four, d),
        ],
    )
}

/// The four times, and the columns' ratios to the plain rule and to Rust by columns.
pub fn row(head: &str, times: [f64; 4], limit: &str) {
    let [plain, columns, rust, by_columns] = times.map(micro);
    println!(
        "| {head} | {plain:.3} | {columns:.3} | {rust:.3} | {by_columns:.3} | {:.2} | {:.2} |{limit}",
        columns / plain,
        columns / by_columns
    );
}

pub fn section() {
    println!("\n## The central rule from tables to sets\n");
    println!(
        "The rule alone, from the bytes of a table of live requests to those of the sets held:"
    );
    println!("the proved plain rule and the proved columns, and both in plain Rust. All four were");
    println!("first seen to answer alike.\n");
    println!("| Ports | Load | {HEADS} |");
    println!("|---|---|---|---|---|---|---|---|");
    for ports in 1..=16 {
        for load in LOADS {
            let times = rule_times(&Trace::new(ports, load, 0));
            row(&format!("{ports} | {}", load.name), times, "");
        }
    }
}
