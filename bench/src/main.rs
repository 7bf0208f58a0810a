//! The C form measured against a plain Rust slot, in tables for docs/PERFORMANCE.md.

#[cfg(before)]
mod before;
mod best;
mod by_columns;
mod central;
mod feeds;
mod imports;
mod long_checks;
mod plain;
mod plain_check;
mod plain_import;
mod plain_ledger;
mod plain_queues;
#[cfg(plain_rule)]
mod plain_rule;
mod plain_salvage;
mod queue_stacks;
mod queues;
mod replays;
mod salvages;
mod stack;
mod timing;
mod traces;

use bellacush_tests::calls::{self, SlotCall};
use bellacush_tests::frames::Config;
use bellacush_tests::measured;
use bellacush_tests::slots::STATE_LEN;
use bellacush_tests::traffic::Traffic;
use std::hint::black_box;
use timing::{compare, Times, BATCHES, BATCH_MILLISECONDS};
use traces::{agree, Load, Player, Trace, FULL, HALF, LIGHT};

const MOST_SECONDS: f64 = 8.5e-6;
const MOST_RATIO: f64 = 2.0;
const MOST_CHECK_RATIO: f64 = 1.5;
const MOST_STACK: usize = 512;
const MODES: [(&str, u32); 3] = [
    ("central", 0),
    ("distributed, limit 4", 4),
    ("diagonal first", 17),
];

fn main() {
    println!("Command: make bench. Processor: {}.", processor());
    println!(
        "Both are release builds, timed in this one run on the same traces, in turn. A time is"
    );
    println!(
        "the median of {BATCHES} batches of {BATCH_MILLISECONDS} ms of the thread's processor time."
    );
    println!(
        "Buffers are warm and outputs are not cleared. The two were first seen to answer every"
    );
    println!("trace alike. Limits: 8.5 µs a slot, and a ratio of 2.0 to the plain Rust slot.");
    slots();
    checks();
    long_checks::section();
    growth();
    feeds::section();
    queues::section();
    imports::section();
    replays::section();
    salvages::section();
    central::section();
    #[cfg(plain_rule)]
    plain_rule::section();
    stacks();
    queue_stacks::section();
    best::section();
    #[cfg(before)]
    before::compared();
}

fn processor() -> String {
    let known = std::fs::read_to_string("/proc/cpuinfo").unwrap_or_default();
    let model = known.lines().find(|line| line.starts_with("model name"));
    let name = model.and_then(|line| line.split(": ").nth(1));
    name.unwrap_or("unknown").to_string()
}

fn measure(trace: &Trace) -> Times {
    agree(trace, calls::slot, plain::slot);
    let mut ours = Player::new(calls::slot, trace);
    let mut rust = Player::new(plain::slot, trace);
    compare(trace.blocks.len(), || ours.pass(trace), || rust.pass(trace))
}

fn verdict(times: Times) -> &'static str {
    match (times.ours < MOST_SECONDS, times.ratio() <= MOST_RATIO) {
        (true, true) => "met",
        (true, false) => "ratio missed",
        (false, true) => "time missed",
        (false, false) => "both missed",
    }
}

fn micro(seconds: f64) -> f64 {
    seconds * 1e6
}

fn slots() {
    println!("\n## One slot, bytes to bytes\n");
    println!("| Ports | Load | Mode | C form, µs | Rust, µs | Ratio | C form, slots/s | Rust, slots/s | Limits |");
    println!("|---|---|---|---|---|---|---|---|---|");
    for ports in [16, 4] {
        for load in [FULL, HALF, LIGHT] {
            for mode in MODES {
                slot_row(ports, load, mode);
            }
        }
    }
    println!("\nFull: every bit of req set; half: each with chance 1/2; light: with chance 1/16.");
}

fn slot_row(ports: usize, load: Load, (mode, limit): (&str, u32)) {
    let times = measure(&Trace::new(ports, load, limit));
    println!(
        "| {ports} | {} | {mode} | {:.3} | {:.3} | {:.2} | {:.0} | {:.0} | {} |",
        load.name,
        micro(times.ours),
        micro(times.rust),
        times.ratio(),
        1.0 / times.ours,
        1.0 / times.rust,
        verdict(times)
    );
}

fn checks() {
    println!("\n## The checks of one slot of 16 ports\n");
    println!("The checks alone, 16 × 9 and 16 × 5 bytes; limit: a ratio of {MOST_CHECK_RATIO}. First all in one");
    println!(
        "call, where both compilers know the lengths, as they do in a slot; then a call for each,"
    );
    println!(
        "where neither does. Then the frame calls of the C form, which check and copy and are not"
    );
    println!("inlined, against the same in Rust, which is.\n");
    println!("| Work | Proved, µs | Rust, µs | Ratio | Limit |");
    println!("|---|---|---|---|---|");
    check_row("checks in one call", checking_at_once(), true);
    check_row("a call for each check", checking_each(), true);
    check_row("read 16 configuration frames", reading(), false);
    check_row("write 16 grant frames", writing(), false);
}

fn check_row(work: &str, times: Times, limited: bool) {
    let (ours, rust, ratio) = (micro(times.ours), micro(times.rust), times.ratio());
    let limit = match (limited, ratio <= MOST_CHECK_RATIO) {
        (false, _) => "none",
        (true, true) => "met",
        (true, false) => "missed",
    };
    println!("| {work} | {ours:.3} | {rust:.3} | {ratio:.2} | {limit} |");
}

#[inline(never)]
fn rust_check(bytes: &[u8]) -> u16 {
    plain::check(bytes)
}

#[inline(never)]
fn rust_checks(bytes: &[u8]) -> u16 {
    let both = |part: &[u8]| plain::check(part) ^ plain::check(&part[..5]);
    bytes.chunks_exact(9).fold(0, |sum, part| sum ^ both(part))
}

fn checked_bytes() -> Vec<u8> {
    (0..16 * 9).map(|k| (k * 37 % 251) as u8).collect()
}

fn checking_at_once() -> Times {
    let bytes = checked_bytes();
    assert_eq!(measured::checks(&bytes), rust_checks(&bytes));
    compare(
        1,
        || {
            black_box(measured::checks(black_box(&bytes)));
        },
        || {
            black_box(rust_checks(black_box(&bytes)));
        },
    )
}

fn checking_each() -> Times {
    let bytes = checked_bytes();
    let pass = |check: fn(&[u8]) -> u16| {
        for part in black_box(&bytes).chunks_exact(9) {
            black_box(check(black_box(part)));
            black_box(check(black_box(&part[..5])));
        }
    };
    assert!(bytes
        .chunks(9)
        .all(|part| measured::check(part) == rust_check(part)));
    compare(1, || pass(measured::check), || pass(rust_check))
}

fn reading() -> Times {
    let frames: Vec<Vec<u8>> = (0..16).map(|host| Config::asking(host).frame()).collect();
    let (mut our_part, mut rust_part) = ([0; 8], [0; 8]);
    compare(
        1,
        || {
            for frame in black_box(&frames) {
                assert_eq!(calls::read_config(frame, &mut our_part), 0);
            }
        },
        || {
            for frame in black_box(&frames) {
                assert!(plain::config_is_right(frame));
                rust_part.copy_from_slice(&frame[1..9]);
            }
            black_box(&mut rust_part);
        },
    )
}

fn writing() -> Times {
    let (mut our_out, mut rust_out) = ([0; 112], [0; 112]);
    compare(
        1,
        || {
            for host in 0..16 {
                let part = &mut our_out[7 * host..];
                assert_eq!(calls::write_grant3(host as u32, 1, 0, 0, 32, part), 0);
            }
        },
        || {
            for host in 0..16 {
                let (flags, set) = black_box((1, 32));
                plain::write_grant(host as u8, flags, set, &mut rust_out[7 * host..]);
            }
            black_box(&mut rust_out);
        },
    )
}

fn growth() {
    println!("\n## How cost grows with n, half load\n");
    println!("| n | Central: C form, µs | Rust, µs | Ratio | Limits | Distributed, limit 4: C form, µs | Rust, µs | Ratio | Limits | Diagonal first: C form, µs | Rust, µs | Ratio | Limits |");
    println!("|---|---|---|---|---|---|---|---|---|---|---|---|---|");
    for ports in 1..=16 {
        print!("| {ports} |");
        for (_, limit) in MODES {
            let times = measure(&Trace::new(ports, HALF, limit));
            print!(
                " {:.3} | {:.3} | {:.2} | {} |",
                micro(times.ours),
                micro(times.rust),
                times.ratio(),
                verdict(times)
            );
        }
        println!();
    }
}

fn stacks() {
    println!("\n## The stack that one slot call uses\n");
    println!("The high-water mark on a painted stack, below the caller's frame, the arguments and");
    println!("the return address: the most over 753 slots of 16 ports, of full and of half load");
    println!("and with plans, cleared votes and spoilt frames. Limit: {MOST_STACK} bytes, in a test too.\n");
    println!("| Mode | Bytes | Limit |");
    println!("|---|---|---|");
    for (mode, limit) in EVERY_MODE {
        let bytes = most_stack(calls::SLOT, STATE_LEN, limit);
        let met = if bytes <= MOST_STACK { "met" } else { "missed" };
        println!("| {mode} | {bytes} | {met} |");
    }
}

const EVERY_MODE: [(&str, u32); 4] = [MODES[0], MODES[1], ("distributed, limit 16", 16), MODES[2]];

fn most_stack(call: SlotCall, state_len: usize, limit: u32) -> usize {
    let mixed = Traffic {
        asked: 32,
        planned: 4,
        vote_cleared: 1,
        spoilt: 8,
    };
    let loads = [Traffic::requests(64), Traffic::requests(32), mixed];
    let most = loads.map(|load| stack::used(call, state_len, &Trace::of(16, limit, load)));
    most.into_iter().max().unwrap_or(0)
}

#[cfg(test)]
mod tests {
    use super::*;

    #[test]
    fn a_slot_keeps_to_its_stack() {
        for (mode, limit) in EVERY_MODE {
            let bytes = most_stack(calls::SLOT, STATE_LEN, limit);
            assert!(bytes <= MOST_STACK, "{mode}: {bytes} bytes of stack");
        }
    }
}
