//! The check over a long slice measured against plain Rust that takes 8, 16 and 32 bytes at a
//! time.

use bellacush_tests::frames;
use bellacush_tests::measured;
use bellacush_tests::random::Random;
use std::hint::black_box;

use crate::plain_check::by;
use crate::timing::{compare, Times};
use crate::MOST_CHECK_RATIO;

/// The longest body of a trace, a block of 16 ports, and lengths between.
const LENGTHS: [usize; 5] = [LONGEST, 16_384, 4_096, 1_024, 176];
const LONGEST: usize = 63_365;

type CheckFn = fn(&[u8]) -> u16;

const RUST: [CheckFn; 3] = [by::<8>, by::<16>, by::<32>];

fn measure(bytes: &[u8], rust: CheckFn) -> Times {
    assert_eq!(measured::long_check(bytes), frames::check(bytes));
    assert_eq!(rust(bytes), frames::check(bytes));
    let pass = |check: CheckFn| {
        black_box(check(black_box(bytes)));
    };
    compare(bytes.len(), || pass(measured::long_check), || pass(rust))
}

fn nano(seconds: f64) -> f64 {
    seconds * 1e9
}

fn row(bytes: &[u8]) {
    let times = RUST.map(|rust| measure(bytes, rust));
    let fastest = times.into_iter().min_by(|a, b| a.rust.total_cmp(&b.rust));
    let fastest = fastest.expect("there are three");
    let limit = match (bytes.len() == LONGEST, fastest.ratio() <= MOST_CHECK_RATIO) {
        (false, _) => "none",
        (true, true) => "met",
        (true, false) => "missed",
    };
    let [by_8, by_16, by_32] = times.map(|time| nano(time.rust));
    println!(
        "| {} | {:.3} | {by_8:.3} | {by_16:.3} | {by_32:.3} | {:.2} | {limit} |",
        bytes.len(),
        nano(fastest.ours),
        fastest.ratio(),
    );
}

pub fn section() {
    println!("\n## The check over a long slice\n");
    println!("Nanoseconds a byte, against plain Rust with a table for each of 8, 16 or 32 bytes taken at");
    println!("a time. The ratio is to the fastest of these; limit: {MOST_CHECK_RATIO} over the longest body of a");
    println!(
        "trace. The proved one makes its tables at each call, which shows over short slices.\n"
    );
    println!("| Bytes | Proved | Rust by 8 | by 16 | by 32 | Ratio | Limit |");
    println!("|---|---|---|---|---|---|---|");
    let mut random = Random::new(1);
    let bytes: Vec<u8> = (0..LONGEST).map(|_| random.draw() as u8).collect();
    for length in LENGTHS {
        row(&bytes[..length]);
    }
}
