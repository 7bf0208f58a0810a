//! The salvage of files of some megabytes, sound and damaged, against plain Rust.

use bellacush_tests::calls;
use bellacush_tests::random::Random;
use bellacush_tests::salvages::{salvaged, SALVAGE_WORDS};
use bellacush_tests::traces::{contents_len, Trace, MOST_BODIES, MOST_BODY_SLOTS};
use std::hint::black_box;

use crate::plain_salvage;
use crate::timing::{compare, Times};

/// Bodies of 63,365 bytes each.
fn long_bodies() -> Vec<u8> {
    Trace::any(&mut Random::new(1), 16, &[MOST_BODY_SLOTS; 64]).file()
}

/// As many bodies as a trace can have, of 16 bytes each: the entries weigh most.
fn short_bodies() -> Vec<u8> {
    Trace::any(&mut Random::new(1), 1, &[1; MOST_BODIES]).file()
}

/// A bit of every eighth body changed.
fn damaged(mut file: Vec<u8>, bodies: usize) -> Vec<u8> {
    let first = contents_len(bodies);
    let len = (file.len() - first) / bodies;
    for k in (0..bodies).step_by(8) {
        file[first + k * len + len / 2] ^= 1;
    }
    file
}

fn measure(file: &[u8]) -> Times {
    let (mut out, mut rust_out) = (vec![0; file.len()], vec![0; file.len()]);
    let (mut fates, mut rust_fates) = ([0; MOST_BODIES], [0; MOST_BODIES]);
    let mut shown = [0; SALVAGE_WORDS];
    let expected = salvaged(file).expect("its contents are sound");
    assert_eq!(calls::salvage(file, &mut out, &mut fates, &mut shown), 0);
    let len = plain_salvage::salvage(file, &mut rust_out, &mut rust_fates);
    assert_eq!(len, Some(expected.file.len()));
    assert_eq!(out[..shown[0] as usize], expected.file);
    assert_eq!(rust_out[..expected.file.len()], expected.file);
    assert_eq!(fates[..shown[1] as usize], expected.fates);
    assert_eq!(rust_fates, fates);
    compare(
        file.len(),
        || {
            black_box(calls::salvage(
                black_box(file),
                &mut out,
                &mut fates,
                &mut shown,
            ));
        },
        || {
            let file = black_box(file);
            black_box(plain_salvage::salvage(file, &mut rust_out, &mut rust_fates));
        },
    )
}

fn row(work: &str, file: &[u8]) {
    let times = measure(file);
    let [ours, rust] = [times.ours, times.rust].map(|seconds| 1e-6 / seconds);
    println!(
        "| {work} | {:.2} | {ours:.0} | {rust:.0} | {:.2} |",
        file.len() as f64 * 1e-6,
        times.ratio()
    );
}

pub fn section() {
    let (long, short) = (long_bodies(), short_bodies());
    println!("\n## The salvage of a trace\n");
    println!(
        "From the bytes of a file to those of the new trace, all checks included, in megabytes of"
    );
    println!(
        "the file a second, against plain Rust with the check by 16 bytes; both were first seen to"
    );
    println!("salvage the same. The ratio is that of the times; no limit is set.\n");
    println!("| File | MB | C form, MB/s | Rust, MB/s | Ratio |");
    println!("|---|---|---|---|---|");
    row("64 bodies of 360 slots, 16 ports", &long);
    row(
        "the same, every eighth body damaged",
        &damaged(long.clone(), 64),
    );
    row("the same, cut in its middle", &long[..long.len() / 2]);
    row("1024 bodies of a slot, one port", &short);
    row(
        "the same, every eighth body damaged",
        &damaged(short.clone(), MOST_BODIES),
    );
}
