//! Every slot of one, two and three ports, as far as that can be gone through.

use bellacush_tests::frames::Config;
use bellacush_tests::random::Random;
use bellacush_tests::slots::{Slot, State};

/// Row i of a table that is written as one number, n bits a row.
fn row(table: usize, i: usize, n: usize) -> u16 {
    (table >> (i * n) & ((1 << n) - 1)) as u16
}

/// Hosts whose requests, plans and cleared votes are these tables.
fn hosts(n: usize, asked: usize, planned: usize, cleared: usize) -> Vec<Config> {
    (0..n)
        .map(|i| Config {
            req: row(asked, i, n),
            pre: row(planned, i, n),
            ben: !row(cleared, i, n),
            qen: 0,
        })
        .collect()
}

fn agrees_everywhere(n: usize, modes: &[u32], hosts: &[Config]) {
    for offsets in 0..n * n {
        for &mode in modes {
            let state = State::at(n, offsets % n, offsets / n, 9);
            assert_eq!(Slot::of_hosts(state, mode, hosts).agreed().number(), 0);
        }
    }
}

#[test]
fn of_one_port() {
    for fields in 0..8 {
        agrees_everywhere(
            1,
            &[0, 1, 2, 17],
            &hosts(1, fields & 1, fields >> 1 & 1, fields >> 2),
        );
    }
}

#[test]
fn of_two_ports() {
    for fields in 0..1 << 12 {
        let (asked, planned, cleared) = (fields & 15, fields >> 4 & 15, fields >> 8);
        agrees_everywhere(2, &[0, 1, 2, 17], &hosts(2, asked, planned, cleared));
    }
}

#[test]
fn of_three_ports_by_what_is_asked() {
    for asked in 0..1 << 9 {
        agrees_everywhere(3, &[0, 1, 2, 3, 17], &hosts(3, asked, 0, 0));
    }
}

#[test]
fn of_three_ports_by_what_is_planned() {
    let mut random = Random::of_test("three_ports_planned");
    for planned in 0..1 << 9 {
        for asked in [0x1FF, random.below(1 << 9), random.below(1 << 9)] {
            agrees_everywhere(3, &[0, 1, 2, 17], &hosts(3, asked, planned, 0));
        }
    }
}

#[test]
fn of_three_ports_by_the_votes() {
    let mut random = Random::of_test("three_ports_votes");
    for cleared in 0..1 << 9 {
        let planned = random.below(1 << 9) & random.below(1 << 9);
        agrees_everywhere(
            3,
            &[0, 2, 17],
            &hosts(3, random.below(1 << 9), planned, cleared),
        );
    }
}
