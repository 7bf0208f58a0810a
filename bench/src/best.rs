//! What a slot joins of its requests, against the most that could be joined: how many, not how fast.

use bellacush_tests::calls;
use bellacush_tests::frames::Config;
use bellacush_tests::matching;
use bellacush_tests::random::Random;
use bellacush_tests::scheduler::asked;
use bellacush_tests::slots::{block, sets, CENTRAL, DIAGONAL};
use bellacush_tests::traffic::Traffic;

use crate::traces::{Load, Player, Trace, FULL, HALF, LIGHT};

const SLOTS: usize = 20_000;
const QUARTER: Load = Load {
    name: "quarter",
    asked: 16,
};
const EIGHTH: Load = Load {
    name: "eighth",
    asked: 8,
};

/// The modes, by their number on a shelf of so many ports.
type ModeOf = fn(usize) -> u32;
const MODES: [(&str, ModeOf); 4] = [
    ("Central", |_| CENTRAL),
    ("Diagonal first", |_| DIAGONAL),
    ("Distributed, limit n", |ports| ports as u32),
    ("Distributed, limit 4", |_| 4),
];

/// Over so many slots: the pairs joined, those of the best, and the least share in one slot.
struct Counted {
    joined: usize,
    best: usize,
    least: f64,
}

/// Slots whose requests are drawn anew in each, every host heard and nothing planned.
fn count(ports: usize, load: Load, mode: u32) -> Counted {
    let mut random = Random::new(1);
    let run = Trace {
        ports,
        mode,
        blocks: Vec::new(),
    };
    let mut player = Player::new(calls::slot, &run);
    let mut counted = Counted {
        joined: 0,
        best: 0,
        least: 1.0,
    };
    for _ in 0..SLOTS {
        let host = |_| Traffic::requests(load.asked).config(&mut random);
        let hosts: Vec<Config> = (0..ports).map(host).collect();
        let table = player.connected(&run, &block(&hosts));
        let joined: usize = sets(&table)
            .iter()
            .map(|set| set.count_ones() as usize)
            .sum();
        let heard: Vec<Option<Config>> = hosts.into_iter().map(Some).collect();
        let best = matching::best(&asked(0, &heard));
        counted.joined += joined;
        counted.best += best;
        if best > 0 {
            counted.least = counted.least.min(joined as f64 / best as f64);
        }
    }
    counted
}

fn row(ports: usize, load: Load) {
    let each = MODES.map(|(_, mode)| count(ports, load, mode(ports)));
    let a_slot = |pairs: usize| pairs as f64 / SLOTS as f64;
    print!("| {ports} | {} | {:.3} |", load.name, a_slot(each[0].best));
    for counted in each {
        let share = counted.joined as f64 / counted.best as f64;
        let (joined, least) = (a_slot(counted.joined), counted.least);
        print!(" {joined:.3} | {share:.3} | {least:.2} |");
    }
    println!();
}

pub fn section() {
    println!("\n## Joined pairs against maximum matching\n");
    println!(
        "What the C form joins of random requests, drawn anew in each of {SLOTS} slots, in pairs a"
    );
    println!(
        "slot; the most that could be joined; and the one as a share of the other, over all and"
    );
    println!(
        "the least in one slot. Proved for every slot: a share of at least 0.5, but for a limit"
    );
    println!("below n, as 4 is of 16. No figure here is a time, and every machine gives these.\n");
    print!("| Ports | Load | Maximum matching |");
    for (name, _) in MODES {
        print!(" {name}: joined | share | least |");
    }
    println!("\n|{}", "---|".repeat(3 + 3 * MODES.len()));
    for ports in [16, 4] {
        for load in [FULL, HALF, QUARTER, EIGHTH, LIGHT] {
            row(ports, load);
        }
    }
    println!("\nFull: every bit of req set; half: each with chance 1/2; and so on; light: 1/16.");
}
