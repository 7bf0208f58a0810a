//! The rounds of the distributed form: each joins a pair, so that there are no more of them than
//! ports or than the limit, and a limit of as many as ports leaves no request that could still
//! be served. Number 12, which a round that joins nobody once had, is given to no call.

use bellacush_tests::frames::{Config, CONFIG_LEN};
use bellacush_tests::random::{cases, Random};
use bellacush_tests::scheduler::asked;
use bellacush_tests::slots::{After, Slot, State};
use bellacush_tests::traffic::Traffic;

fn any_slot(random: &mut Random, ports: usize, limit: u32, load: usize) -> Slot {
    let state = State::at(ports, random.below(ports), random.below(ports), 9);
    let traffic = Traffic {
        asked: load,
        ..Traffic::any(random)
    };
    Slot::due(state, limit, traffic.block(random, ports))
}

/// The requests whose initiator and target are both free.
fn open(call: &Slot, after: &After) -> usize {
    let hosts: Vec<Option<Config>> = call
        .block
        .chunks(CONFIG_LEN)
        .map(|frame| Config::read(frame).ok())
        .collect();
    let asked = asked(State::read(&call.state).owners, &hosts);
    let sets = after.sets();
    let held = sets.iter().fold(0, |held, set| held | set);
    let free = |initiator: usize, target: usize| sets[initiator] == 0 && held & (1 << target) == 0;
    (0..hosts.len())
        .flat_map(|initiator| (0..hosts.len()).map(move |target| (initiator, target)))
        .filter(|&(initiator, target)| asked[initiator][target] && free(initiator, target))
        .count()
}

fn connected(after: &After) -> u32 {
    after.sets().iter().map(|set| set.count_ones()).sum()
}

#[test]
fn a_limit_of_n_or_more_leaves_nothing_open() {
    let mut random = Random::of_test("a_limit_of_n_or_more_leaves_nothing_open");
    for ports in 1..=16 {
        for case in 0..cases(2_000) {
            let limit = random.between(ports, 16) as u32;
            let call = any_slot(&mut random, ports, limit, 1 + case % 64);
            let after = call.agreed();
            assert_eq!((after.number(), open(&call, &after)), (0, 0), "{call:?}");
            assert!(after.rounds() as usize <= ports, "{call:?}");
        }
    }
}

#[test]
fn a_round_more_joins_somebody_while_something_is_open() {
    let mut random = Random::of_test("a_round_more_joins_somebody_while_something_is_open");
    for case in 0..cases(20_000) {
        let ports = random.between(2, 16);
        let mut call = any_slot(&mut random, ports, 1, 1 + case % 64);
        let mut before = call.agreed();
        for limit in 2..=16 {
            call.mode = limit;
            let after = call.agreed();
            assert_eq!(after.number(), 0);
            if open(&call, &before) > 0 {
                assert_eq!(after.rounds(), limit, "{call:?}");
                assert!(connected(&before) < connected(&after), "{call:?}");
            } else {
                assert_eq!(after, before, "{call:?}");
            }
            before = after;
        }
    }
}
