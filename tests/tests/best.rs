//! How far from the best: no conflict-free set of a slot's live requests has more than twice as
//! many pairs as the slot joins after its planned stage, if it is central, diagonal first or
//! distributed with a limit of n or more; and slots in which it has exactly that many.

use bellacush_tests::matching::{best, compared, Compared};
use bellacush_tests::random::{cases, Random};
use bellacush_tests::scheduler::{Matrix, MOST_PORTS};
use bellacush_tests::slots::{asking, set, Slot, State, CENTRAL, DIAGONAL};
use bellacush_tests::traffic::Traffic;

fn of_call(call: &Slot) -> Compared {
    let after = call.agreed();
    assert_eq!(after.number(), 0, "{call:?}");
    compared(call, &after)
}

/// Every choice of a target, or of none, for each initiator from this one on.
fn best_of_all(live: &Matrix, initiator: usize, taken: u32) -> usize {
    if initiator == MOST_PORTS {
        return 0;
    }
    let free = (0..MOST_PORTS).filter(|&t| live[initiator][t] && taken & (1 << t) == 0);
    let joined = free.map(|t| 1 + best_of_all(live, initiator + 1, taken | 1 << t));
    let skipped = best_of_all(live, initiator + 1, taken);
    joined.fold(skipped, usize::max)
}

#[test]
fn the_best_is_what_trying_all_finds() {
    let mut random = Random::of_test("the_best_is_what_trying_all_finds");
    for case in 0..cases(4_000) {
        let (rows, columns) = (random.between(1, 5), random.between(1, 16));
        let mut live = [[false; MOST_PORTS]; MOST_PORTS];
        for row in &mut live[..rows] {
            for is in &mut row[..columns] {
                *is = random.chance(1 + case % 32, 64);
            }
        }
        assert_eq!(best(&live), best_of_all(&live, 0, 0), "{live:?}");
    }
}

#[test]
fn no_slot_is_below_half_of_the_best() {
    let mut random = Random::of_test("no_slot_is_below_half_of_the_best");
    for ports in 1..=16 {
        for case in 0..cases(3_000) {
            let limit = random.between(ports, 16) as u32;
            let mode = random.pick(&[CENTRAL, limit, DIAGONAL]);
            let word = random.word();
            let owners = random.pick(&[0, word]);
            let offsets = (random.below(ports), random.below(ports));
            let state = State::at(ports, offsets.0, offsets.1, 9).owned(owners);
            let traffic = Traffic {
                asked: 1 + case % 64,
                ..Traffic::any(&mut random)
            };
            let call = Slot::due(state, mode, traffic.block(&mut random, ports));
            let Compared { joined, best } = of_call(&call);
            assert!(joined <= best && best <= 2 * joined, "{call:?}");
        }
    }
}

/// A cross at (I, J): its initiator asks for all targets and all others for its target.
#[test]
fn a_cross_has_exactly_half() {
    for ports in 2..=16_usize {
        for mode in 0..=DIAGONAL {
            for place in 0..ports * ports {
                let state = State::at(ports, place % ports, place / ports, 9);
                let mut hosts = asking(&vec![&[u32::from(state.target)][..]; ports]);
                hosts[usize::from(state.initiator)].req = 0xFFFF;
                let call = Slot::of_hosts(state, mode, &hosts);
                assert_eq!(of_call(&call), Compared { joined: 1, best: 2 }, "{call:?}");
            }
        }
    }
}

#[test]
fn planned_pairs_do_not_count_as_joined() {
    let mut hosts = asking(&[&[0, 1], &[0], &[], &[0]]);
    hosts[2].pre = set(&[2, 3]);
    let call = Slot::of_hosts(State::at(4, 0, 0, 9), CENTRAL, &hosts);
    assert_eq!(of_call(&call), Compared { joined: 1, best: 2 });
}

#[test]
fn requests_across_operators_are_not_live() {
    let hosts = asking(&[&[0, 1], &[0]]);
    let state = State::at(2, 0, 0, 9);
    let call = Slot::of_hosts(state.owned(set(&[1])), CENTRAL, &hosts);
    assert_eq!(of_call(&call), Compared { joined: 1, best: 1 });
    let call = Slot::of_hosts(state, CENTRAL, &hosts);
    assert_eq!(of_call(&call), Compared { joined: 1, best: 2 });
}

#[test]
fn two_of_the_three_of_case_b() {
    let hosts = asking(&[&[0, 1], &[0], &[1, 2]]);
    let call = Slot::of_hosts(State::at(3, 0, 0, 9), CENTRAL, &hosts);
    assert_eq!(of_call(&call), Compared { joined: 2, best: 3 });
}

#[test]
fn a_limit_below_n_can_leave_more() {
    let hosts = asking(&[&[0, 3, 4], &[0, 3, 4], &[0, 3, 4], &[], &[]]);
    let call = Slot::of_hosts(State::at(5, 3, 3, 9), 1, &hosts);
    assert_eq!(of_call(&call), Compared { joined: 1, best: 3 });
}
