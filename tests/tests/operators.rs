//! Two operators on one shelf: a fresh state gives the ports to them, and whatever the hosts of one
//! send, the other's slots are the same to it.

use bellacush_tests::calls;
use bellacush_tests::frames::{Config, CONFIG_LEN, HELD_LEN};
use bellacush_tests::lent::Lent;
use bellacush_tests::promises;
use bellacush_tests::random::{cases, Random};
use bellacush_tests::slots::{asking, set, After, Slot, State, CENTRAL, STATE_LEN};
use bellacush_tests::traffic::Traffic;

// Fresh states

/// The number and the state after it, seen to be the promised ones.
fn fresh(n: u32, due: u32, operators: &[u8], state: &[u8]) -> (u32, Vec<u8>) {
    let lent_operators = Lent::new(operators);
    let mut lent = Lent::new(state);
    let number = calls::fresh(n, due, &lent_operators, lent.lend());
    assert_eq!(lent_operators.back(), operators, "the operators changed");
    let answer = (number, lent.back());
    let promised = promises::fresh(n, due, operators, state);
    assert_eq!(answer, promised, "{n} {due} {operators:?}");
    answer
}

#[test]
fn a_fresh_state_has_the_operators_that_were_named() {
    let mut random = Random::of_test("a_fresh_state_has_the_operators_that_were_named");
    for ports in 1..=16 {
        for _ in 0..cases(200) {
            let owners = random.word();
            let due = random.long();
            let mut operators: Vec<u8> = (0..16).map(|port| (owners >> port & 1) as u8).collect();
            operators[ports..].copy_from_slice(&random.bytes(16 - ports));
            let (number, state) = fresh(ports as u32, due, &operators, &[0xB7; STATE_LEN]);
            let below = owners & (0xFFFF >> (16 - ports));
            assert_eq!(number, 0);
            assert_eq!(State::read(&state), State::fresh(ports, due).owned(below));
        }
    }
}

#[test]
fn number_15_for_each_other_operator_below_n() {
    for port in 0..16 {
        for operator in [2, 3, 127, 128, 255] {
            let mut operators = [0; 16];
            operators[port] = operator;
            for ports in 1..=16 {
                let (number, _) = fresh(ports, 5, &operators, &[0xB7; STATE_LEN]);
                assert_eq!(number, if port < ports as usize { 15 } else { 0 });
            }
        }
    }
}

#[test]
fn number_8_for_either_length_then_1_then_15() {
    for n in [0, 3, 16, 17] {
        for len in (0..=40).filter(|&len| len != 16) {
            assert_eq!(fresh(n, 5, &vec![9; len], &[0xB7; STATE_LEN]).0, 8);
        }
        for len in (0..=40).filter(|&len| len != STATE_LEN) {
            assert_eq!(fresh(n, 5, &[9; 16], &vec![0xB7; len]).0, 8);
        }
    }
    for n in [0, 17, 18, 255, 256, 272, 65_552, 1 << 31, u32::MAX] {
        assert_eq!(fresh(n, 5, &[9; 16], &[0xB7; STATE_LEN]).0, 1);
    }
}

// What an operator sees

/// Which hosts are the operator's.
fn own(owners: u16, operator: bool) -> impl Fn(usize) -> bool {
    move |host| (owners >> host & 1 == 1) == operator
}

/// Both calls are the same to the operator: the number, the next state, its sets, its hosts' grant
/// frames, and the bytes behind the last frame.
fn same_to_it(ports: usize, own: impl Fn(usize) -> bool, a: &After, b: &After) {
    assert_eq!((a.number(), &a.state), (b.number(), &b.state));
    for host in (0..ports).filter(|&host| own(host)) {
        assert_eq!(a.sets()[host], b.sets()[host]);
        assert_eq!(
            a.out[HELD_LEN * host..][..HELD_LEN],
            b.out[HELD_LEN * host..][..HELD_LEN]
        );
    }
    assert_eq!(a.out[HELD_LEN * ports..], b.out[HELD_LEN * ports..]);
}

/// A block of any traffic, with the frames of these hosts put into it.
fn others_block(random: &mut Random, block: &[u8], own: impl Fn(usize) -> bool) -> Vec<u8> {
    let ports = block.len() / CONFIG_LEN;
    let mut other = Traffic::any(random).block(random, ports);
    for host in (0..ports).filter(|&host| own(host)) {
        let frame = CONFIG_LEN * host..CONFIG_LEN * (host + 1);
        other[frame.clone()].copy_from_slice(&block[frame]);
    }
    other
}

fn any_state(random: &mut Random, ports: usize) -> State {
    let (initiator, target) = (random.below(ports), random.below(ports));
    State::at(ports, initiator, target, random.long()).owned(random.word())
}

#[test]
fn the_others_frames_change_nothing_but_the_rounds() {
    let mut random = Random::of_test("the_others_frames_change_nothing_but_the_rounds");
    let (mut other_sets, mut other_rounds) = (0, 0);
    for _ in 0..cases(60_000) {
        let ports = random.between(2, 16);
        let state = any_state(&mut random, ports);
        let operator = random.chance(1, 2);
        let block = Traffic::any(&mut random).block(&mut random, ports);
        let mut call = Slot::due(state, random.below(18) as u32, block);
        call.link = random.word();
        let a = call.agreed();
        call.block = others_block(&mut random, &call.block, own(state.owners, operator));
        call.out[..HELD_LEN * ports].copy_from_slice(&random.bytes(HELD_LEN * ports));
        let b = call.agreed();
        same_to_it(ports, own(state.owners, operator), &a, &b);
        other_sets += usize::from(a.sets() != b.sets());
        other_rounds += usize::from(a.rounds() != b.rounds());
    }
    println!("{other_sets} with other sets, {other_rounds} with other rounds");
    assert!(other_sets > 0 && other_rounds > 0);
}

#[test]
fn nor_do_they_over_a_history() {
    let mut random = Random::of_test("nor_do_they_over_a_history");
    for ports in 2..=16 {
        for _ in 0..cases(20) {
            let mut state = any_state(&mut random, ports);
            let operator = random.chance(1, 2);
            for _ in 0..random.between(1, 60) {
                let block = Traffic::any(&mut random).block(&mut random, ports);
                let mut call = Slot::due(state, random.below(18) as u32, block);
                call.slot = call.slot.wrapping_add(u32::from(random.chance(1, 8)));
                let a = call.agreed();
                call.block = others_block(&mut random, &call.block, own(state.owners, operator));
                let b = call.agreed();
                same_to_it(ports, own(state.owners, operator), &a, &b);
                state = State::read(&b.state);
            }
        }
    }
}

#[test]
fn no_connection_joins_ports_of_different_operators() {
    let mut random = Random::of_test("no_connection_joins_ports_of_different_operators");
    let mut joined = 0;
    for _ in 0..cases(20_000) {
        let ports = random.between(2, 16);
        let state = any_state(&mut random, ports);
        let block = Traffic::any(&mut random).block(&mut random, ports);
        let after = Slot::due(state, random.below(18) as u32, block).agreed();
        for (initiator, held) in after.sets().into_iter().enumerate() {
            let own = own(state.owners, state.owners >> initiator & 1 == 1);
            assert!((0..16).all(|target| held >> target & 1 == 0 || own(target)));
            joined += held.count_ones();
        }
    }
    assert!(joined > 0);
}

#[test]
fn a_shelf_of_one_operator_is_as_one_without_owners() {
    let mut random = Random::of_test("a_shelf_of_one_operator_is_as_one_without_owners");
    for _ in 0..cases(20_000) {
        let ports = random.between(1, 16);
        let below = 0xFFFF >> (16 - ports);
        let state = any_state(&mut random, ports).owned(0);
        let block = Traffic::any(&mut random).block(&mut random, ports);
        let mode = random.below(18) as u32;
        let plain = Slot::due(state, mode, block.clone()).agreed();
        let above = random.word() & !below;
        for owners in [above, below | above] {
            let after = Slot::due(state.owned(owners), mode, block.clone()).agreed();
            assert_eq!((after.word, &after.table), (plain.word, &plain.table));
            assert_eq!(after.out, plain.out);
            let kept = State::read(&plain.state).owned(owners);
            assert_eq!(State::read(&after.state), kept);
        }
    }
}

// Small slots of four ports, of which 2 and 3 are operator 1's

fn line(offsets: (usize, usize), mode: u32, hosts: &[Config]) -> String {
    let state = State::at(4, offsets.0, offsets.1, 9).owned(0b1100);
    let after = Slot::of_hosts(state, mode, hosts).agreed();
    assert_eq!(after.number(), 0);
    after.line()
}

#[test]
fn votes_count_among_ones_own_hosts() {
    let mut hosts = asking(&[&[0], &[], &[2], &[]]);
    hosts[2].ben = 0b1100;
    hosts[3].ben = 0b1100;
    assert_eq!(line((0, 0), CENTRAL, &hosts), "0:0 1:- 2:2 3:-");
    hosts[0].ben = 0b1110;
    assert_eq!(line((0, 0), CENTRAL, &hosts), "0:0 1:- 2:2 3:-");
    hosts[1].ben = 0b1110;
    assert_eq!(line((0, 0), CENTRAL, &hosts), "0:- 1:- 2:2 3:-");
}

#[test]
fn plans_for_the_others_ports_are_none() {
    let mut hosts = asking(&[&[], &[1], &[2], &[]]);
    hosts[2].pre = set(&[1]);
    assert_eq!(line((0, 0), CENTRAL, &hosts), "0:- 1:1 2:2 3:-");
    hosts[2].pre = set(&[1, 3]);
    assert_eq!(line((0, 0), CENTRAL, &hosts), "0:- 1:1 2:3 3:-");
}

#[test]
fn requests_for_the_others_ports_do_not_count_in_the_choice() {
    let hosts = asking(&[&[1, 2, 3], &[1], &[], &[]]);
    assert_eq!(line((1, 0), CENTRAL, &hosts), "0:1 1:- 2:- 3:-");
    assert_eq!(line((2, 3), 1, &hosts), "0:1 1:- 2:- 3:-");
}
