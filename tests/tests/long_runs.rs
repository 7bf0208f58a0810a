//! Long runs that carry one state from slot to slot, with resent, early and faulty calls in
//! between, as a card's slot loop meets them.

use bellacush_tests::random::{cases, Random};
use bellacush_tests::slots::{Slot, State};
use bellacush_tests::traffic::Traffic;

/// A call between two served slots that is to change nothing.
fn declined_between(random: &mut Random, next: &Slot, last: &Slot) {
    let mut call = if random.chance(1, 2) { last } else { next }.clone();
    call.state = next.state.clone();
    match random.below(6) {
        0 => call.slot = next.slot.wrapping_sub(1),
        1 => call.slot = next.slot.wrapping_sub(random.between(1, 1 << 31) as u32),
        2 => {
            call.slot = next
                .slot
                .wrapping_add(random.between(1, (1 << 31) - 1) as u32)
        }
        3 => call.mode = random.between(17, 1 << 32) as u32 | 32,
        4 => call.block.push(0),
        _ => call.out.truncate(7 * usize::from(next.state[0]) - 1),
    }
    let after = call.agreed();
    assert_ne!(after.number(), 0);
    assert_eq!(after, call.kept(after.number()));
}

fn run(random: &mut Random, ports: usize, slots: usize, first_due: u32) {
    let mut state = State::fresh(ports, first_due).bytes();
    let mut last: Option<Slot> = None;
    for served in 0..slots {
        let due = first_due.wrapping_add(served as u32);
        let block = Traffic::any(random).block(random, ports);
        let mut call = Slot::due(State::fresh(ports, due), random.below(18) as u32, block);
        call.state = state;
        call.link = random.word();
        if let Some(last) = &last {
            for _ in 0..random.below(3) {
                declined_between(random, &call, last);
            }
        }
        let after = call.agreed();
        assert_eq!(after.number(), 0);
        state = after.state;
        last = Some(call);
    }
    let turns = slots % (ports * ports);
    let end = State::at(
        ports,
        turns % ports,
        turns / ports,
        first_due.wrapping_add(slots as u32),
    );
    assert_eq!(State::read(&state), end);
}

#[test]
fn of_every_size() {
    let mut random = Random::of_test("long_runs_of_every_size");
    for ports in 1..=16 {
        let slots = 2 * ports * ports + random.below(40);
        for _ in 0..cases(8) {
            let due = random.long();
            run(&mut random, ports, slots, due);
        }
    }
}

#[test]
fn across_the_wrap_of_the_slot_number() {
    let mut random = Random::of_test("long_runs_across_the_wrap");
    for ports in 1..=16 {
        for _ in 0..cases(4) {
            let due = u32::MAX - random.below(50) as u32;
            run(&mut random, ports, 100, due);
        }
    }
}

#[test]
fn of_ten_thousand_slots() {
    let mut random = Random::of_test("long_runs_of_ten_thousand_slots");
    for ports in [4, 16] {
        run(&mut random, ports, cases(10_000), 0);
    }
}

#[test]
fn with_every_block_sent_twice_serve_each_once() {
    let mut random = Random::of_test("every_block_sent_twice");
    for ports in 1..=16 {
        let mut state = State::fresh(ports, 7);
        for _ in 0..cases(200) {
            let mode = random.below(18) as u32;
            let block = Traffic::any(&mut random).block(&mut random, ports);
            let first = Slot::due(state, mode, block);
            let after = first.agreed();
            let mut copy = first.clone();
            copy.state = after.state.clone();
            assert_eq!(copy.agreed(), copy.kept(3));
            state = State::read(&after.state);
        }
    }
}
