//! The C form against the independent scheduler on random slots: everything that is lent is
//! compared byte for byte, before and after, with what document 01 promises. BELLACUSH_SEED
//! chooses other slots, BELLACUSH_CASES more of them.

use bellacush_tests::random::{cases, Random};
use bellacush_tests::slots::{Slot, State, STATE_LEN};
use bellacush_tests::traffic::Traffic;

const HALF: u32 = 1 << 31;

fn any_due(random: &mut Random) -> u32 {
    let near = random.pick(&[0, 255, 65535, HALF, HALF - 1, u32::MAX]);
    let other = random.long();
    random.pick(&[near, near, other])
}

fn any_state(random: &mut Random, ports: usize) -> State {
    let some = random.word();
    State::at(
        ports,
        random.below(ports),
        random.below(ports),
        any_due(random),
    )
    .owned(random.pick(&[0, some, some]))
}

/// A call that is served, of any traffic.
fn any_call(random: &mut Random, ports: usize, mode: u32) -> Slot {
    let traffic = Traffic::any(random);
    let block = traffic.block(random, ports);
    let mut call = Slot::due(any_state(random, ports), mode, block);
    call.link = random.word();
    let beyond = random.pick(&[0, 0, 1, 5, 20]);
    call.out = random.bytes(7 * ports + beyond);
    call.table = random.bytes(32);
    call
}

/// A call that is served, of any ports and mode.
fn any_served(random: &mut Random) -> Slot {
    let (ports, mode) = (random.between(1, 16), random.below(18) as u32);
    any_call(random, ports, mode)
}

#[test]
fn slots_of_every_size_and_mode() {
    let mut random = Random::of_test("slots_of_every_size_and_mode");
    for ports in 1..=16 {
        for mode in 0..=17 {
            for _ in 0..cases(600) {
                let call = any_call(&mut random, ports, mode);
                assert_eq!(call.agreed().number(), 0);
            }
        }
    }
}

#[test]
fn requests_of_every_load() {
    let mut random = Random::of_test("requests_of_every_load");
    for ports in 1..=16 {
        for load in 0..=64 {
            for mode in [0, 1, 2, 4, 16, 17] {
                for _ in 0..cases(12) {
                    let block = Traffic::requests(load).block(&mut random, ports);
                    let call = Slot::due(any_state(&mut random, ports), mode, block);
                    assert_eq!(call.agreed().number(), 0);
                }
            }
        }
    }
}

#[test]
fn plans_in_conflict_and_multicasts() {
    let mut random = Random::of_test("plans_in_conflict_and_multicasts");
    for case in 0..cases(60_000) {
        let ports = random.between(2, 16);
        let mut traffic = Traffic::requests(random.pick(&[8, 32, 64]));
        traffic.planned = [2, 8, 24, 64][case % 4];
        let block = traffic.block(&mut random, ports);
        let mode = random.pick(&[0, 1, 4, 17]);
        let call = Slot::due(any_state(&mut random, ports), mode, block);
        assert_eq!(call.agreed().number(), 0);
    }
}

#[test]
fn cleared_votes() {
    let mut random = Random::of_test("cleared_votes");
    for case in 0..cases(20_000) {
        let ports = random.between(1, 16);
        let mut traffic = Traffic::requests(random.pick(&[16, 64]));
        traffic.planned = random.pick(&[0, 8]);
        traffic.vote_cleared = [1, 2, 6, 64][case % 4];
        traffic.spoilt = random.pick(&[0, 16]);
        let block = traffic.block(&mut random, ports);
        let mode = random.pick(&[0, 1, 4, 17]);
        let call = Slot::due(any_state(&mut random, ports), mode, block);
        assert_eq!(call.agreed().number(), 0);
    }
}

#[test]
fn frames_damaged_missing_and_foreign() {
    let mut random = Random::of_test("frames_damaged_missing_and_foreign");
    for _ in 0..cases(80_000) {
        let ports = random.between(1, 16);
        let mut traffic = Traffic::any(&mut random);
        traffic.spoilt = random.pick(&[8, 32, 64]);
        let block = traffic.block(&mut random, ports);
        let mode = random.pick(&[0, 1, 4, 17]);
        let mut call = Slot::due(any_state(&mut random, ports), mode, block);
        call.link = random.word();
        assert_eq!(call.agreed().number(), 0);
    }
}

#[test]
fn bits_at_or_above_n_change_nothing() {
    let mut random = Random::of_test("bits_at_or_above_n_change_nothing");
    for _ in 0..cases(20_000) {
        let ports = random.between(1, 15);
        let beyond = u16::MAX << ports;
        let state = any_state(&mut random, ports);
        let mode = random.pick(&[0, 1, 4, 17]);
        let mut traffic = Traffic::any(&mut random);
        traffic.spoilt = 0;
        let hosts: Vec<_> = (0..ports).map(|_| traffic.config(&mut random)).collect();
        let mut others = hosts.clone();
        for host in &mut others {
            host.req ^= random.word() & beyond;
            host.pre ^= random.word() & beyond;
            host.ben ^= random.word() & beyond;
            host.qen = random.word();
        }
        let one = Slot::of_hosts(state, mode, &hosts).agreed();
        assert_eq!(one, Slot::of_hosts(state, mode, &others).agreed());
    }
}

#[test]
fn slot_numbers_around_due_half_and_wrap() {
    let mut random = Random::of_test("slot_numbers_around_due_half_and_wrap");
    for _ in 0..cases(30_000) {
        let mut call = any_served(&mut random);
        let anywhere = random.long();
        let from = random.pick(&[0, 0, HALF, HALF, anywhere]);
        let around = (random.below(7) as u32).wrapping_sub(3);
        call.slot = call.slot.wrapping_add(from).wrapping_add(around);
        call.agreed();
    }
}

/// A length near this one, or this one.
fn near(random: &mut Random, len: usize) -> usize {
    (len + random.pick(&[0, 1, 10, 11, 12, 21, 22])).saturating_sub(11)
}

/// One thing about a call changed at random, often so that it is declined.
fn disturb(random: &mut Random, call: &mut Slot) {
    match random.below(10) {
        0 => call.state.resize(random.pick(&[0, 7, 8, 9, 10, 18]), 3),
        1 => call.table.resize(random.pick(&[0, 31, 32, 33, 64]), 0xB7),
        2 => call.state[0] = random.pick(&[0, 1, 2, 15, 16, 17, 18, 128, 255]),
        3 => call.state[1] = random.pick(&[0, 1, 15, 16, 17, 255]),
        4 => call.state[2] = random.pick(&[0, 1, 15, 16, 17, 255]),
        5 => call.slot = random.pick(&[call.slot.wrapping_sub(1), call.slot.wrapping_add(1)]),
        6 => call.mode = random.pick(&[0, 1, 16, 17, 18, 19, 255, 256, 272, 65536, HALF, u32::MAX]),
        7 => call.block.resize(near(random, call.block.len()), 0),
        8 => call.out.resize(near(random, call.out.len()), 0xB7),
        _ => call.state = random.bytes(STATE_LEN),
    }
}

#[test]
fn calls_disturbed_in_several_ways_at_once() {
    let mut random = Random::of_test("calls_disturbed_in_several_ways_at_once");
    let mut declined = [0; 13];
    for _ in 0..cases(250_000) {
        let mut call = any_served(&mut random);
        for _ in 0..random.between(1, 4) {
            if call.state.len() == STATE_LEN {
                disturb(&mut random, &mut call);
            }
        }
        declined[call.agreed().number() as usize] += 1;
    }
    let reached = (0..=8).filter(|&number| declined[number] > 0).count();
    assert_eq!(reached, 9, "some number never came: {declined:?}");
}

#[test]
fn every_number_of_ports_with_any_buffers() {
    let mut random = Random::of_test("every_number_of_ports_with_any_buffers");
    for ports in 0..=255_usize {
        for _ in 0..cases(60) {
            let mut call = any_served(&mut random);
            call.state[0] = ports as u8;
            let blocks = [0, 11 * ports, call.block.len()];
            call.block.resize(random.pick(&blocks), 1);
            call.out.resize(random.pick(&[0, 7 * ports, 112]), 0xB7);
            call.mode = random.pick(&[call.mode, 0, 18, u32::MAX]);
            call.agreed();
        }
    }
}

#[test]
fn all_bytes_random() {
    let mut random = Random::of_test("all_bytes_random");
    for _ in 0..cases(30_000) {
        let ports = random.between(0, 17);
        let (slot, any_mode) = (random.long(), random.long());
        let call = Slot {
            state: [vec![ports as u8], random.bytes(6)].concat(),
            slot,
            mode: random.pick(&[0, 1, 16, 17, any_mode]),
            block: random.bytes(11 * ports),
            link: random.word(),
            out: random.bytes(7 * ports),
            table: random.bytes(32),
        };
        call.agreed();
    }
}
