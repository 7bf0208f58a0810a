//! The replay of a body: against the independent scheduler, and against the live slots that it
//! records.

use bellacush_tests::frames::sealed;
use bellacush_tests::random::{cases, Random};
use bellacush_tests::slots::{Slot, State, TABLE_LEN};
use bellacush_tests::trace_calls::{body_by_body, Replay, Seal, Writing};
use bellacush_tests::traces::{body_len, contents_len, Body, Trace};
use bellacush_tests::traffic::Traffic;

fn tables(replay: &Replay) -> Vec<u8> {
    let (number, tables) = replay.agreed(&vec![0xB7; TABLE_LEN * replay.slots as usize]);
    assert_eq!(number, 0);
    tables
}

// Against live slots

/// Live slots in one mode from one state, as a card's slot loop serves them.
struct Live {
    body: Body,
    tables: Vec<u8>,
    end: State,
}

impl Live {
    fn play(random: &mut Random, start: State, mode: u8, slots: usize) -> Live {
        let mut live = Live {
            body: Body {
                first: start.due,
                mode,
                initiator: start.initiator,
                target: start.target,
                blocks: Vec::new(),
            },
            tables: Vec::new(),
            end: start,
        };
        for _ in 0..slots {
            let traffic = Traffic::any(random);
            let block = traffic.block(random, start.ports.into());
            let call = Slot::due(live.end, mode.into(), block);
            let after = call.called();
            assert_eq!(after.number(), 0, "a live slot was declined");
            live.end = State::read(&after.state);
            live.tables.extend(after.table);
            live.body.blocks.push(call.block);
        }
        live
    }
}

fn any_start(random: &mut Random, ports: usize) -> State {
    let due = match random.below(3) {
        0 => u32::MAX - random.below(9) as u32,
        1 => 0,
        _ => random.long(),
    };
    State::at(ports, random.below(ports), random.below(ports), due)
}

#[test]
fn gives_the_tables_of_the_live_slots() {
    let mut random = Random::of_test("replay_of_live_slots");
    for ports in 1..=16 {
        for mode in 0..=17 {
            for _ in 0..cases(10) {
                let start = any_start(&mut random, ports);
                let slots = random.between(1, 40);
                let live = Live::play(&mut random, start, mode, slots);
                assert_eq!(tables(&Replay::of(&live.body, ports)), live.tables);
            }
        }
    }
}

#[test]
fn of_the_longest_body_gives_the_tables_of_the_live_slots() {
    let mut random = Random::of_test("longest_replay");
    for (ports, mode) in [(1, 0), (3, 2), (16, 0), (16, 4), (16, 16), (16, 17)] {
        let start = State::at(ports, ports - 1, 0, u32::MAX - 200);
        let live = Live::play(&mut random, start, mode, 360);
        assert_eq!(tables(&Replay::of(&live.body, ports)), live.tables);
        assert_eq!(live.end.due, 159);
    }
}

/// A history cut into bodies, sealed, written and read body by body, all by the library; each body
/// goes on from where the one before it ended.
#[test]
fn of_a_recorded_history_gives_its_tables() {
    let mut random = Random::of_test("recorded_history");
    for ports in 1..=16 {
        let mut state = any_start(&mut random, ports);
        let mut trace = Trace {
            ports,
            bodies: Vec::new(),
        };
        let mut played = Vec::new();
        for _ in 0..random.between(1, 6) {
            let (mode, slots) = (random.below(18) as u8, random.between(1, 30));
            let live = Live::play(&mut random, state, mode, slots);
            state = live.end;
            trace.bodies.push(live.body);
            played.extend(live.tables);
        }
        assert_eq!(replayed(&recorded(&trace)), played);
    }
}

fn recorded(trace: &Trace) -> Vec<u8> {
    let mut writing = Writing::of(trace);
    writing.bodies.clear();
    for body in &trace.bodies {
        let room = vec![0; body_len(trace.ports, body.blocks.len())];
        let (number, body) = Seal::of(body, trace.ports).agreed(&room);
        assert_eq!(number, 0);
        writing.bodies.extend(body);
    }
    let room = vec![0; contents_len(trace.bodies.len()) + writing.bodies.len()];
    let (number, file) = writing.agreed(&room);
    assert_eq!(number, 0);
    file
}

fn replayed(file: &[u8]) -> Vec<u8> {
    let bodies = body_by_body(file).expect("it is a trace");
    bodies.into_iter().flat_map(|body| body.tables).collect()
}

// Against the independent scheduler

#[test]
fn of_any_body() {
    let mut random = Random::of_test("replay_of_any_body");
    for ports in 1..=16 {
        for _ in 0..cases(60) {
            let slots = random.between(1, 12);
            let body = Body::any(&mut random, ports, slots);
            assert_eq!(tables(&Replay::of(&body, ports)), body.tables(ports));
        }
    }
}

#[test]
fn starts_from_every_offset() {
    let mut random = Random::of_test("replay_offsets");
    for ports in 1..=16 {
        let mut body = Body::any(&mut random, ports, 2);
        for place in 0..ports * ports {
            body.initiator = (place % ports) as u8;
            body.target = (place / ports) as u8;
            for mode in [0, 1, 16, 17] {
                body.mode = mode;
                tables(&Replay::of(&body, ports));
            }
        }
    }
}

#[test]
fn is_the_same_whatever_the_first_slot() {
    let mut random = Random::of_test("replay_first_slots");
    for ports in 1..=16 {
        let slots = random.between(2, 20);
        let mut replay = Replay::of(&Body::any(&mut random, ports, slots), ports);
        let expected = tables(&replay);
        for first in [0, 1, 1 << 31, u32::MAX - 1, u32::MAX] {
            replay.first = first;
            assert_eq!(tables(&replay), expected);
        }
    }
}

#[test]
fn starts_each_body_from_its_own_offsets() {
    let mut random = Random::of_test("replay_each_body");
    for ports in 2..=16 {
        let body = Body::any(&mut random, ports, 3);
        let trace = Trace {
            ports,
            bodies: vec![body.clone(); 3],
        };
        assert_eq!(replayed(&trace.file()), body.tables(ports).repeat(3));
    }
}

// Refusals

#[test]
fn at_every_length_of_tables() {
    let mut random = Random::of_test("replay_room");
    for (ports, slots) in [(1, 1), (3, 2), (16, 5)] {
        let replay = Replay::of(&Body::any(&mut random, ports, slots), ports);
        let len = TABLE_LEN * slots;
        for room in 0..=len + 40 {
            let (number, _) = replay.agreed(&random.bytes(room));
            assert_eq!(number, if room < len { 7 } else { 0 });
        }
    }
}

fn expect_no_body(random: &mut Random, replay: &Replay) {
    for room in [0, 31, 12_000] {
        assert_eq!(replay.agreed(&random.bytes(room)).0, 14);
    }
}

#[test]
fn of_any_other_ports_or_slots_is_refused() {
    let mut random = Random::of_test("replay_refusals");
    for ports in 1..=16 {
        for slots in [1, 2, 360] {
            let right = Replay::of(&Body::any(&mut random, ports, slots), ports);
            for n in [0, right.n - 1, right.n + 1, 17, 256 + right.n, u32::MAX] {
                expect_no_body(&mut random, &Replay { n, ..right.clone() });
            }
            let s = right.slots;
            for slots in [0, s - 1, s + 1, 361, s + 256, s + 65_536, u32::MAX] {
                let wrong = Replay {
                    slots,
                    ..right.clone()
                };
                expect_no_body(&mut random, &wrong);
            }
        }
    }
}

#[test]
fn of_bodies_of_0_and_361_slots_is_refused() {
    let mut random = Random::of_test("replay_slots");
    for (ports, slots) in [(1, 0), (16, 0), (1, 361), (16, 361), (17, 1), (17, 360)] {
        let replay = Replay::of(&Body::any(&mut random, ports, slots), ports);
        expect_no_body(&mut random, &replay);
    }
}

#[test]
fn of_a_body_with_any_bit_damaged_is_refused() {
    let mut random = Random::of_test("replay_bits");
    for (ports, slots) in [(1, 1), (2, 2), (16, 1)] {
        let right = Replay::of(&Body::any(&mut random, ports, slots), ports);
        for bit in 0..8 * right.body.len() {
            let mut wrong = right.clone();
            wrong.body[bit / 8] ^= 0x80 >> (bit % 8);
            assert_eq!(wrong.agreed(&[0xB7; 64]).0, 14);
        }
    }
}

#[test]
fn of_a_body_of_any_other_length_is_refused() {
    let mut random = Random::of_test("replay_lengths");
    for (ports, slots) in [(1, 1), (2, 2), (16, 2)] {
        let right = Replay::of(&Body::any(&mut random, ports, slots), ports);
        let right_len = right.body.len();
        for len in (0..right_len + 25).filter(|&len| len != right_len) {
            let mut wrong = right.clone();
            wrong.body.resize(len, 0);
            assert_eq!(wrong.agreed(&[0xB7; 64]).0, 14);
        }
    }
}

#[test]
fn of_any_numbers_and_bytes() {
    let mut random = Random::of_test("replay_any_bytes");
    for _ in 0..cases(20_000) {
        let n = random.pick(&[0, 1, 1, 1, 2, 16, 17, u32::MAX]);
        let slots = random.pick(&[0, 1, 1, 2, 3, 360, u32::MAX]);
        let len = 5 + (n.wrapping_mul(slots).wrapping_mul(11) % 100) as usize;
        let mut body = random.bytes(len - 2);
        body[..3].iter_mut().for_each(|field| *field %= 3);
        let replay = Replay {
            n,
            first: random.long(),
            slots,
            body: sealed(body),
        };
        let room = random.pick(&[0, 31, 32, 64, 100]);
        replay.agreed(&random.bytes(room));
    }
}
