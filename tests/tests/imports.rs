//! The import of captures against our own: number, trace and report, what is refused and keeps
//! everything as it was, and that what is imported is a trace and replays.

use std::env;
use std::fs;
use std::path::Path;

use bellacush_tests::calls;
use bellacush_tests::captures::{
    Answer, Capture, Import, Order, Packet, HEADER_LEN, LINK_TYPE, MAGIC, ORDERS, PACKET_LEN,
    RECORD_LEN, REPORT_LEN,
};
use bellacush_tests::frames::Config;
use bellacush_tests::random::{cases, Random};
use bellacush_tests::slots::{State, TABLE_LEN};
use bellacush_tests::trace_calls::{body_by_body, trace, HEAD_WORDS};
use bellacush_tests::traces::{Body, Trace, MOST_BODIES, MOST_BODY_SLOTS, MOST_MODE};

const REPORT: [u8; REPORT_LEN] = [0xA5; REPORT_LEN];
const NANOSECOND_MAGIC: u32 = 0xA1B2_3C4D;
const ROOM: usize = 4000;
const HALF: u32 = 1 << 31;

/// Seen to be what is promised, with room to spare.
fn answered(import: &Import) -> Answer {
    let len = match import.promised() {
        Ok(imported) => imported.trace.file().len(),
        Err(_) => ROOM,
    };
    import.agreed(&vec![0xB7; len + 9], &REPORT)
}

/// What was written, and how many frames the report says were resent.
fn written(import: &Import) -> (Trace, u32) {
    let Answer {
        number,
        out,
        report,
    } = answered(import);
    assert_eq!(number, 0, "{import:?}");
    let [len, resent] = [0, 4].map(|at| {
        let bytes = report[at..at + 4].try_into().expect("four bytes");
        u32::from_be_bytes(bytes)
    });
    let trace = Trace::read(&out[..len as usize]).expect("what is imported is a trace");
    (trace, resent)
}

/// A capture of these packets, in both byte orders, is refused or taken with this number.
fn expect(number: u32, ports: usize, packets: &[Packet]) {
    for order in ORDERS {
        let import = Import::of(ports, &Capture::new(order, packets.to_vec()));
        assert_eq!(answered(&import).number, number, "{order:?}");
    }
}

/// The trace of these packets, central and from the first offsets on.
fn trace_of(ports: usize, packets: &[Packet]) -> (Trace, u32) {
    let [low, high] =
        ORDERS.map(|order| written(&Import::of(ports, &Capture::new(order, packets.to_vec()))));
    assert!(low == high, "the byte order made a difference");
    low
}

/// First slots and slot counts of the bodies.
fn places(trace: &Trace) -> Vec<(u32, usize)> {
    let bodies = trace.bodies.iter();
    bodies.map(|body| (body.first, body.blocks.len())).collect()
}

/// One packet of host 0 for each of these slots.
fn one_each(slots: impl IntoIterator<Item = u32>) -> Vec<Packet> {
    let packet = |slot: u32| Packet::of(slot, 0, slot as u8);
    slots.into_iter().map(packet).collect()
}

/// So many slots from this one on, past the wrap if need be.
fn on_from(first: u32, slots: usize) -> impl Iterator<Item = u32> {
    (0..slots as u32).map(move |k| first.wrapping_add(k))
}

// What is imported

#[test]
fn bytes_stand_as_document_02_says() {
    let packets = [
        Packet::of(0xFFFF_FFFF, 1, 0x11),
        Packet::of(0xFFFF_FFFF, 1, 0x22), // resent: the first counts
        Packet::of(0, 0, 0x33),
        Packet::of(0, 1, 0x44),
        Packet::of(7, 0, 0x55), // behind a gap
    ];
    let (trace, resent) = trace_of(2, &packets);
    let frame = |byte: u8| vec![byte; 11];
    let (absent, body) = (frame(0), |first, offsets: [u8; 2], blocks| Body {
        first,
        mode: 0,
        initiator: offsets[0],
        target: offsets[1],
        blocks,
    });
    let blocks = vec![
        [absent.clone(), frame(0x11)].concat(),
        [frame(0x33), frame(0x44)].concat(),
    ];
    let bodies = vec![
        body(0xFFFF_FFFF, [0, 0], blocks),
        body(7, [0, 1], vec![[frame(0x55), absent].concat()]),
    ];
    assert_eq!((trace, resent), (Trace { ports: 2, bodies }, 1));
}

#[test]
fn a_capture_stands_as_the_tools_write_it() {
    let capture = |order| Capture::new(order, vec![Packet::of(0x0102_0304, 5, 9)]).file();
    let head = [0xD4, 0xC3, 0xB2, 0xA1, 2, 0, 4, 0];
    let low = capture(Order::LowFirst);
    assert_eq!(low.len(), HEADER_LEN + RECORD_LEN);
    assert_eq!((&low[..8], &low[20..24]), (&head[..], &[147, 0, 0, 0][..]));
    assert_eq!(low[32..45], [16, 0, 0, 0, 16, 0, 0, 0, 1, 2, 3, 4, 5]);
    let high = capture(Order::HighFirst);
    assert_eq!(high[..8], [0xA1, 0xB2, 0xC3, 0xD4, 0, 2, 0, 4]);
    assert_eq!(high[20..24], [0, 0, 0, 147]);
    assert_eq!(high[32..45], [0, 0, 0, 16, 0, 0, 0, 16, 1, 2, 3, 4, 5]);
}

#[test]
fn a_capture_without_packets_is_a_trace_without_bodies() {
    for ports in 1..=16 {
        let (trace, resent) = trace_of(ports, &[]);
        assert_eq!((trace.ports, trace.bodies.len(), resent), (ports, 0, 0));
    }
}

#[test]
fn random_captures_in_every_mode() {
    let mut random = Random::of_test("random_captures");
    for ports in 1..=16 {
        for mode in 0..=u32::from(MOST_MODE) {
            let slots = random.pick(&[1, 2, 5, 30]);
            let capture = Capture::any(&mut random, ports, slots);
            let import = Import::any(&mut random, ports, &capture);
            written(&Import { mode, ..import });
        }
    }
    for _ in 0..cases(200) {
        let ports = random.between(1, 16);
        let slots = random.pick(&[1, 10, 100, 400, 800]);
        let capture = Capture::any(&mut random, ports, slots);
        written(&Import::any(&mut random, ports, &capture));
    }
}

#[test]
fn both_byte_orders_make_the_same_trace() {
    let mut random = Random::of_test("capture_orders");
    for _ in 0..cases(50) {
        let ports = random.between(1, 16);
        let capture = Capture::any(&mut random, ports, 20);
        trace_of(ports, &capture.packets);
    }
}

#[test]
fn absent_hosts_are_eleven_zeros() {
    for ports in 1..=16_u8 {
        for host in 0..ports {
            let (trace, _) = trace_of(ports.into(), &[Packet::of(3, host, 0xEE)]);
            let block = &trace.bodies[0].blocks[0];
            for (other, frame) in block.chunks(11).enumerate() {
                let byte = if other == host.into() { 0xEE } else { 0 };
                assert_eq!(frame, [byte; 11]);
            }
        }
    }
}

#[test]
fn of_resent_frames_the_first_counts() {
    let first = [
        Packet::of(9, 1, 1),
        Packet::of(9, 0, 2),
        Packet::of(10, 1, 3),
    ];
    let (alone, none) = trace_of(3, &first);
    assert_eq!(none, 0);
    // the same or another, at once or later in the slot; also where the first is zeros itself
    for again in [1, 7, 0] {
        let at_once = [first[0], Packet::of(9, 1, again), first[1], first[2]];
        let later = [first[0], first[1], Packet::of(9, 1, again), first[2]];
        assert_eq!(trace_of(3, &at_once), (alone.clone(), 1));
        assert_eq!(trace_of(3, &later), (alone.clone(), 1));
    }
    let zeros = [Packet::of(9, 2, 0), Packet::of(9, 2, 8)];
    let (trace, resent) = trace_of(3, &zeros);
    assert_eq!((&trace.bodies[0].blocks[0], resent), (&vec![0; 33], 1));
    // in the next slot a host's frame is its first again
    assert_eq!(trace_of(1, &one_each([4, 5])).1, 0);
}

#[test]
fn resent_frames_change_nothing_but_their_count() {
    let mut random = Random::of_test("resent_frames");
    for _ in 0..cases(60) {
        let ports = random.between(1, 16);
        let capture = Capture::any(&mut random, ports, 12);
        let import = Import::any(&mut random, ports, &capture);
        let (trace, resent) = written(&import);
        let mut more = capture.clone();
        let copied = random.below(more.packets.len());
        let mut copy = more.packets[copied];
        copy.frame[random.below(11)] ^= 1 << random.below(8);
        more.packets.insert(copied + 1, copy);
        let capture = more.file();
        let (same, counted) = written(&Import { capture, ..import });
        assert!(same == trace, "a resent frame changed the trace");
        assert_eq!(counted, resent + 1);
    }
}

// Bodies

#[test]
fn a_gap_starts_a_new_body_whose_offsets_continue() {
    for gap in [1, 2, 359, 360, HALF - 2] {
        let slots = [5, 6, 7, 8 + gap, 9 + gap];
        let (trace, _) = trace_of(3, &one_each(slots));
        assert_eq!(places(&trace), [(5, 3), (8 + gap, 2)]);
        let offsets = |k: usize| [trace.bodies[k].initiator, trace.bodies[k].target];
        // three slots were served, none in the gap
        assert_eq!([offsets(0), offsets(1)], [[0, 0], [0, 1]]);
    }
}

#[test]
fn a_body_has_no_more_than_360_slots() {
    let counts: [(usize, &[usize]); 6] = [
        (359, &[359]),
        (360, &[360]),
        (361, &[360, 1]),
        (720, &[360, 360]),
        (721, &[360, 360, 1]),
        (1000, &[360, 360, 280]),
    ];
    for (slots, expected) in counts {
        for first in [0, 77, u32::MAX - 360, u32::MAX - 359, u32::MAX - 5] {
            let (trace, _) = trace_of(2, &one_each(on_from(first, slots)));
            let counts: Vec<usize> = places(&trace).iter().map(|place| place.1).collect();
            assert_eq!(counts, expected);
            for (k, body) in trace.bodies.iter().enumerate() {
                assert_eq!(body.first, first.wrapping_add(360 * k as u32));
            }
        }
    }
}

#[test]
fn a_gap_right_behind_360_slots_starts_one_body() {
    let slots = on_from(10, 360).chain([371, 372]);
    let (trace, _) = trace_of(5, &one_each(slots));
    assert_eq!(places(&trace), [(10, 360), (371, 2)]);
}

#[test]
fn a_resent_frame_behind_360_slots_starts_no_body() {
    let slots = on_from(10, 360).chain([369]);
    let (trace, resent) = trace_of(5, &one_each(slots));
    assert_eq!((places(&trace), resent), (vec![(10, 360)], 1));
}

#[test]
fn the_wrap_is_no_gap() {
    let (trace, _) = trace_of(4, &one_each(on_from(u32::MAX - 2, 6)));
    assert_eq!(places(&trace), [(u32::MAX - 2, 6)]);
    let (trace, _) = trace_of(4, &one_each([u32::MAX, 1]));
    assert_eq!(places(&trace), [(u32::MAX, 1), (1, 1)]);
    let (trace, _) = trace_of(4, &one_each([u32::MAX - 1, 0]));
    assert_eq!(places(&trace), [(u32::MAX - 1, 1), (0, 1)]);
}

#[test]
fn a_slot_may_come_round_again() {
    let (trace, resent) = trace_of(1, &one_each([5, 5 + (HALF - 1), 3, 5]));
    let expected = vec![(5, 1), (5 + (HALF - 1), 1), (3, 1), (5, 1)];
    assert_eq!((places(&trace), resent), (expected, 0));
}

// Captures that are refused

#[test]
fn other_magics_and_link_types_are_refused() {
    let mut random = Random::of_test("capture_magic");
    for order in ORDERS {
        let right = Capture::new(order, one_each([1, 2]));
        let refused = |capture: &Capture| {
            assert_eq!(answered(&Import::of(2, capture)).number, 18, "{capture:?}");
        };
        let swapped = 0xC3D4_A1B2;
        for magic in [NANOSECOND_MAGIC, swapped, 0, MAGIC + 1, random.long()] {
            let capture = Capture {
                magic,
                ..right.clone()
            };
            refused(&capture);
        }
        let high = LINK_TYPE.swap_bytes();
        for link_type in [0, 1, 146, 148, 147 + 256, 147 + (1 << 27), high] {
            let capture = Capture {
                link_type,
                ..right.clone()
            };
            refused(&capture);
        }
    }
}

#[test]
fn the_upper_four_bits_of_the_link_type_are_ignored() {
    for order in ORDERS {
        for kind in 0..16 {
            let mut capture = Capture::new(order, one_each([1, 2]));
            capture.link_type = kind << 28 | LINK_TYPE;
            written(&Import::of(2, &capture));
        }
    }
}

#[test]
fn every_bit_of_a_header() {
    for order in ORDERS {
        let right = Import::of(1, &Capture::new(order, one_each([1, 2])));
        let taken = (0..8 * HEADER_LEN).filter(|bit| {
            let mut import = right.clone();
            import.capture[bit / 8] ^= 1 << (bit % 8);
            answered(&import).number == 0
        });
        // all but those of the magic and the low 28 bits of the link type
        assert_eq!(taken.count(), 8 * HEADER_LEN - 32 - 28);
    }
}

#[test]
fn every_bit_of_a_record_header() {
    for order in ORDERS {
        let right = Import::of(1, &Capture::new(order, one_each([1, 2])));
        let taken = (0..8 * 16).filter(|bit| {
            let mut import = right.clone();
            import.capture[HEADER_LEN + RECORD_LEN + bit / 8] ^= 1 << (bit % 8);
            answered(&import).number == 0
        });
        // all but those of the captured length
        assert_eq!(taken.count(), 8 * 16 - 32);
    }
}

#[test]
fn every_truncation_of_a_small_capture() {
    let mut random = Random::of_test("capture_cuts");
    for order in ORDERS {
        for ports in [1, 2, 16] {
            let mut capture = Capture::any(&mut random, ports, 3);
            capture.order = order;
            let whole = Import::of(ports, &capture);
            for len in 0..whole.capture.len() {
                let mut cut = whole.clone();
                cut.capture.truncate(len);
                let between = len >= HEADER_LEN && (len - HEADER_LEN) % RECORD_LEN == 0;
                let number = if between { 0 } else { 18 };
                assert_eq!(answered(&cut).number, number, "{len} bytes");
            }
        }
    }
}

#[test]
fn bytes_behind_the_last_record_are_refused() {
    for order in ORDERS {
        let right = Import::of(1, &Capture::new(order, one_each([1, 2])));
        for more in 1..RECORD_LEN {
            let mut import = right.clone();
            import.capture.extend(vec![0; more]);
            assert_eq!(answered(&import).number, 18);
        }
    }
}

#[test]
fn other_captured_lengths_are_refused() {
    for order in ORDERS {
        for captured in [0, 15, 17, 24, 32, 16 << 24, 16 + 256, u32::MAX] {
            let mut capture = Capture::new(order, one_each([1, 2]));
            capture.captured = captured;
            assert_eq!(answered(&Import::of(1, &capture)).number, 18);
        }
    }
    assert_eq!(PACKET_LEN, 16);
}

#[test]
fn hosts_at_or_above_n_are_refused() {
    for ports in 1..=16_u8 {
        for host in [ports, ports + 1, 16, 17, 128, 255] {
            if host >= ports {
                expect(
                    18,
                    ports.into(),
                    &[Packet::of(1, 0, 1), Packet::of(1, host, 1)],
                );
            }
        }
        expect(0, ports.into(), &[Packet::of(1, ports - 1, 1)]);
    }
}

#[test]
fn stale_slots_are_refused() {
    for before in [0, 5, HALF - 1, HALF, u32::MAX] {
        for behind in [1, 2, 360, HALF - 1, HALF] {
            let slot = before.wrapping_sub(behind);
            expect(18, 2, &one_each([before, slot]));
            // also where it was the slot before the one before
            expect(18, 2, &one_each([slot, before, slot]));
        }
        for ahead in [0, 1, 2, HALF - 1] {
            expect(0, 2, &one_each([before, before.wrapping_add(ahead)]));
        }
    }
}

#[test]
fn no_more_than_1024_bodies_are_needed() {
    let apart = |bodies: u32| one_each((0..bodies).map(|k| 2 * k));
    expect(0, 1, &apart(MOST_BODIES as u32));
    expect(18, 1, &apart(MOST_BODIES as u32 + 1));
    let mut resent = apart(MOST_BODIES as u32);
    resent.push(resent[resent.len() - 1]);
    expect(0, 1, &resent);
    // the next slot still fits the last body, one later does not
    let last = 2 * (MOST_BODIES as u32 - 1);
    let with = |slot| [apart(MOST_BODIES as u32), one_each([slot])].concat();
    expect(0, 1, &with(last + 1));
    expect(18, 1, &with(last + 2));
}

#[test]
fn no_more_than_1024_bodies_of_360_slots() {
    let most = MOST_BODIES * MOST_BODY_SLOTS;
    for (slots, number) in [(most, 0), (most + 1, 18)] {
        let capture = Capture::new(Order::LowFirst, one_each(on_from(u32::MAX - 9, slots)));
        assert_eq!(answered(&Import::of(1, &capture)).number, number);
    }
}

// Numbers, room and their order

#[test]
fn other_ports_offsets_and_modes_are_refused() {
    for ports in 1..=16_u32 {
        let right = Import::of(ports as usize, &Capture::new(Order::LowFirst, vec![]));
        let number = |import: Import| answered(&import).number;
        for n in [0, 17, 32, 256 + ports, u32::MAX] {
            assert_eq!(number(Import { n, ..right.clone() }), 1);
        }
        for offset in [ports, ports + 1, 256, u32::MAX] {
            let i = offset;
            assert_eq!(number(Import { i, ..right.clone() }), 2);
            let j = offset;
            assert_eq!(number(Import { j, ..right.clone() }), 2);
        }
        for mode in [18, 19, 33, 256, u32::MAX] {
            assert_eq!(
                number(Import {
                    mode,
                    ..right.clone()
                }),
                5
            );
        }
        for mode in [0, 1, 16, 17] {
            assert_eq!(
                number(Import {
                    mode,
                    ..right.clone()
                }),
                0
            );
        }
    }
}

#[test]
fn room_and_report_at_every_length() {
    let mut random = Random::of_test("import_room");
    for ports in 1..=16 {
        let capture = Capture::any(&mut random, ports, 4);
        let import = Import::any(&mut random, ports, &capture);
        let len = import.promised().expect("sound").trace.file().len();
        for room in [0, 1, len / 2, len - 1, len, len + 1, len + 40] {
            let answer = import.agreed(&random.bytes(room), &REPORT);
            assert_eq!(answer.number, if room < len { 7 } else { 0 });
        }
        for report in [0, 1, 4, 7, 9, 16] {
            let answer = import.agreed(&random.bytes(len), &random.bytes(report));
            assert_eq!(answer.number, 8);
        }
    }
}

#[test]
fn refusals_come_in_their_order() {
    let sound = Import::of(2, &Capture::new(Order::HighFirst, one_each([1, 3, 4])));
    // each fault by itself, in the order of the tests
    type Fault = fn(&mut Import, &mut Vec<u8>, &mut Vec<u8>);
    let faults: [(u32, Fault); 6] = [
        (8, |_, _, report| report.truncate(7)),
        (1, |import, _, _| import.n = 0),
        (2, |import, _, _| import.j = 17),
        (5, |import, _, _| import.mode = 18),
        (18, |import, _, _| import.capture.truncate(60)),
        (7, |_, out, _| out.truncate(20)),
    ];
    for set in 0..1 << faults.len() {
        let (mut import, mut out) = (sound.clone(), vec![0xB7; ROOM]);
        let mut report = REPORT.to_vec();
        let mut expected = 0;
        for (k, (number, fault)) in faults.iter().enumerate().rev() {
            if set >> k & 1 == 1 {
                fault(&mut import, &mut out, &mut report);
                expected = *number;
            }
        }
        // agreed: nothing is written where it declines
        assert_eq!(import.agreed(&out, &report).number, expected);
    }
}

#[test]
fn any_numbers_and_bytes() {
    let mut random = Random::of_test("import_any_bytes");
    for _ in 0..cases(20_000) {
        let ports = random.between(1, 16);
        let capture = Capture::any(&mut random, ports, 2);
        let mut import = Import::any(&mut random, ports, &capture);
        for _ in 0..random.below(3) {
            let at = random.below(import.capture.len());
            import.capture[at] = random.pick(&[0, 1, 16, 255, at as u8]);
        }
        if random.chance(1, 4) {
            import.n = random.below(20) as u32;
        }
        if random.chance(1, 8) {
            import.capture.truncate(random.below(import.capture.len()));
        }
        let room = random.pick(&[0, 5, 40, 200, 1000]);
        import.agreed(&random.bytes(room), &REPORT);
    }
}

// What is imported replays

/// The tables that a live shelf gave: the state goes on over a gap, but for the slot due.
fn live(import: &Import, trace: &Trace) -> Vec<u8> {
    let ports = trace.ports;
    let mut state = State::fresh(ports, 0).bytes();
    (state[1], state[2]) = (import.i as u8, import.j as u8);
    let (mut out, mut table) = (vec![0; 7 * ports], vec![0; TABLE_LEN]);
    let mut tables = Vec::new();
    for body in &trace.bodies {
        state[3..7].copy_from_slice(&body.first.to_be_bytes());
        for (k, block) in body.blocks.iter().enumerate() {
            let slot = body.first.wrapping_add(k as u32);
            let word = calls::slot(
                &mut state,
                slot,
                import.mode,
                block,
                0,
                &mut out,
                &mut table,
            );
            assert_eq!(word % 256, 0, "a live slot was declined");
            tables.extend_from_slice(&table);
        }
    }
    tables
}

#[test]
fn what_is_imported_checks_and_replays_as_live_slots() {
    let mut random = Random::of_test("imported_replays");
    for ports in 1..=16 {
        for slots in [1, 7, 400] {
            let capture = Capture::any(&mut random, ports, slots);
            let import = Import::any(&mut random, ports, &capture);
            let (imported, _) = written(&import);
            let file = imported.file();
            let shown = vec![ports as u32, imported.bodies.len() as u32];
            assert_eq!(trace(&file, &[7; HEAD_WORDS]), (0, shown));
            let found = body_by_body(&file).expect("it replays");
            let tables: Vec<u8> = found.into_iter().flat_map(|body| body.tables).collect();
            assert!(tables == live(&import, &imported), "the tables differ");
        }
    }
}

// The captures that the program's test is run on

/// Two ports, three slots past the wrap and two behind a gap. Host 0 is heard twice in the second
/// slot, host 1 is absent in the third.
fn stored(order: Order) -> Capture {
    let asking = |slot, host, req| Packet {
        slot,
        host,
        frame: Config::asking(req).frame().try_into().expect("a frame"),
    };
    let packets = vec![
        asking(u32::MAX - 1, 0, 3),
        asking(u32::MAX - 1, 1, 1),
        asking(u32::MAX, 1, 2),
        asking(u32::MAX, 0, 2),
        asking(u32::MAX, 0, 1),
        asking(0, 0, 1),
        asking(5, 0, 3),
        asking(5, 1, 3),
        asking(6, 1, 3),
        asking(6, 0, 3),
    ];
    Capture::new(order, packets)
}

/// A file of tests/c holds these bytes. With BELLACUSH_STORE set, it is written first.
fn expect_stored(name: &str, bytes: &[u8]) {
    let path = Path::new(env!("CARGO_MANIFEST_DIR")).join("c").join(name);
    if env::var_os("BELLACUSH_STORE").is_some() {
        fs::write(&path, bytes).expect("the file can be written");
    }
    let stored = fs::read(&path).expect("the file can be read");
    assert!(stored == bytes, "{name} holds something else");
}

#[test]
fn stored_captures_are_our_own() {
    let [low, high] = ORDERS.map(|order| Import::of(2, &stored(order)));
    expect_stored("low-first.pcap", &low.capture);
    expect_stored("high-first.pcap", &high.capture);
    let (trace, resent) = written(&low);
    assert_eq!(written(&high), (trace.clone(), 1));
    assert_eq!(
        (places(&trace), resent),
        (vec![(u32::MAX - 1, 3), (5, 2)], 1)
    );
    expect_stored("imported.trace", &trace.file());
}
