//! The writers of traces against our own: what is sealed and written is byte for byte ours and
//! reads back, and what cannot be a trace is not written.

use bellacush_tests::frames::sealed;
use bellacush_tests::random::{cases, Random};
use bellacush_tests::trace_calls::{
    contents, trace, trace_body, Seal, Writing, BODY_WORDS, HEAD_WORDS,
};
use bellacush_tests::traces::{body_len, Body, Layout, Trace, MOST_BODIES};

const HEAD: [u32; HEAD_WORDS] = [7; HEAD_WORDS];
const PLACE: [u32; BODY_WORDS] = [7; BODY_WORDS];

// What is written

#[test]
fn bytes_stand_as_document_02_says() {
    let block = [9, 8, 7, 6, 5, 4, 3, 2, 1, 0, 255];
    let body = Seal {
        n: 1,
        slots: 1,
        mode: 16,
        i: 0,
        j: 0,
        blocks: block.to_vec(),
    };
    let (number, body) = body.agreed(&[0; 16]);
    assert_eq!((number, &body[..3]), (0, &[16, 0, 0][..]));
    assert_eq!(body[3..14], block);
    assert_eq!(body, sealed(body[..14].to_vec()));
    let writing = Writing {
        n: 1,
        firsts: vec![0x0102_0304, u32::MAX],
        slots: vec![1, 1],
        bodies: [&body[..], &body].concat(),
    };
    let (number, file) = writing.agreed(&[0; 57]);
    let head = [1, 0, 2];
    let first_entry = [1, 2, 3, 4, 0, 1, 0, 0, 0, 25];
    let second_entry = [255, 255, 255, 255, 0, 1, 0, 0, 0, 41];
    let contents = sealed([&head[..], &first_entry, &second_entry].concat());
    assert_eq!(number, 0);
    assert_eq!(file, [&contents[..], &body, &body].concat());
    let place = |k| trace_body(&file, k, &PLACE);
    assert_eq!(place(0), (0, vec![0x0102_0304, 1, 25, 16]));
    assert_eq!(place(1), (0, vec![u32::MAX, 1, 41, 16]));
    assert_eq!(place(2), (14, PLACE.to_vec()));
}

/// Sealed, written and read back by the library, it is the trace that it was.
fn round_trip(original: &Trace) {
    let ports = original.ports;
    let file = original.file();
    for body in &original.bodies {
        let room = vec![0xB7; body_len(ports, body.blocks.len())];
        assert_eq!(
            Seal::of(body, ports).agreed(&room),
            (0, body.bytes()),
            "{body:?}"
        );
    }
    let room = vec![0xB7; file.len()];
    assert_eq!(Writing::of(original).agreed(&room), (0, file.clone()));
    let shown = vec![ports as u32, original.bodies.len() as u32];
    assert_eq!(trace(&file, &HEAD), (0, shown.clone()));
    assert_eq!(contents(&file, file.len(), &HEAD), (0, shown));
    for (k, entry) in original.layout().entries.iter().enumerate() {
        assert_eq!(trace_body(&file, k as u32, &PLACE), (0, entry.words(ports)));
    }
    assert_eq!(Trace::read(&file).as_ref(), Some(original));
}

#[test]
fn round_trips() {
    let mut random = Random::of_test("trace_round_trips");
    for trace in Trace::of_every_size(&mut random) {
        round_trip(&trace);
    }
    for _ in 0..cases(300) {
        round_trip(&Trace::small(&mut random));
    }
}

#[test]
fn the_greatest_body_and_the_most_bodies() {
    let mut random = Random::of_test("greatest_trace");
    round_trip(&Trace::any(&mut random, 16, &[360]));
    round_trip(&Trace::any(&mut random, 1, &[1; MOST_BODIES]));
    // offsets of more than two bytes
    round_trip(&Trace::any(&mut random, 16, &[360, 359, 1]));
}

// Room, and what is refused

/// Rooms around this length.
fn rooms(len: usize) -> [usize; 7] {
    [0, 1, len / 2, len - 1, len, len + 1, len + 40]
}

#[test]
fn bodies_are_sealed_at_every_length_of_output() {
    let mut random = Random::of_test("seal_room");
    for ports in 1..=16 {
        for slots in [1, 2, 7] {
            let seal = Seal::of(&Body::any(&mut random, ports, slots), ports);
            let len = body_len(ports, slots);
            for room in rooms(len) {
                let (number, _) = seal.agreed(&random.bytes(room));
                assert_eq!(number, if room < len { 7 } else { 0 });
            }
        }
    }
}

/// A number that a body is sealed of.
type Field = fn(&mut Seal) -> &mut u32;

const PORTS: Field = |seal| &mut seal.n;
const SLOTS: Field = |seal| &mut seal.slots;
const MODE: Field = |seal| &mut seal.mode;
const I: Field = |seal| &mut seal.i;
const J: Field = |seal| &mut seal.j;

#[test]
fn bodies_are_not_sealed_of_anything_else() {
    let mut random = Random::of_test("seal_refusals");
    for ports in 1..=16 {
        for slots in [1, 3] {
            let right = Seal::of(&Body::any(&mut random, ports, slots), ports);
            for large in [18, 19, 256, 257, 65_536, 1 << 31, u32::MAX] {
                for field in [PORTS, SLOTS, MODE, I, J] {
                    expect_no_seal(&mut random, &right, field, large);
                }
            }
            for (field, value) in [(I, right.n), (J, right.n), (SLOTS, 0), (PORTS, 0)] {
                expect_no_seal(&mut random, &right, field, value);
            }
            for len in [0, 1, right.blocks.len() - 1, right.blocks.len() + 1] {
                let mut seal = right.clone();
                seal.blocks.resize(len, 0);
                assert_eq!(seal.agreed(&random.bytes(9)).0, 14);
            }
        }
    }
}

/// With another number in this place; with room and without.
fn expect_no_seal(random: &mut Random, right: &Seal, field: Field, value: u32) {
    let mut seal = right.clone();
    *field(&mut seal) = value;
    for room in [0, 1, 6000] {
        assert_eq!(seal.agreed(&random.bytes(room)).0, 14, "{seal:?}");
    }
}

/// Silent hosts, as many and for as many slots as named.
fn sealing(n: u32, slots: u32) -> Seal {
    Seal {
        n,
        slots,
        mode: 0,
        i: 0,
        j: 0,
        blocks: vec![0; (n * slots * 11) as usize],
    }
}

#[test]
fn bodies_of_every_slot_count_and_ports_are_sealed_or_not() {
    for (ports, slots) in [
        (0, 1),
        (1, 0),
        (0, 0),
        (17, 1),
        (1, 361),
        (16, 361),
        (17, 360),
    ] {
        let seal = sealing(ports, slots);
        assert_eq!(seal.agreed(&vec![0xB7; 70_000]).0, 14);
    }
    for (ports, slots) in [(1, 1), (1, 360), (16, 1), (16, 360)] {
        let seal = sealing(ports, slots);
        assert_eq!(seal.agreed(&vec![0xB7; 70_000]).0, 0);
    }
}

#[test]
fn traces_are_written_at_every_length_of_output() {
    let mut random = Random::of_test("write_room");
    for trace in Trace::of_every_size(&mut random) {
        let len = trace.file().len();
        for room in rooms(len) {
            let (number, _) = Writing::of(&trace).agreed(&random.bytes(room));
            assert_eq!(number, if room < len { 7 } else { 0 });
        }
    }
}

fn expect_unwritten(random: &mut Random, writing: &Writing) {
    for room in [0, 20, 40_000] {
        assert_eq!(writing.agreed(&random.bytes(room)).0, 14);
    }
}

#[test]
fn traces_are_not_written_of_anything_else() {
    let mut random = Random::of_test("write_refusals");
    for ports in [1, 2, 9, 16] {
        let right = Writing::of(&Trace::any(&mut random, ports, &[2, 3, 1]));
        for n in [0, ports as u32 + 1, 17, 256 + ports as u32, u32::MAX] {
            let wrong = Writing { n, ..right.clone() };
            expect_unwritten(&mut random, &wrong);
        }
        for (k, slots) in [
            (0, 0),
            (0, 1),
            (0, 3),
            (1, 2),
            (2, 360),
            (2, 361),
            (2, 65_535),
        ] {
            let mut wrong = right.clone();
            wrong.slots[k] = slots;
            expect_unwritten(&mut random, &wrong);
        }
        let mut wrongs = vec![right.clone(); 6];
        wrongs[0].slots.swap(0, 1);
        wrongs[1].firsts.push(9);
        wrongs[2].firsts.pop();
        wrongs[3].slots.push(1);
        wrongs[4].bodies.push(0);
        wrongs[5].bodies.pop();
        for wrong in &wrongs {
            expect_unwritten(&mut random, wrong);
        }
    }
}

#[test]
fn traces_with_any_bit_of_a_body_damaged_are_not_written() {
    let mut random = Random::of_test("write_bits");
    let right = Writing::of(&Trace::any(&mut random, 2, &[2, 1]));
    for bit in 0..8 * right.bodies.len() {
        let mut wrong = right.clone();
        wrong.bodies[bit / 8] ^= 0x80 >> (bit % 8);
        assert_eq!(wrong.agreed(&[0xB7; 200]).0, 14);
    }
}

#[test]
fn traces_are_written_of_bodies_of_proper_form_alone() {
    let mut random = Random::of_test("write_forms");
    for ports in 1..=16_u8 {
        let layout = Layout::of_three_bodies(&mut random, ports.into());
        for fields in [[17, 0, 0], [18, 0, 0], [0, ports, 0], [0, 0, ports]] {
            let mut changed = layout.clone();
            changed.set_fields(random.below(3), fields);
            let writing = Writing {
                n: ports.into(),
                firsts: vec![3, 2, 1],
                slots: vec![3, 2, 1],
                bodies: changed.bodies.concat(),
            };
            let expected = if fields == [17, 0, 0] { 0 } else { 14 };
            assert_eq!(writing.agreed(&[0xB7; 2000]).0, expected);
        }
    }
}

#[test]
fn no_more_than_1024_bodies_are_written() {
    let mut random = Random::of_test("write_counts");
    for count in [0, 1, 1023, 1024, 1025, 2048] {
        let writing = Writing::of(&Trace::any(&mut random, 1, &vec![1; count]));
        let (number, _) = writing.agreed(&vec![0xB7; 60_000]);
        assert_eq!(number, if count <= 1024 { 0 } else { 14 });
    }
}

/// A number of any size, and often a small one.
fn any_number(random: &mut Random) -> u32 {
    let most = random.pick(&[3, 20, 400, 70_000, u32::MAX as usize]);
    random.below(most) as u32
}

#[test]
fn any_numbers_and_bytes() {
    let mut random = Random::of_test("trace_writers_any_bytes");
    for _ in 0..cases(20_000) {
        let mut number = || any_number(&mut random);
        let [n, slots, mode, i, j, len, room] = std::array::from_fn(|_| number());
        let bytes = random.bytes(len as usize % 300);
        let seal = Seal {
            n,
            slots,
            mode,
            i,
            j,
            blocks: bytes.clone(),
        };
        let writing = Writing {
            n,
            firsts: (0..slots % 5).collect(),
            slots: (0..mode % 5).map(|k| k.wrapping_add(i) as u16).collect(),
            bodies: bytes,
        };
        let out = random.bytes(room as usize % 400);
        seal.agreed(&out);
        writing.agreed(&out);
    }
}
