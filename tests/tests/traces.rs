//! The reader of traces against our own: files that are laid out by document 02, item 3, and files
//! that depart from it in one way.

use bellacush_tests::frames::sealed;
use bellacush_tests::random::{cases, Random};
use bellacush_tests::trace_calls::{
    body_by_body, contents, entry, trace, trace_body, Words, BODY_WORDS, HEAD_WORDS,
};
use bellacush_tests::traces::{
    body_len, contents_len, Layout, Trace, MOST_BODIES, MOST_BODY_SLOTS,
};

const HEAD: [u32; HEAD_WORDS] = [7; HEAD_WORDS];
const PLACE: [u32; BODY_WORDS] = [7; BODY_WORDS];

fn expect_trace(file: &[u8], ports: usize, count: usize) {
    let expected: Words = (0, vec![ports as u32, count as u32]);
    assert_eq!(trace(file, &HEAD), expected);
    assert_eq!(contents(file, file.len(), &HEAD), expected);
}

/// It is no trace, and so no body of it is shown.
fn expect_refused(file: &[u8]) {
    assert_eq!(trace(file, &HEAD), (14, HEAD.to_vec()));
    assert_eq!(trace_body(file, 0, &PLACE), (14, PLACE.to_vec()));
    assert_eq!(body_by_body(file), Err(14), "{file:02X?}");
}

/// Its contents are refused already.
fn expect_bad_contents(file: &[u8]) {
    expect_refused(file);
    assert_eq!(contents(file, file.len(), &HEAD).0, 14);
}

/// Its contents are sound, so that it is a body that is refused.
fn expect_bad_body(file: &[u8]) {
    expect_refused(file);
    assert_eq!(contents(file, file.len(), &HEAD).0, 0);
}

// The greatest

#[test]
fn the_greatest_contents() {
    let mut random = Random::of_test("greatest_contents");
    let mut layout = Trace::any(&mut random, 16, &[1]).layout();
    layout.count = MOST_BODIES as u16;
    layout.entries = vec![layout.entries[0]; MOST_BODIES];
    let mut end = contents_len(MOST_BODIES);
    for entry in &mut layout.entries {
        entry.slots = MOST_BODY_SLOTS as u16;
        entry.offset = end as u32;
        end += body_len(16, MOST_BODY_SLOTS);
    }
    let start = layout.contents();
    assert_eq!(end, 64_896_005);
    assert_eq!(contents(&start, end, &HEAD), (0, vec![16, 1024]));
    let last = layout.entries[1023].words(16);
    assert_eq!(last[2..], [64_832_640, 63_365]);
    assert_eq!(entry(&start, 1023, &PLACE), (0, last));
    for wrong in [
        0,
        end - 1,
        end + 1,
        start.len(),
        end + (1 << 32),
        usize::MAX,
    ] {
        assert_eq!(contents(&start, wrong, &HEAD).0, 14);
    }
}

// Files that are no traces

#[test]
fn with_any_bit_damaged_are_refused() {
    let mut random = Random::of_test("trace_bits");
    for trace in Trace::of_every_size(&mut random) {
        let file = trace.file();
        for bit in 0..8 * file.len() {
            let mut damaged = file.clone();
            damaged[bit / 8] ^= 0x80 >> (bit % 8);
            expect_refused(&damaged);
        }
    }
}

#[test]
fn cut_anywhere_are_refused() {
    let mut random = Random::of_test("trace_cuts");
    for trace in Trace::of_every_size(&mut random) {
        let file = trace.file();
        for len in 0..file.len() {
            expect_refused(&file[..len]);
        }
    }
}

#[test]
fn with_anything_behind_them_are_refused() {
    let mut random = Random::of_test("trace_extensions");
    for trace in Trace::of_every_size(&mut random) {
        let file = trace.file();
        for len in [1, 2, 5, 16, body_len(trace.ports, 1)] {
            let more = random.bytes(len);
            for behind in [vec![0; len], more, file.clone()] {
                expect_bad_contents(&[&file[..], &behind].concat());
            }
        }
        // contents are looked at alone, whatever stands behind them
        let start = [&trace.layout().contents()[..], &random.bytes(9)].concat();
        let shown = vec![trace.ports as u32, trace.bodies.len() as u32];
        assert_eq!(contents(&start, file.len(), &HEAD), (0, shown));
        assert_eq!(contents(&start, start.len(), &HEAD).0, 14);
    }
}

#[test]
fn with_gaps_are_refused() {
    let mut random = Random::of_test("trace_gaps");
    for ports in 1..=16 {
        for before in 0..3 {
            for gap in [1, 2, 10, 16] {
                let mut layout = Layout::of_three_bodies(&mut random, ports);
                layout.bodies[before] = [random.bytes(gap), layout.bodies[before].clone()].concat();
                expect_bad_contents(&layout.file());
                for entry in &mut layout.entries[before..] {
                    entry.offset += gap as u32;
                }
                expect_bad_contents(&layout.file());
            }
        }
    }
}

#[test]
fn with_wrong_offsets_are_refused() {
    let mut random = Random::of_test("trace_offsets");
    for ports in 1..=16 {
        let right = Layout::of_three_bodies(&mut random, ports);
        for k in 0..3 {
            let offset = right.entries[k].offset;
            for wrong in [
                0,
                1,
                offset - 1,
                offset + 1,
                offset ^ 1 << 16,
                offset ^ 1 << 31,
            ] {
                let mut layout = right.clone();
                layout.entries[k].offset = wrong;
                expect_bad_contents(&layout.file());
            }
        }
    }
}

#[test]
fn with_bodies_out_of_order_are_refused() {
    let mut random = Random::of_test("trace_order");
    for ports in 1..=16 {
        // of one length, so that each body is a body wherever it stands
        let right = Trace::any(&mut random, ports, &[2, 2, 2]).layout();
        for (one, other) in [(0, 1), (1, 2), (0, 2)] {
            let mut swapped = right.clone();
            let offset = swapped.entries[one].offset;
            swapped.entries[one].offset = swapped.entries[other].offset;
            expect_bad_contents(&swapped.file());
            swapped.entries[other].offset = offset;
            expect_bad_contents(&swapped.file());
        }
        // two entries of one body, which then overlap, with and without the other
        let mut shared = right.clone();
        shared.entries[2].offset = shared.entries[1].offset;
        expect_bad_contents(&shared.file());
        shared.bodies.pop();
        expect_bad_contents(&shared.file());
    }
}

#[test]
fn whose_entry_names_another_slot_count_are_refused() {
    let mut random = Random::of_test("trace_slot_counts");
    for ports in [1, 2, 16] {
        let right = Layout::of_three_bodies(&mut random, ports);
        for (k, slots) in (0..3).flat_map(|k| [0, 1, 2, 3, 4, 360].map(|slots| (k, slots))) {
            let mut layout = right.clone();
            layout.entries[k].slots = slots;
            if slots == right.entries[k].slots {
                expect_trace(&layout.file(), ports, 3);
            } else {
                expect_bad_contents(&layout.file());
            }
        }
    }
}

/// Bodies of one slot and one port, so many, under contents that name this count.
fn with_count(random: &mut Random, bodies: usize, count: usize) -> Vec<u8> {
    let mut layout = Trace::any(random, 1, &vec![1; bodies]).layout();
    layout.count = count as u16;
    layout.file()
}

#[test]
fn of_every_body_count() {
    let mut random = Random::of_test("trace_counts");
    for count in [0, 1, 2, 255, 256, 257, 1023, 1024] {
        expect_trace(&with_count(&mut random, count, count), 1, count);
        expect_bad_contents(&with_count(&mut random, count, count + 1));
        if count > 0 {
            expect_bad_contents(&with_count(&mut random, count, count - 1));
        }
    }
    for count in [1025, 1026, 1280, 2048] {
        expect_bad_contents(&with_count(&mut random, count, count));
    }
    for count in [1025, 32_768, 65_535] {
        expect_bad_contents(&with_count(&mut random, 1, count));
    }
}

#[test]
fn of_every_slot_count_of_a_body() {
    let mut random = Random::of_test("body_slots");
    for ports in [1, 2, 16] {
        for slots in [0, 1, 2, 255, 256, 257, 359, 360, 361, 362, 512] {
            let file = Trace::any(&mut random, ports, &[slots]).file();
            if (1..=360).contains(&slots) {
                expect_trace(&file, ports, 1);
            } else {
                expect_bad_contents(&file);
            }
        }
    }
}

#[test]
fn of_every_mode_and_offset_of_a_body() {
    let mut random = Random::of_test("body_fields");
    for ports in 1..=16_u8 {
        let right = Layout::of_three_bodies(&mut random, ports.into());
        let offsets = [0, ports - 1, ports, ports + 1, 16, 255];
        let pairs = offsets.iter().flat_map(|&i| offsets.map(|j| (i, j)));
        for (i, j) in pairs {
            for mode in [0, 1, 15, 16, 17, 18, 19, 33, 128, 255] {
                let mut layout = right.clone();
                let k = random.below(3);
                layout.set_fields(k, [mode, i, j]);
                if mode <= 17 && i < ports && j < ports {
                    expect_trace(&layout.file(), ports.into(), 3);
                } else {
                    expect_bad_body(&layout.file());
                }
            }
        }
    }
}

#[test]
fn with_a_wrong_check_of_a_body_are_refused() {
    let mut random = Random::of_test("body_checks");
    for ports in 1..=16 {
        for k in 0..3 {
            let mut layout = Layout::of_three_bodies(&mut random, ports);
            let body = &mut layout.bodies[k];
            let last = body.len() - 1;
            body[random.pick(&[last - 1, last])] ^= 1 << random.below(8);
            expect_bad_body(&layout.file());
        }
    }
}

#[test]
fn of_other_ports_are_refused() {
    let mut random = Random::of_test("trace_ports");
    for ports in 1..=16 {
        for slots in [&[][..], &[1], &[2, 3]] {
            let mut layout = Trace::any(&mut random, ports, slots).layout();
            for named in [
                0,
                1,
                ports as u8 - 1,
                ports as u8,
                ports as u8 + 1,
                16,
                17,
                32,
                255,
            ] {
                layout.ports = named;
                let fits = usize::from(named) == ports || slots.is_empty();
                if fits && (1..=16).contains(&named) {
                    expect_trace(&layout.file(), named.into(), slots.len());
                } else {
                    expect_bad_contents(&layout.file());
                }
            }
        }
    }
    // laid out for the ports that are named
    for ports in [17, 32, 255] {
        for slots in [&[1][..], &[2, 1]] {
            let named = Trace::any(&mut random, ports, slots).layout();
            expect_bad_contents(&named.file());
        }
    }
}

// Any bytes

/// A trace with something changed, its checks mostly made right again.
fn changed(random: &mut Random) -> Vec<u8> {
    let mut layout = Trace::small(random).layout();
    for _ in 0..random.below(3) {
        change(random, &mut layout);
    }
    let mut file = layout.file();
    if random.chance(1, 8) {
        let at = random.below(file.len());
        file[at] = random.draw() as u8;
    }
    file
}

fn change(random: &mut Random, layout: &mut Layout) {
    let bodies = layout.bodies.len();
    match random.below(9) {
        0 => layout.ports = random.pick(&[0, 1, 2, 16, 17]),
        1 => layout.count = random.below(6) as u16,
        2 => layout.close_up(),
        _ if bodies == 0 => {}
        3 => layout.entries[random.below(bodies)].slots = random.below(8) as u16,
        4 => layout.entries[random.below(bodies)].offset = random.below(400) as u32,
        5 => layout.entries[random.below(bodies)].first = random.long(),
        6 => layout.bodies.swap(0, bodies - 1),
        7 => {
            let k = random.below(bodies);
            let len = random.between(3, layout.bodies[k].len());
            layout.bodies[k] = sealed(random.bytes(len));
        }
        _ => {
            let k = random.below(bodies);
            let fields = random.pick(&[[18, 0, 0], [17, 15, 15], [0, 1, 0], [3, 0, 1]]);
            layout.set_fields(k, fields);
        }
    }
}

/// Every reader, seen to be as promised; and the two ways through a file agree.
fn look(random: &mut Random, file: &[u8]) -> bool {
    let k = random.pick(&[0, 0, 1, 2, 3, 4, 255, 1024, u32::MAX]);
    let (number, shown) = trace(file, &HEAD);
    trace_body(file, k, &PLACE);
    entry(file, k, &PLACE);
    let places = |shown: &[u32]| -> Vec<Vec<u32>> {
        let bodies = 0..shown[1];
        bodies.map(|k| trace_body(file, k, &PLACE).1).collect()
    };
    match body_by_body(file) {
        Ok(bodies) => {
            let found: Vec<_> = bodies.into_iter().map(|body| body.place).collect();
            assert_eq!((number, places(&shown)), (0, found));
        }
        Err(refused) => assert_eq!(number, refused),
    }
    number == 0
}

#[test]
fn random_bytes_and_changed_traces() {
    let mut random = Random::of_test("random_traces");
    let (mut taken, mut refused) = (0, 0);
    for case in 0..cases(20_000) {
        let mut file = changed(&mut random);
        if case % 4 == 0 {
            let len = random.below(80);
            file = random.bytes(len);
            file.iter_mut().take(2).for_each(|byte| *byte %= 3);
        }
        if look(&mut random, &file) {
            taken += 1;
        } else {
            refused += 1;
        }
    }
    assert!(taken > 1_000 && refused > 1_000, "{taken} and {refused}");
}

// Lengths of what is lent

#[test]
fn words_of_another_length_come_first() {
    let mut random = Random::of_test("trace_words");
    let right = Trace::any(&mut random, 3, &[2, 1]).file();
    for file in [&right[..], &right[1..], &[]] {
        for len in 0..=9 {
            let kept: Vec<u32> = (0..len).map(|_| random.long()).collect();
            for shown in [trace(file, &kept), contents(file, file.len(), &kept)] {
                assert_eq!(shown.0 == 8, len != HEAD_WORDS);
            }
            for k in [0, 1, 2, u32::MAX] {
                assert_eq!(trace_body(file, k, &kept).0 == 8, len != BODY_WORDS);
                assert_eq!(entry(file, k, &kept).0 == 8, len != BODY_WORDS);
            }
        }
    }
}

#[test]
fn body_numbers_at_or_above_the_count() {
    let mut random = Random::of_test("body_numbers");
    for count in 0..5 {
        let trace = Trace::any(&mut random, 2, &vec![1; count]);
        let file = trace.file();
        for k in (0..8).chain([255, 256, 257, 65_536, 65_537, 1 << 31, u32::MAX]) {
            let expected = if (k as usize) < count { 0 } else { 14 };
            assert_eq!(trace_body(&file, k, &PLACE).0, expected);
            assert_eq!(entry(&file, k, &PLACE).0, expected);
        }
    }
}

#[test]
fn entries_as_they_stand() {
    let mut random = Random::of_test("entries_as_they_stand");
    for _ in 0..cases(5_000) {
        let len = random.below(60);
        let mut start = random.bytes(len);
        start.iter_mut().take(1).for_each(|ports| *ports %= 20);
        let most = random.pick(&[1, 2, 255]);
        start
            .iter_mut()
            .skip(1)
            .take(2)
            .for_each(|count| *count %= most);
        let k = random.below(7) as u32;
        entry(&start, k, &PLACE);
    }
}
