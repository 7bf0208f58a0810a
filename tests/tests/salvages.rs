//! The salvage of damaged traces against our own: random damage, each kind of fault, and every
//! length of what is lent.

use bellacush_tests::frames::sealed;
use bellacush_tests::random::{cases, Random};
use bellacush_tests::salvages::{
    agreed, library_salvaged, Salvaged, CHECK, FORM, KEPT, SALVAGE_WORDS, SHORT,
};
use bellacush_tests::trace_calls::{body_by_body, trace, Found, HEAD_WORDS};
use bellacush_tests::traces::{contents_len, Layout, Trace, MOST_BODIES};

const SHOWN: [u32; SALVAGE_WORDS] = [7; SALVAGE_WORDS];

fn flip(file: &mut [u8], bit: usize) {
    file[bit / 8] ^= 0x80 >> (bit % 8);
}

/// What is salvaged is a trace, comes back when it is salvaged again, and replays as it did.
fn salvage(file: &[u8]) -> Option<Salvaged> {
    let made = library_salvaged(file)?;
    assert_eq!(trace(&made.file, &[7; HEAD_WORDS]).0, 0);
    let again = library_salvaged(&made.file).expect("a trace has sound contents");
    assert_eq!(again.file, made.file, "salvaged twice");
    assert!(again.fates.iter().all(|&fate| fate == KEPT));
    Some(made)
}

fn expect_fates(file: &[u8], fates: &[u8]) -> Vec<u8> {
    let made = salvage(file).expect("its contents are sound");
    assert_eq!(made.fates, fates, "{file:02X?}");
    made.file
}

fn expect_refused(file: &[u8]) {
    assert_eq!(salvage(file), None, "{file:02X?}");
}

// Sound traces

#[test]
fn sound_traces_come_back() {
    let mut random = Random::of_test("salvage_sound");
    for trace in Trace::of_every_size(&mut random) {
        let file = trace.file();
        let kept = vec![KEPT; trace.bodies.len()];
        assert_eq!(expect_fates(&file, &kept), file);
        for behind in [1, 2, 16, 300] {
            let longer = [&file[..], &random.bytes(behind)].concat();
            assert_eq!(expect_fates(&longer, &kept), file);
        }
    }
}

#[test]
fn the_greatest_body_and_the_most_bodies() {
    let mut random = Random::of_test("salvage_greatest");
    for (ports, slots) in [(16, vec![360, 359, 1]), (1, vec![1; MOST_BODIES])] {
        let trace = Trace::any(&mut random, ports, &slots);
        let mut file = trace.file();
        let mut fates = vec![KEPT; slots.len()];
        assert_eq!(expect_fates(&file, &fates), file);
        let last = file.len() - 1;
        file[last] ^= 1;
        fates[slots.len() - 1] = CHECK;
        expect_fates(&file, &fates);
        fates[slots.len() - 1] = SHORT;
        expect_fates(&file[..last], &fates);
        fates[0] = CHECK;
        file[contents_len(slots.len()) + 5] ^= 1;
        expect_fates(&file[..last], &fates);
    }
}

// Damage

#[test]
fn with_any_bit_damaged() {
    let mut random = Random::of_test("salvage_bits");
    for trace in Trace::of_every_size(&mut random) {
        let file = trace.file();
        let bodies = trace.layout().contents().len();
        for bit in 0..8 * file.len() {
            let mut damaged = file.clone();
            flip(&mut damaged, bit);
            if bit / 8 < bodies {
                expect_refused(&damaged);
            } else {
                let made = salvage(&damaged).expect("its contents are sound");
                let dropped: Vec<u8> = made.fates.into_iter().filter(|&f| f != KEPT).collect();
                assert_eq!(dropped, [CHECK]);
            }
        }
    }
}

#[test]
fn cut_anywhere() {
    let mut random = Random::of_test("salvage_cuts");
    for trace in Trace::of_every_size(&mut random) {
        let layout = trace.layout();
        let file = layout.file();
        for len in 0..file.len() {
            if len < layout.contents().len() {
                expect_refused(&file[..len]);
            } else {
                let ends = layout.entries.iter().zip(&layout.bodies);
                let whole = |end: usize| if end <= len { KEPT } else { SHORT };
                let fates = ends.map(|(entry, body)| whole(entry.offset as usize + body.len()));
                expect_fates(&file[..len], &fates.collect::<Vec<u8>>());
            }
        }
    }
}

#[test]
fn faults_are_told_in_order() {
    let mut random = Random::of_test("salvage_faults");
    for ports in 1..=16_u8 {
        for fields in [[18, 0, 0], [255, 0, 0], [0, ports, 0], [0, 0, ports]] {
            let mut layout = Layout::of_three_bodies(&mut random, ports.into());
            layout.set_fields(1, fields);
            expect_fates(&layout.file(), &[KEPT, FORM, KEPT]);
            layout.set_fields(2, fields);
            expect_fates(&layout.file(), &[KEPT, FORM, FORM]);
            // out of form, with a wrong check
            layout.bodies[1][4] ^= 1;
            expect_fates(&layout.file(), &[KEPT, CHECK, FORM]);
            // out of form, and cut
            layout.bodies[2].pop();
            expect_fates(&layout.file(), &[KEPT, CHECK, SHORT]);
            // nothing is kept, and the new trace has no bodies
            layout.bodies[0][3] ^= 1;
            let made = expect_fates(&layout.file(), &[CHECK, CHECK, SHORT]);
            assert_eq!(made, sealed(vec![ports, 0, 0]));
        }
    }
}

#[test]
fn contents_of_another_form_are_refused() {
    let mut random = Random::of_test("salvage_contents");
    for ports in [1, 2, 16] {
        let right = Layout::of_three_bodies(&mut random, ports);
        let mut wrongs = vec![right.clone(); 7];
        wrongs[0].ports = 0;
        wrongs[1].ports = 17;
        wrongs[2].count = 2;
        wrongs[3].entries[1].slots = 361;
        wrongs[4].entries[1].slots = 0;
        wrongs[5].entries[2].offset += 1;
        wrongs[6].entries.swap(0, 1);
        for wrong in wrongs {
            expect_refused(&wrong.file());
        }
    }
}

/// Spoils a file in one way: bits, its end, or bytes behind it; the contents more seldom.
fn damage(random: &mut Random, file: &mut Vec<u8>, contents: usize) {
    match random.below(8) {
        0 => file.truncate(random.below(file.len() + 1)),
        1 => {
            let more = random.below(70);
            file.extend(random.bytes(more));
        }
        2 if !file.is_empty() => {
            let bit = random.below(8 * file.len());
            flip(file, bit);
        }
        _ if contents < file.len() => {
            let bit = random.between(8 * contents, 8 * file.len() - 1);
            flip(file, bit);
        }
        _ => {}
    }
}

#[test]
fn random_damage() {
    let mut random = Random::of_test("salvage_random");
    let (mut declined, mut dropped) = (0, [0; 4]);
    for _ in 0..cases(4_000) {
        let layout = random_layout(&mut random);
        let mut file = layout.file();
        for _ in 0..random.between(1, 4) {
            damage(&mut random, &mut file, layout.contents().len());
        }
        let Some(made) = salvage(&file) else {
            declined += 1;
            continue;
        };
        for fate in made.fates {
            dropped[usize::from(fate)] += 1;
        }
    }
    let all = dropped.iter().chain([&declined]);
    assert!(all.into_iter().all(|&n| n > 0), "{declined} {dropped:?}");
}

/// Some bodies, now and then one that is out of form with a right check.
fn random_layout(random: &mut Random) -> Layout {
    let trace = Trace::small(random);
    let mut layout = trace.layout();
    for k in 0..layout.bodies.len() {
        if random.chance(1, 6) {
            layout.set_fields(k, [random.pick(&[0, 18]), trace.ports as u8, 0]);
        }
    }
    layout
}

#[test]
fn what_is_kept_replays_as_it_did() {
    let mut random = Random::of_test("salvage_replays");
    for _ in 0..cases(200) {
        let trace = Trace::small(&mut random);
        let file = trace.file();
        let before = body_by_body(&file).expect("it is a trace");
        let mut damaged = file.clone();
        for _ in 0..2 {
            damage(&mut random, &mut damaged, trace.layout().contents().len());
        }
        let Some(made) = salvage(&damaged) else {
            continue;
        };
        let after = body_by_body(&made.file).expect("it is a trace");
        let kept = before.iter().zip(&made.fates).filter(|(_, &f)| f == KEPT);
        // all but where it stands: first slot, slots and length, and the tables
        let told = |found: &Found| {
            let [first, slots, _, len] = found.place[..] else {
                unreachable!("four words")
            };
            (first, slots, len, found.tables.clone())
        };
        let kept: Vec<_> = kept.map(|(found, _)| told(found)).collect();
        assert_eq!(after.iter().map(told).collect::<Vec<_>>(), kept);
    }
}

// What is lent

#[test]
fn every_length_of_what_is_lent() {
    let mut random = Random::of_test("salvage_room");
    for ports in [1, 3, 16] {
        let mut layout = Layout::of_three_bodies(&mut random, ports);
        layout.bodies[1][7] ^= 4;
        let file = layout.file();
        let len = file.len() - layout.bodies[1].len() - 10;
        for room in [0, 1, len - 1, len, len + 1, file.len()] {
            for fates in [0, 2, 3, 4, 1024] {
                for words in [0, 1, 2, 3] {
                    let out = random.bytes(room);
                    let number = agreed(&file, &out, &vec![9; fates], &vec![7; words]).number;
                    let fits = if len <= room && 3 <= fates { 0 } else { 7 };
                    assert_eq!(number, if words == 2 { fits } else { 8 });
                }
            }
        }
        // the contents are tested before the room, and the words before both
        let mut wrong = file.clone();
        wrong[0] ^= 1;
        assert_eq!(agreed(&wrong, &[], &[], &SHOWN).number, 14);
        assert_eq!(agreed(&wrong, &[], &[], &[]).number, 8);
    }
}

#[test]
fn any_bytes() {
    let mut random = Random::of_test("salvage_any");
    for _ in 0..cases(5_000) {
        let len = random.below(80);
        let mut file = random.bytes(len);
        file.iter_mut().take(1).for_each(|ports| *ports %= 20);
        let few = random.pick(&[1, 2, 3, 256]);
        let counted = file.iter_mut().skip(1).take(2);
        counted.for_each(|byte| *byte = (usize::from(*byte) % few) as u8);
        if random.chance(1, 2) {
            file = sealed(file);
        }
        salvage(&file);
    }
}
