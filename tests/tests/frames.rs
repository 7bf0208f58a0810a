//! The frame calls: readers and writers against frames of our own.

use bellacush_tests::calls;
use bellacush_tests::frames::{sealed, Config, Grant, Held};
use bellacush_tests::lent::Lent;
use bellacush_tests::promises;
use bellacush_tests::random::{cases, Random};

/// A number, and the lent bytes as the call leaves them.
type Answer = (u32, Vec<u8>);

/// A reader's answer, seen to be the promised one.
fn read(
    by_library: fn(&[u8], &mut [u8]) -> u32,
    promise: fn(&[u8], &[u8]) -> Answer,
    frame: &[u8],
    part: &[u8],
) -> Answer {
    let (lent_frame, mut lent_part) = (Lent::new(frame), Lent::new(part));
    let number = by_library(&lent_frame, lent_part.lend());
    assert_eq!(lent_frame.back(), frame, "the frame was changed");
    let answer = (number, lent_part.back());
    assert_eq!(answer, promise(frame, part), "frame {frame:02X?}");
    answer
}

fn read_config(frame: &[u8], part: &[u8]) -> Answer {
    read(calls::read_config, promises::read_config, frame, part)
}

fn read_grant(frame: &[u8], part: &[u8]) -> Answer {
    read(calls::read_grant, promises::read_grant, frame, part)
}

fn read_grant3(frame: &[u8], part: &[u8]) -> Answer {
    read(calls::read_grant3, promises::read_grant3, frame, part)
}

fn write_config(config: Config, out: &[u8]) -> Answer {
    let mut lent = Lent::new(out);
    let Config { req, pre, ben, qen } = config;
    let number = calls::write_config(req, pre, ben, qen, lent.lend());
    let answer = (number, lent.back());
    assert_eq!(answer, promises::write_config(config, out), "{config:?}");
    answer
}

/// The flags go out as `flag` where they are set.
fn write_grant3(held: Held, flag: u32, out: &[u8]) -> Answer {
    let mut lent = Lent::new(out);
    let number = calls::write_grant3(
        held.node_id,
        if held.gnt_val { flag } else { 0 },
        if held.link_err { flag } else { 0 },
        if held.crc_err { flag } else { 0 },
        held.set,
        lent.lend(),
    );
    let answer = (number, lent.back());
    assert_eq!(answer, promises::write_grant3(held, out), "{held:?}");
    answer
}

fn any_config(random: &mut Random) -> Config {
    Config {
        req: random.word(),
        pre: random.word(),
        ben: random.word(),
        qen: random.word(),
    }
}

/// Every grant of type 2 that can be framed.
fn grants() -> impl Iterator<Item = Grant> {
    let all = (0..16 * 16 * 8).map(|code| Grant {
        node_id: code / 8 % 16,
        gnt: code / 8 / 16,
        gnt_val: code & 1 != 0,
        link_err: code & 2 != 0,
        crc_err: code & 4 != 0,
    });
    all.filter(|grant| grant.fits())
}

/// Grants of type 3 with every node number and one out of range, all flags, and telling sets.
fn helds() -> impl Iterator<Item = Held> {
    let sets = [0, 1, 0x8000, 0x0180, 0x1234, 0xFFFF];
    (0..17 * 8 * sets.len() as u32).map(move |code| Held {
        node_id: code / 8 % 17,
        gnt_val: code & 1 != 0,
        link_err: code & 2 != 0,
        crc_err: code & 4 != 0,
        set: sets[code as usize / 8 / 17],
    })
}

// Configuration frames

#[test]
fn config_bytes_stand_as_document_01_says() {
    let config = Config {
        req: 0x0102,
        pre: 0x0304,
        ben: 0x0506,
        qen: 0x0708,
    };
    let (number, frame) = write_config(config, &[0; 11]);
    assert_eq!(number, 0);
    assert_eq!(frame[..9], [1, 1, 2, 3, 4, 5, 6, 7, 8]);
    assert_eq!(read_config(&frame, &[0; 8]), (0, frame[1..9].to_vec()));
}

#[test]
fn config_round_trip() {
    let mut random = Random::of_test("config_round_trip");
    for _ in 0..cases(20_000) {
        let config = any_config(&mut random);
        let (number, frame) = write_config(config, &random.bytes(11));
        assert_eq!(number, 0);
        let (number, part) = read_config(&frame, &random.bytes(8));
        assert_eq!((number, part), (0, config.part()));
    }
}

#[test]
fn config_with_any_bit_or_two_damaged_is_refused() {
    let mut random = Random::of_test("config_damaged");
    for _ in 0..cases(40) {
        let frame = any_config(&mut random).frame();
        for first in 0..88 {
            for second in first..88 {
                let mut damaged = frame.clone();
                damaged[first / 8] ^= 0x80 >> (first % 8);
                if second != first {
                    damaged[second / 8] ^= 0x80 >> (second % 8);
                }
                assert_ne!(read_config(&damaged, &[0xB7; 8]).0, 0);
            }
        }
    }
}

#[test]
fn config_of_every_length_and_part() {
    let mut random = Random::of_test("config_lengths");
    for frame_len in 0..=16 {
        for part_len in 0..=16 {
            let mut frame = any_config(&mut random).frame();
            frame.resize(frame_len, 0);
            let (number, _) = read_config(&frame, &random.bytes(part_len));
            assert_eq!(number == 0, frame_len == 11 && part_len == 8);
        }
    }
}

#[test]
fn config_of_every_type() {
    let mut random = Random::of_test("config_types");
    for kind in 0..=255 {
        let mut bytes = vec![kind];
        bytes.extend(random.bytes(8));
        let right = sealed(bytes);
        let (number, _) = read_config(&right, &[0xB7; 8]);
        assert_eq!(number, if kind == 1 { 0 } else { 9 });
        let mut wrong = right;
        wrong[10] ^= 0x10;
        let (number, _) = read_config(&wrong, &[0xB7; 8]);
        assert_eq!(number, if kind == 1 { 10 } else { 9 });
    }
}

#[test]
fn config_writer_at_every_length() {
    let mut random = Random::of_test("config_writer");
    for len in 0..=40 {
        let (number, _) = write_config(any_config(&mut random), &random.bytes(len));
        assert_eq!(number, if len < 11 { 7 } else { 0 });
    }
}

#[test]
fn random_bytes_as_config_frames() {
    let mut random = Random::of_test("random_config_bytes");
    for _ in 0..cases(50_000) {
        let len = random.pick(&[10, 11, 11, 11, 11, 12]);
        let mut frame = random.bytes(len);
        frame[0] = random.pick(&[1, 1, 1, 0, 2]);
        let part_len = random.pick(&[8, 8, 8, 7, 9]);
        read_config(&frame, &random.bytes(part_len));
    }
}

// Grant frames of type 3

#[test]
fn grant3_bytes_stand_as_document_02_says() {
    let held = Held {
        node_id: 12,
        gnt_val: true,
        link_err: false,
        crc_err: true,
        set: 0x0920,
    };
    let (number, frame) = write_grant3(held, 1, &[0; 7]);
    assert_eq!(number, 0);
    assert_eq!(frame[..5], [3, 12, 0b101, 9, 0x20]);
    assert_eq!(read_grant3(&frame, &[0; 4]), (0, frame[1..5].to_vec()));
}

#[test]
fn every_set_is_written_and_read_back() {
    for set in 0..=0xFFFF {
        let held = Held {
            node_id: u32::from(set % 16),
            gnt_val: set != 0,
            link_err: set & 0x100 != 0,
            crc_err: set & 0x200 != 0,
            set,
        };
        let (number, frame) = write_grant3(held, 1, &[0xB7; 7]);
        assert_eq!(number, 0);
        assert_eq!(Held::read(&frame), Ok(held));
        assert_eq!(read_grant3(&frame, &[0xB7; 4]), (0, frame[1..5].to_vec()));
    }
}

#[test]
fn every_node_number_and_flag_byte_is_taken_or_refused_by_its_form() {
    for body in 0..=0xFFFF_u16 {
        let [node, flags] = body.to_be_bytes();
        for [high, low] in [[0, 0], [0, 1], [0x80, 0]] {
            let frame = sealed(vec![3, node, flags, high, low]);
            let (number, part) = read_grant3(&frame, &[0xB7; 4]);
            let agrees = (flags & 1 == 1) == (high + low != 0);
            if node < 16 && flags < 8 && agrees {
                assert_eq!((number, part), (0, vec![node, flags, high, low]));
            } else {
                assert_eq!((number, part), (11, vec![0xB7; 4]));
            }
        }
    }
}

#[test]
fn grant3_with_any_bit_damaged_is_refused() {
    for held in helds().filter(|held| held.fits()) {
        let frame = held.frame();
        for bit in 0..56 {
            let mut damaged = frame.clone();
            damaged[bit / 8] ^= 0x80 >> (bit % 8);
            let (number, _) = read_grant3(&damaged, &[0xB7; 4]);
            assert_eq!(number, if bit < 8 { 9 } else { 10 });
        }
    }
}

#[test]
fn grant3_of_every_length_and_part() {
    let held = helds().find(|held| held.fits() && held.set == 0x1234);
    for frame_len in 0..=16 {
        for part_len in 0..=16 {
            let mut frame = held.expect("one fits").frame();
            frame.resize(frame_len, 0);
            let (number, _) = read_grant3(&frame, &vec![0xB7; part_len]);
            let right = frame_len == 7 && part_len == 4;
            assert_eq!(number, if right { 0 } else { 8 });
        }
    }
}

#[test]
fn grant3_of_every_type() {
    for kind in 0..=255 {
        let (number, _) = read_grant3(&sealed(vec![kind, 2, 1, 0, 2]), &[0xB7; 4]);
        assert_eq!(number, if kind == 3 { 0 } else { 9 });
        // out of form as well, and with a wrong check
        let (number, _) = read_grant3(&[kind, 16, 0xF8, 0, 2, 0, 0], &[0xB7; 4]);
        assert_eq!(number, if kind == 3 { 10 } else { 9 });
    }
}

#[test]
fn grant3_writer_at_every_length_and_field() {
    for held in helds() {
        for len in 0..=11 {
            let (number, _) = write_grant3(held, 1, &[0xB7; 11][..len]);
            let expected = match (held.fits(), len < 7) {
                (false, _) => 11,
                (true, true) => 7,
                (true, false) => 0,
            };
            assert_eq!(number, expected);
        }
    }
}

#[test]
fn grant3_writer_takes_any_flag_but_0_for_set() {
    for flag in (0..32).map(|bit| 1_u32 << bit).chain([u32::MAX, 0xFF00]) {
        for held in helds().filter(|held| held.fits()) {
            assert_eq!(write_grant3(held, flag, &[0xB7; 8]).0, 0);
        }
    }
}

#[test]
fn grant3_writer_refuses_node_numbers_above_15_over_all_of_32_bits() {
    for bit in 4..32 {
        for low in [0, 1, 15] {
            for set in [0, 5] {
                let held = Held {
                    node_id: 1_u32 << bit | low,
                    gnt_val: set != 0,
                    link_err: false,
                    crc_err: false,
                    set,
                };
                assert_eq!(write_grant3(held, 1, &[0xB7; 7]).0, 11);
                assert_eq!(write_grant3(held, 1, &[0xB7; 6]).0, 11);
            }
        }
    }
}

// Grant frames of type 2, which are only read

#[test]
fn every_grant_body_is_taken_or_refused_by_its_form() {
    for body in 0..=0xFFFF_u16 {
        let [names, flags] = body.to_be_bytes();
        let (number, part) = read_grant(&sealed(vec![2, names, flags]), &[0xB7; 2]);
        let in_form = flags < 8 && (flags & 1 == 1 || names & 15 == 0);
        if in_form {
            assert_eq!((number, part), (0, vec![names, flags]));
        } else {
            assert_eq!((number, part), (11, vec![0xB7; 2]));
        }
    }
}

#[test]
fn every_grant_body_with_a_wrong_check_is_refused_by_it() {
    for body in 0..=0xFFFF_u16 {
        let [names, flags] = body.to_be_bytes();
        let mut frame = sealed(vec![2, names, flags]);
        frame[3 + usize::from(names & 1)] ^= 1 << (flags % 8);
        assert_eq!(read_grant(&frame, &[0xB7; 2]).0, 10);
    }
}

#[test]
fn every_grant_is_read() {
    for grant in grants() {
        let frame = grant.frame();
        assert_eq!(Grant::read(&frame), Ok(grant));
        assert_eq!(read_grant(&frame, &[0xB7; 2]), (0, frame[1..3].to_vec()));
    }
}

#[test]
fn grant_with_any_bit_damaged_is_refused() {
    for grant in grants() {
        let frame = grant.frame();
        for bit in 0..40 {
            let mut damaged = frame.clone();
            damaged[bit / 8] ^= 0x80 >> (bit % 8);
            let (number, _) = read_grant(&damaged, &[0xB7; 2]);
            assert_eq!(number, if bit < 8 { 9 } else { 10 });
        }
    }
}

#[test]
fn grant_of_every_length_and_part() {
    let grant = grants().find(|grant| grant.gnt == 3);
    for frame_len in 0..=16 {
        for part_len in 0..=16 {
            let mut frame = grant.expect("one fits").frame();
            frame.resize(frame_len, 0);
            let (number, _) = read_grant(&frame, &vec![0xB7; part_len]);
            let right = frame_len == 5 && part_len == 2;
            assert_eq!(number, if right { 0 } else { 8 });
        }
    }
}

#[test]
fn grant_of_every_type() {
    for kind in 0..=255 {
        let (number, _) = read_grant(&sealed(vec![kind, 0x21, 1]), &[0xB7; 2]);
        assert_eq!(number, if kind == 2 { 0 } else { 9 });
        // out of form as well, and with a wrong check
        let (number, _) = read_grant(&[kind, 0x21, 0xF8, 0, 0], &[0xB7; 2]);
        assert_eq!(number, if kind == 2 { 10 } else { 9 });
    }
}
