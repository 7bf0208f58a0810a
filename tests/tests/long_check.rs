//! The check over long slices, and the one over frames, against one that goes bit by bit.

use bellacush_tests::measured;
use bellacush_tests::random::Random;

fn bit_by_bit(bytes: &[u8]) -> u16 {
    let mut check: u16 = 0xFFFF;
    for byte in bytes {
        for bit in (0..8).rev() {
            let out = (check >> 15 == 1) != (byte >> bit & 1 == 1);
            check = (check << 1) ^ if out { 0x1021 } else { 0 };
        }
    }
    check
}

fn agree(bytes: &[u8]) {
    let check = bit_by_bit(bytes);
    assert_eq!(measured::long_check(bytes), check, "{} bytes", bytes.len());
    assert_eq!(measured::check(bytes), check, "{} bytes", bytes.len());
}

fn random_bytes(random: &mut Random, length: usize) -> Vec<u8> {
    (0..length).map(|_| random.draw() as u8).collect()
}

#[test]
fn the_nine_digits_give_29b1() {
    assert_eq!(bit_by_bit(b"123456789"), 0x29B1);
    agree(b"123456789");
}

#[test]
fn every_length_up_to_300_agrees() {
    let mut random = Random::of_test("every_length_up_to_300_agrees");
    for length in 0..=300 {
        agree(&random_bytes(&mut random, length));
        agree(&vec![0; length]);
        agree(&vec![0xFF; length]);
    }
}

#[test]
fn long_slices_agree_wherever_they_start() {
    let mut random = Random::of_test("long_slices_agree_wherever_they_start");
    let bytes = random_bytes(&mut random, 70_000);
    for length in [1_000, 4_095, 4_096, 16_385, 63_365] {
        for start in 0..16 {
            agree(&bytes[start..start + length]);
        }
    }
    agree(&bytes);
}

/// Each single byte of a slice of seven blocks and a rest, long enough for the tables, is heard in each of its bits.
#[test]
fn every_bit_of_a_slice_counts() {
    let mut random = Random::of_test("every_bit_of_a_slice_counts");
    let mut bytes = random_bytes(&mut random, 119);
    let check = measured::long_check(&bytes);
    for place in 0..bytes.len() {
        for bit in 0..8 {
            bytes[place] ^= 1 << bit;
            agree(&bytes);
            assert_ne!(measured::long_check(&bytes), check, "byte {place}");
            bytes[place] ^= 1 << bit;
        }
    }
}
