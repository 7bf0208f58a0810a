//! Rule 5 alone: the plain rule and the columns leave the same sets, on every table of sixteen
//! rows, also one with rows and bits at or above n, and on every state, also one that is declined.

use bellacush_tests::measured::{column_rule, plain_rule};
use bellacush_tests::random::{cases, Random};

const TABLE_LEN: usize = 32;

/// Each bit set with a chance of one in `rare`.
fn any_table(random: &mut Random, rare: usize) -> [u8; TABLE_LEN] {
    let mut table = [0; TABLE_LEN];
    for bit in 0..8 * TABLE_LEN {
        table[bit / 8] |= u8::from(random.below(rare) == 0) << (bit % 8);
    }
    table
}

fn both(place: [usize; 3], live: &[u8], before: &[u8]) -> [Vec<u8>; 2] {
    let (mut plain, mut columns) = (before.to_vec(), before.to_vec());
    plain_rule(place, live, &mut plain);
    column_rule(place, live, &mut columns);
    [plain, columns]
}

#[test]
fn plain_rule_and_columns_agree() {
    let mut random = Random::of_test("plain_rule_and_columns_agree");
    for ports in 1..=16 {
        for case in 0..cases(4000) {
            let place = [ports, random.below(ports), random.below(ports)];
            let live = any_table(&mut random, 1 + case % 8);
            let [plain, columns] = both(place, &live, &[0x5A; TABLE_LEN]);
            assert_eq!(plain, columns, "{place:?} {live:02X?}");
            assert_ne!(plain, [0x5A; TABLE_LEN], "nothing was put");
        }
    }
}

#[test]
fn they_agree_where_the_state_is_declined_or_bytes_are_few() {
    let mut random = Random::of_test("they_agree_where_the_state_is_declined_or_bytes_are_few");
    for _ in 0..cases(4000) {
        let place = [random.below(20), random.below(20), random.below(20)];
        let live = any_table(&mut random, 2);
        let (read, put) = (random.below(TABLE_LEN + 1), random.below(TABLE_LEN + 3));
        let [plain, columns] = both(place, &live[..read], &[0x5A; TABLE_LEN + 2][..put]);
        assert_eq!(plain, columns, "{place:?} {read} {put} {live:02X?}");
    }
}
