//! Document 01's edges and its table of numbers, one by one. A declined call is seen to keep
//! all that it is lent.

use bellacush_tests::frames::{sealed, Config};
use bellacush_tests::slots::{After, Slot, State, CENTRAL, STATE_LEN};

const HALF: u32 = 1 << 31;

fn full(ports: usize) -> Vec<Config> {
    vec![Config::asking(0xFFFF); ports]
}

fn call(state: State) -> Slot {
    let mut call = Slot::of_hosts(state, CENTRAL, &full(usize::from(state.ports)));
    call.link = 0x5A5A;
    call
}

/// A call whose state has these ports and offsets whatever they are, and sixteen frames.
fn call_with(ports: u8, initiator: u8, target: u8) -> Slot {
    let mut call = call(State::fresh(16, 9));
    call.state[..3].copy_from_slice(&[ports, initiator, target]);
    call
}

fn expect_kept(call: &Slot, number: u32) {
    assert_eq!(call.agreed(), call.kept(number));
}

fn expect_served(call: &Slot) -> After {
    let after = call.agreed();
    assert_eq!(after.number(), 0);
    after
}

fn after_state(state: State) -> State {
    State::read(&expect_served(&call(state)).state)
}

// Slot numbers

#[test]
fn due_5_serves_5_then_refuses_5_as_stale_and_7_as_early() {
    let mut shelf = call(State::fresh(3, 5));
    shelf.state = expect_served(&shelf).state;
    assert_eq!(State::read(&shelf.state), State::at(3, 1, 0, 6));
    expect_kept(&shelf, 3);
    shelf.slot = 7;
    expect_kept(&shelf, 4);
    shelf.slot = 6;
    expect_served(&shelf);
}

#[test]
fn due_0_takes_the_half_before_it_for_stale() {
    let mut shelf = call(State::fresh(3, 0));
    for (slot, number) in [
        (u32::MAX, 3),
        (HALF, 3),
        (HALF - 1, 4),
        (HALF + 1, 3),
        (1, 4),
    ] {
        shelf.slot = slot;
        expect_kept(&shelf, number);
    }
}

#[test]
fn slots_a_half_away_from_any_due_slot() {
    for due in [0, 1, 255, 256, 65535, HALF - 1, HALF, HALF + 1, u32::MAX] {
        let mut shelf = call(State::fresh(2, due));
        expect_served(&shelf);
        for (ahead, number) in [
            (1, 4),
            (HALF - 1, 4),
            (HALF, 3),
            (HALF + 1, 3),
            (u32::MAX, 3),
        ] {
            shelf.slot = due.wrapping_add(ahead);
            expect_kept(&shelf, number);
        }
    }
}

#[test]
fn due_slot_grows_by_1_through_every_byte_and_wraps_to_0() {
    for due in [0, 254, 255, 65535, 0xFF_FFFF, HALF - 1, u32::MAX - 1] {
        assert_eq!(after_state(State::fresh(2, due)).due, due + 1);
    }
    assert_eq!(after_state(State::fresh(2, u32::MAX)).due, 0);
}

// Offsets

#[test]
fn offsets_2_0_of_3_go_to_0_1() {
    assert_eq!(after_state(State::at(3, 2, 0, 9)), State::at(3, 0, 1, 10));
}

#[test]
fn offsets_2_2_of_3_go_to_0_0() {
    assert_eq!(after_state(State::at(3, 2, 2, 9)), State::at(3, 0, 0, 10));
}

#[test]
fn offsets_visit_every_pair_once_in_n_squared_slots() {
    for n in 1..=16 {
        let mut state = State::fresh(n, 0);
        for turn in 0..n * n {
            let (initiator, target) = (turn % n, turn / n);
            assert_eq!(state, State::at(n, initiator, target, turn as u32));
            state = after_state(state);
        }
        assert_eq!(state, State::fresh(n, (n * n) as u32));
    }
}

// The numbers

#[test]
fn number_1_for_ports_outside_1_to_16() {
    for ports in (0..=0).chain(17..=255) {
        expect_kept(&call_with(ports, 0, 0), 1);
        let mut call = call_with(ports, 0, 0);
        call.block = vec![0; 11 * usize::from(ports)];
        call.out = vec![0; 7 * usize::from(ports)];
        expect_kept(&call, 1);
    }
    for ports in 1..=16 {
        expect_served(&call(State::fresh(ports, 9)));
    }
}

#[test]
fn number_2_for_offsets_at_or_above_n() {
    for n in 1..=16 {
        for place in [n, n + 1, 16, 17, 128, 255] {
            for (initiator, target) in [(place, 0), (0, place), (place, place)] {
                let state = State::at(n, initiator, target, 9);
                if place >= n {
                    expect_kept(&call(state), 2);
                }
            }
        }
        expect_served(&call(State::at(n, n - 1, n - 1, 9)));
    }
}

#[test]
fn number_5_for_modes_above_17() {
    let mut call = call(State::fresh(3, 9));
    for bit in 0..32 {
        call.mode = 1 << bit;
        for mode in [call.mode, call.mode + 16, call.mode | HALF] {
            call.mode = mode;
            if mode > 17 {
                expect_kept(&call, 5);
            }
        }
    }
    for mode in [18, 19, 255, 256, 257, 272, 65536, 65537, HALF, u32::MAX] {
        call.mode = mode;
        expect_kept(&call, 5);
    }
    for mode in 0..=17 {
        call.mode = mode;
        expect_served(&call);
    }
}

#[test]
fn number_6_for_any_other_block_length() {
    for n in 1..=16 {
        for len in (0..=11 * n + 24).filter(|&len| len != 11 * n) {
            let mut call = call(State::fresh(n, 9));
            call.block.resize(len, 0);
            expect_kept(&call, 6);
        }
    }
}

#[test]
fn number_7_for_output_below_5_n() {
    for n in 1..=16 {
        let mut call = call(State::fresh(n, 9));
        for len in 0..=7 * n + 12 {
            call.out = vec![0xB7; len];
            if len < 7 * n {
                expect_kept(&call, 7);
            } else {
                expect_served(&call);
            }
        }
    }
}

#[test]
fn number_8_for_a_state_of_other_than_9_bytes() {
    let call = call(State::fresh(3, 9));
    for len in (0..=24).filter(|&len| len != STATE_LEN) {
        let mut other = call.clone();
        other.state.resize(len, 0);
        expect_kept(&other, 8);
    }
}

#[test]
fn number_8_for_a_table_of_other_than_32_bytes() {
    let call = call(State::fresh(3, 9));
    for len in (0..=70).filter(|&len| len != 32) {
        let mut other = call.clone();
        other.table.resize(len, 0);
        expect_kept(&other, 8);
    }
}

/// A number, and what makes a call be declined with it.
type Reason = (u32, fn(&mut Slot));

/// In the order of the tests.
const REASONS: [Reason; 9] = [
    (8, |call| call.state.push(0)),
    (8, |call| call.table.truncate(31)),
    (1, |call| call.state[0] = 0),
    (2, |call| call.state[1] = 200),
    (3, |call| call.slot = 8),
    (4, |call| call.slot = 10),
    (5, |call| call.mode = 18),
    (6, |call| call.block.truncate(32)),
    (7, |call| call.out.truncate(14)),
];

#[test]
fn each_number_goes_before_all_later_ones() {
    // every set of reasons: the first of them decides
    for chosen in 1_u32..1 << REASONS.len() {
        let mut call = call(State::fresh(3, 9));
        let reasons = (0..REASONS.len()).filter(|reason| chosen & (1 << reason) != 0);
        let mut numbers = Vec::new();
        for reason in reasons {
            REASONS[reason].1(&mut call);
            numbers.push(REASONS[reason].0);
        }
        if chosen & 0b11_0000 == 0b11_0000 {
            continue; // no slot is both stale and early
        }
        expect_kept(&call, numbers[0]);
    }
}

#[test]
fn number_4_goes_before_all_later_ones_for_huge_limits() {
    let mut call = call(State::fresh(3, 9));
    call.slot = 10;
    call.mode = u32::MAX;
    expect_kept(&call, 4);
}

#[test]
fn empty_buffers_are_declined() {
    let call = Slot {
        state: vec![],
        slot: 0,
        mode: 0,
        block: vec![],
        link: 0,
        out: vec![],
        table: vec![],
    };
    expect_kept(&call, 8);
}

// What a served slot writes

#[test]
fn grants_carry_their_link_bit_and_no_other() {
    for n in 1..=16 {
        for bit in 0..16 {
            for link in [1_u16 << bit, !(1 << bit)] {
                let mut call = call(State::fresh(n, 9));
                call.link = link;
                let after = expect_served(&call);
                for host in 0..n {
                    let set = after.out[7 * host + 2] & 2 != 0;
                    assert_eq!(set, link & (1 << host) != 0);
                }
            }
        }
    }
}

#[test]
fn host_that_planned_three_targets_and_kept_two_is_told_both() {
    // targets 1 and 10 are its own; target 3's rotation starts at host 3, which claims it too
    let mut hosts = full(12);
    hosts[1].pre = 1 << 10 | 0b1010;
    hosts[3].pre = 0b1000;
    let after = expect_served(&Slot::of_hosts(State::fresh(12, 9), CENTRAL, &hosts));
    assert_eq!((after.sets()[1], after.sets()[3]), (1 << 10 | 0b10, 0b1000));
    assert_eq!(after.out[7..12], [3, 1, 1, 0b100, 0b10]);
    assert_eq!(after.out[21..26], [3, 3, 1, 0, 0b1000]);
}

#[test]
fn host_that_holds_nothing_is_told_an_empty_set() {
    let mut hosts = full(2);
    hosts[1].req = 0;
    let after = expect_served(&Slot::of_hosts(State::fresh(2, 9), CENTRAL, &hosts));
    assert_eq!(after.out[7..12], [3, 1, 0, 0, 0]);
}

#[test]
fn unheard_host_is_told_so_and_declines_nothing() {
    for n in 1..=16 {
        for quiet in 0..n {
            let mut call = call(State::fresh(n, 9));
            call.block[11 * quiet..11 * quiet + 11].fill(0);
            let after = expect_served(&call);
            assert_eq!(after.sets()[quiet], 0);
            for host in 0..n {
                assert_eq!(after.out[7 * host + 2] & 4 != 0, host == quiet);
            }
        }
    }
}

#[test]
fn frame_of_another_type_leaves_its_host_unheard_though_its_check_is_right() {
    for kind in (0..=255).filter(|&kind| kind != 1) {
        let mut call = call(State::fresh(2, 9));
        call.block[0] = kind;
        let foreign = sealed(call.block[..9].to_vec());
        call.block[..11].copy_from_slice(&foreign);
        assert_eq!(expect_served(&call).line(), "0:- 1:0");
    }
}

#[test]
fn disabled_host_is_not_told_that_it_is_unheard() {
    let mut hosts = full(2);
    hosts.iter_mut().for_each(|host| host.ben = 0b10);
    let after = expect_served(&Slot::of_hosts(State::fresh(2, 9), CENTRAL, &hosts));
    assert_eq!((after.line().as_str(), after.out[2]), ("0:- 1:0", 0));
}

#[test]
fn sets_at_or_above_n_are_written_empty_and_bytes_beyond_the_grants_kept() {
    for n in 1..=16 {
        let mut call = call(State::fresh(n, 9));
        call.out = vec![0xB7; 112 + 9];
        let after = expect_served(&call);
        assert!(after.table[2 * n..].iter().all(|&byte| byte == 0));
        assert!(after.out[7 * n..].iter().all(|&byte| byte == 0xB7));
    }
}
