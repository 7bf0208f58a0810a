//! The slot call of an earlier archive beside the one that is built now, in one run.

use bellacush_tests::calls::{self, SlotCall};
use bellacush_tests::slots::{State, CENTRAL, STATE_LEN, TABLE_LEN};

use crate::timing::compare;
use crate::traces::{agree_but_for_grants, Player, SlotFn, Trace, FULL, HALF, LIGHT};
use crate::{micro, most_stack, EVERY_MODE};

extern "C" {
    fn before_slot(
        state: *mut u8,
        state_len: usize,
        slot: u32,
        mode: u32,
        block: *const u8,
        block_len: usize,
        link: u16,
        out: *mut u8,
        out_len: usize,
        table: *mut u8,
        table_len: usize,
    ) -> u32;
}

const BEFORE: SlotCall = before_slot;

/// Archives of earlier editions know no owners and take a state of seven bytes.
const WITHOUT_OWNERS: usize = 7;

fn slot_before(
    state: &mut [u8],
    slot: u32,
    mode: u32,
    block: &[u8],
    link: u16,
    out: &mut [u8],
    table: &mut [u8],
) -> u32 {
    calls::slot_by(BEFORE, state, slot, mode, block, link, out, table)
}

fn slot_without_owners(
    state: &mut [u8],
    slot: u32,
    mode: u32,
    block: &[u8],
    link: u16,
    out: &mut [u8],
    table: &mut [u8],
) -> u32 {
    let state = &mut state[..WITHOUT_OWNERS];
    calls::slot_by(BEFORE, state, slot, mode, block, link, out, table)
}

/// Whether a slot is served in the mode.
fn serves(slot: SlotFn, mode: u32) -> bool {
    let (mut out, mut table) = ([0; 7], [0; TABLE_LEN]);
    let mut state = State::fresh(1, 0).bytes();
    slot(&mut state, 0, mode, &[0; 11], 0, &mut out, &mut table) == 0
}

/// The slot call of the archive, and how many bytes of the state it takes.
fn archived() -> (SlotFn, usize) {
    if serves(slot_before, CENTRAL) {
        (slot_before, STATE_LEN)
    } else {
        (slot_without_owners, WITHOUT_OWNERS)
    }
}

/// The modes that the archive before has.
fn modes(slot_before: SlotFn) -> impl Iterator<Item = (&'static str, u32)> {
    let known = move |&(_, mode): &(&str, u32)| serves(slot_before, mode);
    EVERY_MODE.into_iter().filter(known)
}

pub fn compared() {
    let (slot_before, _) = archived();
    println!("\n## Beside the archive before\n");
    println!("| Ports | Load | Mode | Now, µs | Before, µs | Ratio |");
    println!("|---|---|---|---|---|---|");
    for ports in [16, 4, 1] {
        for load in [FULL, HALF, LIGHT] {
            for (mode, limit) in modes(slot_before) {
                let trace = Trace::new(ports, load, limit);
                // the archive before may write other grant frames
                agree_but_for_grants(&trace, calls::slot, slot_before);
                let mut now = Player::new(calls::slot, &trace);
                let mut before = Player::new(slot_before, &trace);
                let times = compare(
                    trace.blocks.len(),
                    || now.pass(&trace),
                    || before.pass(&trace),
                );
                let (now, before) = (micro(times.ours), micro(times.rust));
                println!(
                    "| {ports} | {} | {mode} | {now:.3} | {before:.3} | {:.2} |",
                    load.name,
                    times.ratio()
                );
            }
        }
    }
    stacks();
}

fn stacks() {
    println!("\n| Mode | Stack now, bytes | Before |");
    println!("|---|---|---|");
    let (slot_before, state_len) = archived();
    for (mode, limit) in modes(slot_before) {
        let now = most_stack(calls::SLOT, STATE_LEN, limit);
        let before = most_stack(BEFORE, state_len, limit);
        println!("| {mode} | {now} | {before} |");
    }
}
