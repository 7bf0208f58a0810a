//! What documents 01 and 02 promise of each call of the C form, over our own frames and
//! scheduler; the calls of the ledger and of traces are in modules of their own.

use crate::frames::{Config, Grant, Held, CONFIG_LEN, GRANT_LEN, HELD_LEN};
use crate::scheduler::{self, schedule, Matrix, Mode, Position, Schedule, MOST_PORTS};
use crate::slots::{After, Slot, State, STATE_LEN, TABLE_LEN};

const HALF: u32 = 1 << 31;

pub fn slot(call: &Slot) -> After {
    match refusal(call) {
        Some(number) => call.kept(number),
        None => served(call),
    }
}

/// The first reason to decline, in document 01's order.
fn refusal(call: &Slot) -> Option<u32> {
    if call.state.len() != STATE_LEN || call.table.len() != TABLE_LEN {
        return Some(8);
    }
    let state = State::read(&call.state);
    let ports = usize::from(state.ports);
    let behind = state.due.wrapping_sub(call.slot);
    let tests = [
        (1, ports == 0 || ports > MOST_PORTS),
        (
            2,
            state.initiator >= state.ports || state.target >= state.ports,
        ),
        (3, (1..=HALF).contains(&behind)),
        (4, behind > HALF),
        (5, call.mode > 17),
        (6, call.block.len() != CONFIG_LEN * ports),
        (7, call.out.len() < HELD_LEN * ports),
    ];
    tests.iter().find(|test| test.1).map(|test| test.0)
}

fn served(call: &Slot) -> After {
    let state = State::read(&call.state);
    let hosts = hosts(&call.block);
    let at = Position {
        ports: hosts.len(),
        first_initiator: usize::from(state.initiator),
        first_target: usize::from(state.target),
        owners: state.owners,
    };
    let made = schedule(at, Mode::of(call.mode), &hosts);
    let mut after = call.kept(made.rounds * 256);
    after.state = advanced(state).bytes();
    after.table = table(&made.held);
    for (host, heard) in hosts.iter().enumerate() {
        let frame = told(host, &made, call.link, heard.is_some()).frame();
        after.out[HELD_LEN * host..][..HELD_LEN].copy_from_slice(&frame);
    }
    after
}

pub(crate) fn hosts(block: &[u8]) -> Vec<Option<Config>> {
    block
        .chunks(CONFIG_LEN)
        .map(|frame| Config::read(frame).ok())
        .collect()
}

fn advanced(state: State) -> State {
    let mut next = state;
    next.due = if state.due == u32::MAX {
        0
    } else {
        state.due + 1
    };
    next.initiator = (state.initiator + 1) % state.ports;
    if next.initiator == 0 {
        next.target = (state.target + 1) % state.ports;
    }
    next
}

pub(crate) fn table(matrix: &Matrix) -> Vec<u8> {
    let weigh = |row: &[bool], from: usize| -> u8 {
        (0..8).map(|bit| u8::from(row[from + bit]) << bit).sum()
    };
    matrix
        .iter()
        .flat_map(|row| [weigh(row, 8), weigh(row, 0)])
        .collect()
}

fn told(host: usize, made: &Schedule, link: u16, heard: bool) -> Held {
    let targets = (0..MOST_PORTS).filter(|&target| made.held[host][target]);
    let set = targets.map(|target| 1 << target).sum();
    Held {
        node_id: host as u32,
        gnt_val: set != 0,
        link_err: link >> host & 1 == 1,
        crc_err: !heard,
        set,
    }
}

/// The number of the call for the sets asked, and the table as it leaves it.
pub fn asked(state: &[u8], block: &[u8], kept: &[u8]) -> (u32, Vec<u8>) {
    if state.len() != STATE_LEN || kept.len() != TABLE_LEN {
        return (8, kept.to_vec());
    }
    let state = State::read(state);
    let ports = usize::from(state.ports);
    let tests = [
        (1, !(1..=MOST_PORTS).contains(&ports)),
        (6, block.len() != CONFIG_LEN * ports),
    ];
    match tests.iter().find(|test| test.1) {
        Some(&(number, _)) => (number, kept.to_vec()),
        None => (0, table(&scheduler::asked(state.owners, &hosts(block)))),
    }
}

/// The number of the call that makes a fresh state, and the state as it leaves it.
pub fn fresh(n: u32, due: u32, operators: &[u8], kept: &[u8]) -> (u32, Vec<u8>) {
    if operators.len() != MOST_PORTS || kept.len() != STATE_LEN {
        return (8, kept.to_vec());
    }
    if !(1..=MOST_PORTS as u32).contains(&n) {
        return (1, kept.to_vec());
    }
    let given = &operators[..n as usize];
    if given.iter().any(|&operator| operator > 1) {
        return (15, kept.to_vec());
    }
    let owners = (0..given.len()).filter(|&port| given[port] == 1);
    let owners = owners.map(|port| 1 << port).sum();
    (0, State::fresh(n as usize, due).owned(owners).bytes())
}

/// A reader's number, and the part as it leaves it.
pub fn read_config(frame: &[u8], part: &[u8]) -> (u32, Vec<u8>) {
    if part.len() != CONFIG_LEN - 3 {
        return (8, part.to_vec());
    }
    copied(Config::read(frame).err(), frame, part)
}

pub fn read_grant(frame: &[u8], part: &[u8]) -> (u32, Vec<u8>) {
    if part.len() != GRANT_LEN - 3 {
        return (8, part.to_vec());
    }
    copied(Grant::read(frame).err(), frame, part)
}

pub fn read_grant3(frame: &[u8], part: &[u8]) -> (u32, Vec<u8>) {
    if part.len() != HELD_LEN - 3 {
        return (8, part.to_vec());
    }
    copied(Held::read(frame).err(), frame, part)
}

fn copied(refused: Option<u32>, frame: &[u8], part: &[u8]) -> (u32, Vec<u8>) {
    match refused {
        Some(number) => (number, part.to_vec()),
        None => (0, frame[1..frame.len() - 2].to_vec()),
    }
}

/// A writer's number, and the output as it leaves it.
pub fn write_config(config: Config, out: &[u8]) -> (u32, Vec<u8>) {
    written(config.frame(), out)
}

pub fn write_grant3(held: Held, out: &[u8]) -> (u32, Vec<u8>) {
    if !held.fits() {
        return (11, out.to_vec());
    }
    written(held.frame(), out)
}

pub(crate) fn written(frame: Vec<u8>, out: &[u8]) -> (u32, Vec<u8>) {
    if out.len() < frame.len() {
        return (7, out.to_vec());
    }
    let beyond = out[frame.len()..].to_vec();
    (0, [frame, beyond].concat())
}
