//! A fast plain Rust ledger in the same words: what the feed is measured against. It goes from
//! set bit to set bit and tests the counts in one pass that the compiler can widen.

use crate::plain;

const PORTS: usize = 16;
const PAIRS: usize = PORTS * PORTS;
pub const LEDGER_LEN: usize = 1 + 4 * PAIRS + PORTS;

/// The same as the C form's feed.
#[inline(never)]
pub fn feed(ledger: &mut [u32], n: u32, asked: &[u8], connected: &[u8]) -> u32 {
    if ledger.len() != LEDGER_LEN || asked.len() != 2 * PORTS || connected.len() != 2 * PORTS {
        return 8;
    }
    if n < 1 || n > PORTS as u32 {
        return 1;
    }
    let (slots, rest) = ledger.split_at_mut(1);
    let (counts, waiting) = rest.split_at_mut(4 * PAIRS);
    if slots[0] == u32::MAX || over(slots[0], counts, waiting) {
        return 13;
    }
    slots[0] += 1;
    let below = u16::MAX >> (PORTS - n as usize);
    for host in 0..PORTS {
        let mask = if host < n as usize { below } else { 0 };
        let asks = set(asked, host) & mask;
        let holds = set(connected, host);
        let waited = waiting[host] as u16;
        let row = &mut counts[PORTS * host..];
        raise(row, asks);
        raise(&mut row[PAIRS..], asks & holds);
        raise(&mut row[2 * PAIRS..], asks & !waited);
        raise(&mut row[3 * PAIRS..], waited & !asks);
        waiting[host] = u32::from(asks & !holds);
    }
    0
}

/// A figure is above the slots counted; only before the first slot can an open request be.
fn over(slots: u32, counts: &[u32], waiting: &[u32]) -> bool {
    let above = counts
        .iter()
        .fold(false, |any, &count| any | (count > slots));
    above || slots == 0 && waiting.iter().any(|&set| set as u16 != 0)
}

fn set(table: &[u8], host: usize) -> u16 {
    u16::from_be_bytes([table[2 * host], table[2 * host + 1]])
}

/// The sets asked of a block of the right length, as the C form writes them.
#[inline(never)]
pub fn asked(n: usize, owners: u16, block: &[u8], table: &mut [u8]) {
    let below = u16::MAX >> (PORTS - n);
    let (mut req, mut uncleared, mut enabled) = ([0; PORTS], below, below);
    for (host, frame) in block.chunks_exact(11).enumerate() {
        if plain::config_is_right(frame) {
            let own = plain::own(owners, host);
            let ben = u16::from_be_bytes([frame[5], frame[6]]) | !own;
            req[host] = u16::from_be_bytes([frame[1], frame[2]]) & below & own;
            enabled = enabled & ben | uncleared;
            uncleared &= ben;
        }
    }
    for (host, bytes) in table.chunks_exact_mut(2).enumerate() {
        let row = if enabled >> host & 1 == 1 {
            req[host]
        } else {
            0
        };
        bytes.copy_from_slice(&row.to_be_bytes());
    }
}

fn raise(row: &mut [u32], mut set: u16) {
    while set != 0 {
        row[set.trailing_zeros() as usize] += 1;
        set &= set - 1;
    }
}
