//! A fast plain Rust slot, bytes to bytes: what the C form is measured against. Sets are words,
//! loops leave early where that is natural; there is nothing beyond ordinary Rust in it.

const MOST_PORTS: usize = 16;
const CONFIG_LEN: usize = 11;
const GRANT_LEN: usize = 7;
const STATE_LEN: usize = 9;
const DIAGONAL: u32 = 17;

pub type Rows = [u16; MOST_PORTS];

#[derive(Clone, Copy)]
pub struct Place {
    pub n: usize,
    pub i: usize,
    pub j: usize,
}

impl Place {
    pub fn next(self, k: usize) -> usize {
        if k + 1 == self.n {
            0
        } else {
            k + 1
        }
    }

    /// (a + b - c) mod n, of numbers below n.
    fn turned(self, a: usize, b: usize, c: usize) -> usize {
        (a + b + self.n - c) % self.n
    }
}

/// What remains to be decided, and what is.
pub struct Work {
    pub live: Rows,
    pub held: Rows,
}

impl Work {
    fn join(&mut self, n: usize, initiator: usize, target: usize) {
        self.held[initiator] |= 1 << target;
        self.live[initiator] = 0;
        for row in &mut self.live[..n] {
            *row &= !(1 << target);
        }
    }
}

pub fn check(bytes: &[u8]) -> u16 {
    let mut sum = 0xFFFF;
    for &byte in bytes {
        sum ^= u16::from(byte) << 8;
        for _ in 0..8 {
            let carry = sum & 0x8000 != 0;
            sum <<= 1;
            if carry {
                sum ^= 0x1021;
            }
        }
    }
    sum
}

pub fn config_is_right(frame: &[u8]) -> bool {
    frame.len() == CONFIG_LEN && frame[0] == 1 && check(&frame[..9]).to_be_bytes() == frame[9..]
}

pub fn write_grant(node_id: u8, flags: u8, set: u16, out: &mut [u8]) {
    let mut frame = [3, node_id, flags, (set >> 8) as u8, set as u8, 0, 0];
    let sum = check(&frame[..GRANT_LEN - 2]).to_be_bytes();
    frame[GRANT_LEN - 2..].copy_from_slice(&sum);
    out[..GRANT_LEN].copy_from_slice(&frame);
}

/// The same as the C form's slot call.
#[inline(never)]
pub fn slot(
    state: &mut [u8],
    slot: u32,
    mode: u32,
    block: &[u8],
    link: u16,
    out: &mut [u8],
    table: &mut [u8],
) -> u32 {
    slot_by(central, state, slot, mode, block, link, out, table)
}

/// The slot with one way or another to serve by the central rule.
#[allow(clippy::too_many_arguments)]
#[inline(always)]
pub fn slot_by(
    central: impl Fn(Place, &mut Work),
    state: &mut [u8],
    slot: u32,
    mode: u32,
    block: &[u8],
    link: u16,
    out: &mut [u8],
    table: &mut [u8],
) -> u32 {
    if state.len() != STATE_LEN || table.len() != 2 * MOST_PORTS {
        return 8;
    }
    let due = u32::from_be_bytes([state[3], state[4], state[5], state[6]]);
    let at = Place {
        n: usize::from(state[0]),
        i: usize::from(state[1]),
        j: usize::from(state[2]),
    };
    let number = refusal(at, due, slot, mode, block.len(), out.len());
    if number != 0 {
        return number;
    }
    let owners = u16::from_be_bytes([state[7], state[8]]);
    let (mut work, quiet) = begin(at, owners, block);
    let rounds = serve(central, at, mode, &mut work);
    write_grants(at.n, &work.held, link, quiet, out);
    put_table(&work.held, table);
    advance(state, at, due);
    rounds * 256
}

/// What a mode joins; gives the rounds.
#[inline(always)]
pub fn serve(central: impl Fn(Place, &mut Work), at: Place, mode: u32, work: &mut Work) -> u32 {
    match mode {
        0 => {
            central(at, work);
            0
        }
        DIAGONAL => {
            diagonal(at, work);
            central(at, work);
            0
        }
        limit => distributed(at, limit, work),
    }
}

pub fn advance(state: &mut [u8], at: Place, due: u32) {
    state[1] = at.next(at.i) as u8;
    if state[1] == 0 {
        state[2] = at.next(at.j) as u8;
    }
    state[3..7].copy_from_slice(&due.wrapping_add(1).to_be_bytes());
}

pub fn put_table(sets: &Rows, table: &mut [u8]) {
    for (bytes, set) in table.chunks_exact_mut(2).zip(sets) {
        bytes.copy_from_slice(&set.to_be_bytes());
    }
}

/// The numbers 1 to 5.
pub fn due_refusal(at: Place, due: u32, slot: u32, mode: u32) -> u32 {
    refusal(at, due, slot, mode, CONFIG_LEN * at.n, GRANT_LEN * at.n)
}

fn refusal(at: Place, due: u32, slot: u32, mode: u32, block_len: usize, out_len: usize) -> u32 {
    if at.n < 1 || at.n > MOST_PORTS {
        1
    } else if at.i >= at.n || at.j >= at.n {
        2
    } else if slot != due {
        3 + u32::from(due.wrapping_sub(slot) > 1 << 31)
    } else if mode > DIAGONAL {
        5
    } else if block_len != CONFIG_LEN * at.n {
        6
    } else if out_len < GRANT_LEN * at.n {
        7
    } else {
        0
    }
}

/// Reads the block and settles what is planned; also says which hosts are not heard. Hosts ask,
/// plan and vote among the ports of their own operator.
pub fn begin(at: Place, owners: u16, block: &[u8]) -> (Work, u16) {
    let below = u16::MAX >> (MOST_PORTS - at.n);
    let (mut req, mut pre) = ([0; MOST_PORTS], [0; MOST_PORTS]);
    let (mut uncleared, mut enabled, mut quiet) = (below, below, 0);
    for (host, frame) in block.chunks_exact(CONFIG_LEN).enumerate() {
        if config_is_right(frame) {
            let own = own(owners, host);
            req[host] = u16::from_be_bytes([frame[1], frame[2]]) & below & own;
            pre[host] = u16::from_be_bytes([frame[3], frame[4]]) & below & own;
            let ben = u16::from_be_bytes([frame[5], frame[6]]) | !own;
            enabled = enabled & ben | uncleared;
            uncleared &= ben;
        } else {
            quiet |= 1 << host;
        }
    }
    for host in 0..at.n {
        if enabled >> host & 1 == 0 {
            req[host] = 0;
            pre[host] = 0;
        }
    }
    let (held, given) = planned(at, &pre);
    for host in 0..at.n {
        req[host] = if held[host] == 0 {
            req[host] & !given
        } else {
            0
        };
    }
    (Work { live: req, held }, quiet)
}

/// The ports of the host's operator.
pub fn own(owners: u16, host: usize) -> u16 {
    if owners >> host & 1 == 1 {
        owners
    } else {
        !owners
    }
}

/// Each target that is planned, with the first to claim it; and the set of these targets.
fn planned(at: Place, pre: &Rows) -> (Rows, u16) {
    let mut held = [0; MOST_PORTS];
    let claimed = pre.iter().fold(0, |all, row| all | row);
    let mut left = claimed;
    while left != 0 {
        let target = left.trailing_zeros() as usize;
        left &= left - 1;
        let mut i = at.turned(at.i, target, at.j);
        while pre[i] >> target & 1 == 0 {
            i = at.next(i);
        }
        held[i] |= 1 << target;
    }
    (held, claimed)
}

fn diagonal(at: Place, work: &mut Work) {
    let (mut initiator, mut target) = (at.i, at.j);
    for _ in 0..at.n {
        if work.live[initiator] >> target & 1 == 1 {
            work.join(at.n, initiator, target);
        }
        initiator = at.next(initiator);
        target = at.next(target);
    }
}

pub fn central(at: Place, work: &mut Work) {
    let (mut first, mut target) = (at.i, at.j);
    for _ in 0..at.n {
        if work.live[first] >> target & 1 == 1 {
            work.join(at.n, first, target);
        } else if let Some(winner) = fewest(at, &work.live, first, target) {
            work.join(at.n, winner, target);
        }
        first = at.next(first);
        target = at.next(target);
    }
}

/// Who asks for the target and has the fewest choices; of equals the first from `first` on.
fn fewest(at: Place, live: &Rows, first: usize, target: usize) -> Option<usize> {
    let mut least = MOST_PORTS as u32 + 1;
    let mut winner = None;
    let mut i = first;
    for _ in 0..at.n {
        if live[i] >> target & 1 == 1 {
            let choices = live[i].count_ones();
            if choices < least {
                least = choices;
                winner = Some(i);
            }
        }
        i = at.next(i);
    }
    winner
}

fn distributed(at: Place, limit: u32, work: &mut Work) -> u32 {
    if work.live[at.i] >> at.j & 1 == 1 {
        work.join(at.n, at.i, at.j);
    }
    let mut rounds = 0;
    while rounds < limit && work.live[..at.n].iter().any(|&row| row != 0) {
        round(at, work);
        rounds += 1;
    }
    rounds
}

/// The best offer that an initiator or a target has had so far.
#[derive(Clone, Copy)]
struct Best {
    rank: u32,
    from: usize,
}

const NOBODY: Best = Best {
    rank: u32::MAX,
    from: 0,
};

impl Best {
    /// The lower count goes first, then the earlier place in the rotation from `start`.
    fn offer(&mut self, at: Place, count: u32, from: usize, start: usize) {
        let steps = if from >= start {
            from - start
        } else {
            from + at.n - start
        };
        let rank = count * MOST_PORTS as u32 + steps as u32;
        if rank < self.rank {
            *self = Best { rank, from };
        }
    }
}

fn round(at: Place, work: &mut Work) {
    let (granted, askers) = grants(at, &work.live);
    let mut accepted = [NOBODY; MOST_PORTS];
    for target in 0..at.n {
        if askers[target] > 0 {
            let i = granted[target].from;
            let start = at.turned(at.j, i, at.i);
            accepted[i].offer(at, askers[target], target, start);
        }
    }
    for (i, best) in accepted[..at.n].iter().enumerate() {
        if best.rank != NOBODY.rank {
            work.join(at.n, i, best.from);
        }
    }
}

/// Whom each target grants, and how many asked it.
fn grants(at: Place, live: &Rows) -> ([Best; MOST_PORTS], [u32; MOST_PORTS]) {
    let mut starts = [0; MOST_PORTS];
    let mut start = at.turned(at.i, 0, at.j);
    for place in &mut starts[..at.n] {
        *place = start;
        start = at.next(start);
    }
    let mut granted = [NOBODY; MOST_PORTS];
    let mut askers = [0; MOST_PORTS];
    for (i, &row) in live[..at.n].iter().enumerate() {
        let choices = row.count_ones();
        let mut left = row;
        while left != 0 {
            let target = left.trailing_zeros() as usize;
            left &= left - 1;
            askers[target] += 1;
            granted[target].offer(at, choices, i, starts[target]);
        }
    }
    (granted, askers)
}

fn write_grants(n: usize, held: &Rows, link: u16, quiet: u16, out: &mut [u8]) {
    for (i, part) in out.chunks_exact_mut(GRANT_LEN).take(n).enumerate() {
        let flag = |word: u16| (word >> i & 1) as u8;
        let valid = u8::from(held[i] != 0);
        let flags = valid | flag(link) << 1 | flag(quiet) << 2;
        write_grant(i as u8, flags, held[i], part);
    }
}
