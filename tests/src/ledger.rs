//! An independent ledger: it keeps every slot that it is fed and, asked for a pair, reads the
//! pair's requests off the whole history, from the slot in which each began to what became of it.

use crate::scheduler::MOST_PORTS;
use crate::slots::{sets, table};

pub const PAIRS: usize = MOST_PORTS * MOST_PORTS;
pub const LEDGER_LEN: usize = 1 + 4 * PAIRS + MOST_PORTS;
pub const FIGURES_LEN: usize = 5;

/// The first words of the four tables of counts, in the order of the figures.
pub const TABLES: [usize; 4] = [1, 1 + PAIRS, 1 + 2 * PAIRS, 1 + 3 * PAIRS];
/// The first word of the sets that wait.
pub const WAITING: usize = 1 + 4 * PAIRS;

/// What the ledger is fed after a slot.
#[derive(Clone, Debug)]
pub struct Feed {
    pub ports: usize,
    pub asked: Vec<u16>,
    pub connected: Vec<u16>,
}

/// What a slot was to a pair.
#[derive(Clone, Copy, PartialEq)]
enum Seen {
    Idle,
    Waits,
    Connected,
}

/// What became of a request.
#[derive(Clone, Copy, Debug, PartialEq)]
enum End {
    Connected,
    Withdrawn,
    Open,
}

impl Feed {
    /// Of tables of bytes.
    pub fn of_tables(ports: usize, asked: &[u8], connected: &[u8]) -> Feed {
        Feed {
            ports,
            asked: sets(asked),
            connected: sets(connected),
        }
    }

    pub fn asked_table(&self) -> Vec<u8> {
        table(&self.asked)
    }

    pub fn connected_table(&self) -> Vec<u8> {
        table(&self.connected)
    }

    fn seen(&self, initiator: usize, target: usize) -> Seen {
        let inside = initiator < self.ports && target < self.ports;
        let among = |sets: &[u16]| sets[initiator] & (1 << target) != 0;
        match (inside && among(&self.asked), among(&self.connected)) {
            (false, _) => Seen::Idle,
            (true, false) => Seen::Waits,
            (true, true) => Seen::Connected,
        }
    }
}

/// The slots that were counted, the earliest first.
#[derive(Clone, Debug, Default)]
pub struct History {
    pub feeds: Vec<Feed>,
}

impl History {
    /// Asked, connected, fresh, withdrawn, open.
    pub fn figures(&self, initiator: usize, target: usize) -> [u32; FIGURES_LEN] {
        let feeds = self.feeds.iter();
        let seen: Vec<Seen> = feeds.map(|feed| feed.seen(initiator, target)).collect();
        let ends = requests(&seen);
        let ended = |how: End| ends.iter().filter(|&&end| end == how).count() as u32;
        let asked = seen.iter().filter(|&&slot| slot != Seen::Idle).count();
        [
            asked as u32,
            ended(End::Connected),
            ends.len() as u32,
            ended(End::Withdrawn),
            ended(End::Open),
        ]
    }

    /// The words of a ledger that was fed all this.
    pub fn words(&self) -> Vec<u32> {
        let mut words = vec![0; LEDGER_LEN];
        words[0] = self.feeds.len() as u32;
        for pair in 0..PAIRS {
            let (initiator, target) = (pair / MOST_PORTS, pair % MOST_PORTS);
            let figures = self.figures(initiator, target);
            for (table, figure) in TABLES.iter().zip(figures) {
                words[table + pair] = figure;
            }
            words[WAITING + initiator] += figures[4] << target;
        }
        words
    }
}

/// A request waits in some slots or none; then it is connected, or not asked any more, or the
/// history ends.
fn requests(seen: &[Seen]) -> Vec<End> {
    seen.split_inclusive(|&slot| slot != Seen::Waits)
        .filter_map(|slots| match slots {
            [.., Seen::Connected] => Some(End::Connected),
            [.., Seen::Waits, Seen::Idle] => Some(End::Withdrawn),
            [.., Seen::Waits] => Some(End::Open),
            _ => None,
        })
        .collect()
}

/// The number of a feed of this ledger, whose tables are of these lengths in bytes.
pub fn feed_number(words: &[u32], n: u32, asked_len: usize, connected_len: usize) -> u32 {
    if words.len() != LEDGER_LEN || asked_len != 2 * MOST_PORTS || connected_len != 2 * MOST_PORTS {
        return 8;
    }
    if n == 0 || n > MOST_PORTS as u32 {
        return 1;
    }
    if words[0] == u32::MAX || greatest(words) > words[0] {
        return 13;
    }
    0
}

/// The greatest figure of any pair.
fn greatest(words: &[u32]) -> u32 {
    let counts = words[1..WAITING].iter().copied();
    let open = words[WAITING..]
        .iter()
        .map(|&set| u32::from(set as u16 != 0));
    counts.chain(open).max().unwrap_or(0)
}

/// The number of the call for a pair's figures, and the figures as it leaves them.
pub fn figures(words: &[u32], initiator: u32, target: u32, kept: &[u32]) -> (u32, Vec<u32>) {
    if words.len() != LEDGER_LEN || kept.len() != FIGURES_LEN {
        return (8, kept.to_vec());
    }
    if initiator.max(target) as usize >= MOST_PORTS {
        return (11, kept.to_vec());
    }
    let pair = (initiator * 16 + target) as usize;
    let mut figures: Vec<u32> = TABLES.iter().map(|table| words[table + pair]).collect();
    figures.push(words[WAITING + initiator as usize] >> target & 1);
    (0, figures)
}

#[cfg(test)]
mod tests {
    use super::*;

    fn ends(slots: &str) -> Vec<End> {
        let seen = |slot| match slot {
            '-' => Seen::Idle,
            'w' => Seen::Waits,
            _ => Seen::Connected,
        };
        requests(&slots.chars().map(seen).collect::<Vec<_>>())
    }

    #[test]
    fn requests_are_read_off_a_history() {
        assert_eq!(ends(""), []);
        assert_eq!(ends("--"), []);
        assert_eq!(ends("cc"), [End::Connected, End::Connected]);
        assert_eq!(ends("-wwwc--"), [End::Connected]);
        assert_eq!(ends("ww-w"), [End::Withdrawn, End::Open]);
        assert_eq!(
            ends("cw-c"),
            [End::Connected, End::Withdrawn, End::Connected]
        );
    }
}
