//! An independent scheduler: Figure 2 of the report over a Boolean matrix and counters, and the
//! distributed form of its section 5 as messages between initiators and targets; and what it says
//! of taking all diagonal positions before others. Where the report is silent, document 01 decides.

// rows and columns are named as in the report
#![allow(clippy::needless_range_loop)]

use crate::frames::Config;

pub const MOST_PORTS: usize = 16;

/// `m[i][t]`: something holds of initiator i and target t.
pub type Matrix = [[bool; MOST_PORTS]; MOST_PORTS];

#[derive(Clone, Copy, Debug, PartialEq)]
pub enum Mode {
    Central,
    Distributed { limit: u32 },
    Diagonal,
}

impl Mode {
    /// As C calls and traces number them.
    pub fn of(number: u32) -> Mode {
        match number {
            0 => Mode::Central,
            17 => Mode::Diagonal,
            limit => Mode::Distributed { limit },
        }
    }
}

/// Ports and offsets: `first_initiator` is I and `first_target` is J. `owners` are the ports of
/// operator 1.
#[derive(Clone, Copy, Debug, PartialEq)]
pub struct Position {
    pub ports: usize,
    pub first_initiator: usize,
    pub first_target: usize,
    pub owners: u16,
}

#[derive(Clone, Copy, Debug, PartialEq)]
pub struct Schedule {
    pub held: Matrix,
    pub rounds: u32,
}

/// What the planned stage leaves.
#[derive(Clone, Copy, Debug, PartialEq)]
pub struct Planned {
    pub given: Matrix,
    pub live: Matrix,
}

/// The planned stage of a slot; `None` is a host that is not heard.
pub fn planned(at: Position, hosts: &[Option<Config>]) -> Planned {
    let slot = Slot::after_planned(at, hosts);
    Planned {
        given: slot.held,
        live: slot.live,
    }
}

/// One slot.
pub fn schedule(at: Position, mode: Mode, hosts: &[Option<Config>]) -> Schedule {
    let mut slot = Slot::after_planned(at, hosts);
    let rounds = match mode {
        Mode::Central => {
            slot.match_central();
            0
        }
        Mode::Distributed { limit } => slot.match_distributed(limit),
        Mode::Diagonal => {
            slot.match_diagonal();
            slot.match_central();
            0
        }
    };
    Schedule {
        held: slot.held,
        rounds,
    }
}

/// What is asked in a slot, planned or not.
pub fn asked(owners: u16, hosts: &[Option<Config>]) -> Matrix {
    said(owners, hosts, |config| config.req)
}

fn bit(word: u16, at: usize) -> bool {
    word & (1 << at) != 0
}

/// Both ports are of one operator.
fn allied(owners: u16, a: usize, b: usize) -> bool {
    bit(owners, a) == bit(owners, b)
}

/// Who is enabled: fewer than two of the heard hosts of its operator vote against it.
fn enabled(owners: u16, hosts: &[Option<Config>]) -> Vec<bool> {
    let against = |initiator: usize| {
        hosts
            .iter()
            .enumerate()
            .filter(|&(voter, _)| allied(owners, voter, initiator))
            .filter_map(|(_, heard)| heard.as_ref())
            .filter(|said| !bit(said.ben, initiator))
            .count()
    };
    (0..hosts.len())
        .map(|initiator| against(initiator) < 2)
        .collect()
}

/// A field of the heard and enabled hosts as a matrix, without targets at or above n and those of
/// the other operator.
fn said(owners: u16, hosts: &[Option<Config>], field: fn(&Config) -> u16) -> Matrix {
    let enabled = enabled(owners, hosts);
    let mut matrix = [[false; MOST_PORTS]; MOST_PORTS];
    for (initiator, host) in hosts.iter().enumerate() {
        let Some(config) = host else { continue };
        for (target, set) in matrix[initiator][..hosts.len()].iter_mut().enumerate() {
            let own = allied(owners, initiator, target);
            *set = enabled[initiator] && own && bit(field(config), target);
        }
    }
    matrix
}

/// A message of the distributed form: who sends it, and how many such it sends or has had.
struct Message {
    from: usize,
    count: usize,
}

struct Slot {
    at: Position,
    live: Matrix,
    held: Matrix,
}

impl Slot {
    fn after_planned(at: Position, hosts: &[Option<Config>]) -> Slot {
        assert_eq!(hosts.len(), at.ports);
        let mut slot = Slot {
            at,
            live: [[false; MOST_PORTS]; MOST_PORTS],
            held: [[false; MOST_PORTS]; MOST_PORTS],
        };
        slot.keep_planned(&said(at.owners, hosts, |config| config.pre));
        slot.raise_requests(&asked(at.owners, hosts));
        slot
    }

    /// How many steps the rotation that starts at `start` takes to come to `place`.
    fn steps(&self, start: usize, place: usize) -> usize {
        (place + self.at.ports - start) % self.at.ports
    }

    /// (I + t - J) mod n
    fn start_at_target(&self, target: usize) -> usize {
        (self.at.first_initiator + target + self.at.ports - self.at.first_target) % self.at.ports
    }

    /// (J + i - I) mod n
    fn start_at_initiator(&self, initiator: usize) -> usize {
        (self.at.first_target + initiator + self.at.ports - self.at.first_initiator) % self.at.ports
    }

    fn keep_planned(&mut self, planned: &Matrix) {
        for target in 0..self.at.ports {
            let start = self.start_at_target(target);
            let claimants = (0..self.at.ports).filter(|&i| planned[i][target]);
            if let Some(kept) = claimants.min_by_key(|&i| self.steps(start, i)) {
                self.held[kept][target] = true;
            }
        }
    }

    /// Requests are live where neither the initiator nor the target is in the planned part.
    fn raise_requests(&mut self, asked: &Matrix) {
        let n = self.at.ports;
        for initiator in 0..n {
            let planner = self.held[initiator].contains(&true);
            for target in 0..n {
                let given = (0..n).any(|i| self.held[i][target]);
                self.live[initiator][target] = asked[initiator][target] && !planner && !given;
            }
        }
    }

    fn join(&mut self, initiator: usize, target: usize) {
        assert!(self.live[initiator][target]);
        self.held[initiator][target] = true;
        self.live[initiator] = [false; MOST_PORTS];
        for row in &mut self.live {
            row[target] = false;
        }
    }

    fn count_requests(&self, initiator: usize) -> usize {
        self.live[initiator].iter().filter(|&&live| live).count()
    }

    /// All diagonal positions that are requested: those as many steps from I as from J.
    fn match_diagonal(&mut self) {
        let asked = self.live;
        for initiator in 0..self.at.ports {
            for target in 0..self.at.ports {
                let down = self.steps(self.at.first_initiator, initiator);
                let across = self.steps(self.at.first_target, target);
                if down == across && asked[initiator][target] {
                    self.join(initiator, target);
                }
            }
        }
    }

    /// Figure 2, line by line, with its own counters.
    fn match_central(&mut self) {
        let n = self.at.ports;
        let mut nrq: Vec<usize> = (0..n).map(|req| self.count_requests(req)).collect();
        for res in 0..n {
            let column = (self.at.first_target + res) % n;
            let diagonal = (self.at.first_initiator + res) % n;
            let mut gnt = None;
            if self.live[diagonal][column] {
                gnt = Some(diagonal);
            } else {
                let mut min = n + 1;
                for req in 0..n {
                    let row = (req + diagonal) % n;
                    if self.live[row][column] && nrq[row] < min {
                        gnt = Some(row);
                        min = nrq[row];
                    }
                }
            }
            let Some(winner) = gnt else { continue };
            for (row, count) in nrq.iter_mut().enumerate() {
                *count -= usize::from(self.live[row][column]);
            }
            nrq[winner] = 0;
            self.join(winner, column);
        }
    }

    fn match_distributed(&mut self, limit: u32) -> u32 {
        let (initiator, target) = (self.at.first_initiator, self.at.first_target);
        if self.live[initiator][target] {
            self.join(initiator, target);
        }
        let mut rounds = 0;
        while rounds < limit && self.live.iter().flatten().any(|&live| live) {
            let pairs = self.accepts(&self.grants(&self.requests()));
            assert!(
                !pairs.is_empty(),
                "a round with a live request joined nobody"
            );
            for (initiator, target) in pairs {
                self.join(initiator, target);
            }
            rounds += 1;
        }
        rounds
    }

    /// What each target hears: who asks, and how many it asks.
    fn requests(&self) -> Vec<Vec<Message>> {
        (0..self.at.ports)
            .map(|target| {
                (0..self.at.ports)
                    .filter(|&from| self.live[from][target])
                    .map(|from| Message {
                        from,
                        count: self.count_requests(from),
                    })
                    .collect()
            })
            .collect()
    }

    /// What each initiator hears back: who grants, and how many had asked there.
    fn grants(&self, requests: &[Vec<Message>]) -> Vec<Vec<Message>> {
        let mut grants: Vec<Vec<Message>> = (0..self.at.ports).map(|_| Vec::new()).collect();
        for (target, heard) in requests.iter().enumerate() {
            if let Some(initiator) = self.least(heard, self.start_at_target(target)) {
                grants[initiator].push(Message {
                    from: target,
                    count: heard.len(),
                });
            }
        }
        grants
    }

    /// The pairs that come of it.
    fn accepts(&self, grants: &[Vec<Message>]) -> Vec<(usize, usize)> {
        grants
            .iter()
            .enumerate()
            .filter_map(|(initiator, heard)| {
                let target = self.least(heard, self.start_at_initiator(initiator))?;
                Some((initiator, target))
            })
            .collect()
    }

    /// The sender with the lowest count, among equals the first in the rotation.
    fn least(&self, heard: &[Message], start: usize) -> Option<usize> {
        heard
            .iter()
            .min_by_key(|message| (message.count, self.steps(start, message.from)))
            .map(|message| message.from)
    }
}
