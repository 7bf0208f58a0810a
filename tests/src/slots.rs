//! A slot call as data: all that it is lent, and all that it leaves.

use crate::calls;
use crate::frames::Config;
use crate::lent::Lent;
use crate::promises;

pub const STATE_LEN: usize = 9;
pub const TABLE_LEN: usize = 32;
pub const CENTRAL: u32 = 0;
pub const DIAGONAL: u32 = 17;

#[derive(Clone, Copy, Debug, PartialEq)]
pub struct State {
    pub ports: u8,
    pub initiator: u8,
    pub target: u8,
    pub due: u32,
    /// The ports of operator 1.
    pub owners: u16,
}

impl State {
    pub fn fresh(ports: usize, due: u32) -> State {
        State::at(ports, 0, 0, due)
    }

    pub fn at(ports: usize, initiator: usize, target: usize, due: u32) -> State {
        State {
            ports: ports as u8,
            initiator: initiator as u8,
            target: target as u8,
            due,
            owners: 0,
        }
    }

    /// With these ports given to operator 1.
    pub fn owned(self, owners: u16) -> State {
        State { owners, ..self }
    }

    pub fn bytes(self) -> Vec<u8> {
        let mut bytes = vec![self.ports, self.initiator, self.target];
        bytes.extend(self.due.to_be_bytes());
        bytes.extend(self.owners.to_be_bytes());
        bytes
    }

    /// Of nine bytes.
    pub fn read(bytes: &[u8]) -> State {
        State {
            ports: bytes[0],
            initiator: bytes[1],
            target: bytes[2],
            due: u32::from_be_bytes([bytes[3], bytes[4], bytes[5], bytes[6]]),
            owners: u16::from_be_bytes([bytes[7], bytes[8]]),
        }
    }
}

#[derive(Clone, Debug)]
pub struct Slot {
    pub state: Vec<u8>,
    pub slot: u32,
    pub mode: u32,
    pub block: Vec<u8>,
    pub link: u16,
    pub out: Vec<u8>,
    pub table: Vec<u8>,
}

#[derive(Clone, Debug, PartialEq)]
pub struct After {
    pub word: u32,
    pub state: Vec<u8>,
    pub out: Vec<u8>,
    pub table: Vec<u8>,
}

impl Slot {
    /// The due slot with a block of the right length. The lent bytes are neither zero nor what
    /// any call would write, so that it shows what was written and what was not.
    pub fn due(state: State, mode: u32, block: Vec<u8>) -> Slot {
        Slot {
            state: state.bytes(),
            slot: state.due,
            mode,
            block,
            link: 0,
            out: vec![0xB7; 7 * usize::from(state.ports) + 3],
            table: vec![0xB7; TABLE_LEN],
        }
    }

    /// The same with a correct frame from each host.
    pub fn of_hosts(state: State, mode: u32, hosts: &[Config]) -> Slot {
        assert_eq!(hosts.len(), usize::from(state.ports));
        Slot::due(state, mode, block(hosts))
    }

    /// What a call that declines with `word` leaves.
    pub fn kept(&self, word: u32) -> After {
        After {
            word,
            state: self.state.clone(),
            out: self.out.clone(),
            table: self.table.clone(),
        }
    }

    /// What the library makes of it.
    pub fn called(&self) -> After {
        let mut state = Lent::new(&self.state);
        let block = Lent::new(&self.block);
        let mut out = Lent::new(&self.out);
        let mut table = Lent::new(&self.table);
        let word = calls::slot(
            state.lend(),
            self.slot,
            self.mode,
            &block,
            self.link,
            out.lend(),
            table.lend(),
        );
        assert_eq!(block.back(), self.block, "the block was changed");
        After {
            word,
            state: state.back(),
            out: out.back(),
            table: table.back(),
        }
    }

    /// What the library makes of it, seen to be what document 01 promises.
    pub fn agreed(&self) -> After {
        let after = self.called();
        let promised = promises::slot(self);
        assert!(
            after == promised,
            "{self:?}\n  was answered {after:?}\n  and not      {promised:?}"
        );
        after
    }
}

impl After {
    pub fn number(&self) -> u32 {
        self.word % 256
    }

    pub fn rounds(&self) -> u32 {
        self.word / 256
    }

    /// The sixteen sets of targets.
    pub fn sets(&self) -> Vec<u16> {
        sets(&self.table)
    }

    pub fn joins(&self, initiator: usize, target: usize) -> bool {
        self.sets()[initiator] & (1 << target) != 0
    }

    /// The table as document 01 prints it, without the letter.
    pub fn line(&self) -> String {
        let ports = usize::from(self.state[0]);
        let shown: Vec<String> = self.sets()[..ports]
            .iter()
            .enumerate()
            .map(|(initiator, &held)| format!("{initiator}:{}", targets(held)))
            .collect();
        shown.join(" ")
    }
}

fn targets(held: u16) -> String {
    let names: Vec<String> = (0..16)
        .filter(|target| held & (1 << target) != 0)
        .map(|target| target.to_string())
        .collect();
    if names.is_empty() {
        "-".to_string()
    } else {
        names.join(",")
    }
}

/// The sets of a table.
pub fn sets(table: &[u8]) -> Vec<u16> {
    table
        .chunks(2)
        .map(|pair| u16::from_be_bytes([pair[0], pair[1]]))
        .collect()
}

/// The table of these sets.
pub fn table(sets: &[u16]) -> Vec<u8> {
    sets.iter().flat_map(|set| set.to_be_bytes()).collect()
}

/// These targets as a set.
pub fn set(targets: &[u32]) -> u16 {
    targets.iter().fold(0, |held, target| held | 1 << target)
}

/// Hosts that ask for these targets, plan nothing and disable nobody.
pub fn asking(rows: &[&[u32]]) -> Vec<Config> {
    rows.iter().map(|row| Config::asking(set(row))).collect()
}

/// The frames of these hosts, one behind the other.
pub fn block(hosts: &[Config]) -> Vec<u8> {
    hosts.iter().flat_map(|host| host.frame()).collect()
}
