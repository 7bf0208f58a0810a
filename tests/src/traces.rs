//! Traces of our own, from document 02, item 3, alone: a builder that joins their bytes, a reader
//! that takes them off the file's beginning, and the replay by the independent scheduler.

use crate::frames::{check_is_right, sealed, CONFIG_LEN};
use crate::promises::{hosts, table};
use crate::random::Random;
use crate::scheduler::{schedule, Mode, Position, MOST_PORTS};
use crate::traffic::Traffic;

pub const MOST_BODIES: usize = 1024;
pub const MOST_BODY_SLOTS: usize = 360;
pub const MOST_MODE: u8 = 17;

/// An entry of the contents, right or wrong.
#[derive(Clone, Copy, Debug, PartialEq)]
pub struct Entry {
    pub first: u32,
    pub slots: u16,
    pub offset: u32,
}

impl Entry {
    fn bytes(self) -> Vec<u8> {
        let mut bytes = self.first.to_be_bytes().to_vec();
        bytes.extend(self.slots.to_be_bytes());
        bytes.extend(self.offset.to_be_bytes());
        bytes
    }

    /// Its four words, as the calls show them.
    pub fn words(self, ports: usize) -> Vec<u32> {
        let len = body_len(ports, usize::from(self.slots));
        vec![
            self.first,
            u32::from(self.slots),
            self.offset,
            len.try_into().expect("a body is shorter than 12 MB"),
        ]
    }
}

pub fn contents_len(count: usize) -> usize {
    1 + 2 + (4 + 2 + 4) * count + 2
}

pub fn body_len(ports: usize, slots: usize) -> usize {
    1 + 1 + 1 + slots * ports * CONFIG_LEN + 2
}

/// A body, and the first slot of its entry.
#[derive(Clone, Debug, PartialEq)]
pub struct Body {
    pub first: u32,
    pub mode: u8,
    pub initiator: u8,
    pub target: u8,
    pub blocks: Vec<Vec<u8>>,
}

impl Body {
    /// Any that is sound for so many ports, of so many slots.
    pub fn any(random: &mut Random, ports: usize, slots: usize) -> Body {
        let traffic = Traffic::any(random);
        let first = match random.below(3) {
            0 => u32::MAX - random.below(slots + 1) as u32, // at the wrap or just before it
            _ => random.long(),
        };
        Body {
            first,
            mode: random.below(usize::from(MOST_MODE) + 1) as u8,
            initiator: random.below(ports) as u8,
            target: random.below(ports) as u8,
            blocks: (0..slots).map(|_| traffic.block(random, ports)).collect(),
        }
    }

    pub fn bytes(&self) -> Vec<u8> {
        let fields = vec![self.mode, self.initiator, self.target];
        sealed([fields, self.blocks.concat()].concat())
    }

    /// The body that these bytes are, for an entry of so many slots in a trace of so many ports.
    pub fn read(ports: usize, first: u32, slots: usize, bytes: &[u8]) -> Option<Body> {
        let shelf = (1..=MOST_PORTS).contains(&ports) && (1..=MOST_BODY_SLOTS).contains(&slots);
        if !shelf || bytes.len() != body_len(ports, slots) || !check_is_right(bytes) {
            return None;
        }
        let (&[mode, initiator, target], rest) = bytes.split_first_chunk()?;
        let blocks = rest[..rest.len() - 2].chunks(ports * CONFIG_LEN);
        let formed = mode <= MOST_MODE && usize::from(initiator.max(target)) < ports;
        formed.then(|| Body {
            first,
            mode,
            initiator,
            target,
            blocks: blocks.map(<[u8]>::to_vec).collect(),
        })
    }

    /// The tables of its slots. In slot k, the offsets stand k turns after the body's own.
    pub fn tables(&self, ports: usize) -> Vec<u8> {
        let own = usize::from(self.target) * ports + usize::from(self.initiator);
        let mode = Mode::of(self.mode.into());
        let slots = self.blocks.iter().zip(own..);
        slots
            .flat_map(|(block, turn)| {
                let at = Position {
                    ports,
                    first_initiator: turn % ports,
                    first_target: turn / ports % ports,
                    // a trace has no owners
                    owners: 0,
                };
                table(&schedule(at, mode, &hosts(block)).held)
            })
            .collect()
    }
}

/// A file laid out as a trace is, whose parts need not be right nor fit together.
#[derive(Clone, Debug)]
pub struct Layout {
    pub ports: u8,
    pub count: u16,
    pub entries: Vec<Entry>,
    pub bodies: Vec<Vec<u8>>,
}

impl Layout {
    /// The contents; their check is right whatever they say.
    pub fn contents(&self) -> Vec<u8> {
        let mut bytes = vec![self.ports];
        bytes.extend(self.count.to_be_bytes());
        bytes.extend(self.entries.iter().flat_map(|entry| entry.bytes()));
        sealed(bytes)
    }

    pub fn file(&self) -> Vec<u8> {
        [self.contents(), self.bodies.concat()].concat()
    }

    /// Of bodies of three slots, two and one.
    pub fn of_three_bodies(random: &mut Random, ports: usize) -> Layout {
        Trace::any(random, ports, &[3, 2, 1]).layout()
    }

    /// Gives body k this mode, I and J, and a right check.
    pub fn set_fields(&mut self, k: usize, fields: [u8; 3]) {
        let body = &self.bodies[k];
        self.bodies[k] = sealed([&fields[..], &body[3..body.len() - 2]].concat());
    }

    /// Lays the bodies, as they are, where the contents end and without gaps.
    pub fn close_up(&mut self) {
        let mut offset = contents_len(self.entries.len());
        for (entry, body) in self.entries.iter_mut().zip(&self.bodies) {
            entry.offset = offset as u32;
            offset += body.len();
        }
    }
}

/// What the contents of a trace say.
#[derive(Clone, Debug, PartialEq)]
pub struct Contents {
    pub ports: usize,
    pub entries: Vec<Entry>,
}

impl Contents {
    /// Of a file of so many bytes, which starts with these.
    pub fn read(start: &[u8], file_len: usize) -> Option<Contents> {
        let (contents, end) = Contents::found(start)?;
        (end == file_len).then_some(contents)
    }

    /// Whatever follows them, and where their last body is to end.
    pub fn found(start: &[u8]) -> Option<(Contents, usize)> {
        let mut rest = start;
        let ports = number(&mut rest, 1)?;
        let count = number(&mut rest, 2)?;
        if ports == 0 || ports > MOST_PORTS || count > MOST_BODIES {
            return None;
        }
        let mut entries = Vec::new();
        let mut ends = vec![contents_len(count)];
        for k in 0..count {
            let entry = entry(&mut rest)?;
            let slots = usize::from(entry.slots);
            if slots == 0 || slots > MOST_BODY_SLOTS || entry.offset as usize != ends[k] {
                return None;
            }
            ends.push(ends[k] + body_len(ports, slots));
            entries.push(entry);
        }
        number(&mut rest, 2)?;
        check_is_right(&start[..ends[0]]).then(|| (Contents { ports, entries }, ends[count]))
    }
}

/// Takes a number off the beginning.
fn number(rest: &mut &[u8], len: usize) -> Option<usize> {
    let (bytes, behind) = rest.split_at_checked(len)?;
    *rest = behind;
    let digits = bytes.iter().map(|&byte| usize::from(byte));
    Some(digits.fold(0, |number, digit| number * 256 + digit))
}

/// Takes an entry off the beginning.
pub(crate) fn entry(rest: &mut &[u8]) -> Option<Entry> {
    Some(Entry {
        first: number(rest, 4)? as u32,
        slots: number(rest, 2)? as u16,
        offset: number(rest, 4)? as u32,
    })
}

#[derive(Clone, Debug, PartialEq)]
pub struct Trace {
    pub ports: usize,
    pub bodies: Vec<Body>,
}

impl Trace {
    /// Any trace with a body for each of these slot counts.
    pub fn any(random: &mut Random, ports: usize, slots: &[usize]) -> Trace {
        let bodies = slots.iter().map(|&slots| Body::any(random, ports, slots));
        Trace {
            ports,
            bodies: bodies.collect(),
        }
    }

    /// Some bodies of a few slots, on a shelf of any size.
    pub fn small(random: &mut Random) -> Trace {
        let ports = random.between(1, MOST_PORTS);
        let slots: Vec<usize> = (0..random.below(5)).map(|_| random.between(1, 6)).collect();
        Trace::any(random, ports, &slots)
    }

    /// Those of no, one and more bodies, on shelves of every size.
    pub fn of_every_size(random: &mut Random) -> Vec<Trace> {
        let slots: [&[usize]; 4] = [&[], &[1], &[2, 1], &[1, 3, 1, 2]];
        (1..=MOST_PORTS)
            .flat_map(|ports| slots.map(|slots| (ports, slots)))
            .map(|(ports, slots)| Trace::any(random, ports, slots))
            .collect()
    }

    pub fn layout(&self) -> Layout {
        let entry = |body: &Body| Entry {
            first: body.first,
            slots: body.blocks.len() as u16,
            offset: 0,
        };
        let mut layout = Layout {
            ports: self.ports as u8,
            count: self.bodies.len() as u16,
            entries: self.bodies.iter().map(entry).collect(),
            bodies: self.bodies.iter().map(Body::bytes).collect(),
        };
        layout.close_up();
        layout
    }

    pub fn file(&self) -> Vec<u8> {
        self.layout().file()
    }

    /// The trace that a file is.
    pub fn read(file: &[u8]) -> Option<Trace> {
        let Contents { ports, entries } = Contents::read(file, file.len())?;
        let mut rest = &file[contents_len(entries.len())..];
        let mut bodies = Vec::new();
        for entry in entries {
            let slots = usize::from(entry.slots);
            let (body, behind) = rest.split_at_checked(body_len(ports, slots))?;
            bodies.push(Body::read(ports, entry.first, slots, body)?);
            rest = behind;
        }
        Some(Trace { ports, bodies })
    }
}
