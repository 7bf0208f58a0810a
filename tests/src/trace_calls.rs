//! The trace calls: what document 02, item 3, promises of each over our own traces, and each made
//! with guarded memory and seen to keep it. An answer is the number with what was lent to be
//! written, as the call leaves it.

use std::fmt::Debug;

use crate::calls;
use crate::frames::CONFIG_LEN;
use crate::lent::{Lent, Unit};
use crate::promises::written;
use crate::scheduler::MOST_PORTS;
use crate::slots::TABLE_LEN;
use crate::traces::{
    self, body_len, contents_len, Body, Contents, Trace, MOST_BODIES, MOST_BODY_SLOTS,
};

pub const HEAD_WORDS: usize = 2;
pub const BODY_WORDS: usize = 4;

pub type Words = (u32, Vec<u32>);
pub type Bytes = (u32, Vec<u8>);

/// Makes a call over `read`, which it is to leave alone, and a copy of `kept`.
fn called<T: Unit>(
    read: &[u8],
    kept: &[T],
    call: impl FnOnce(&[u8], &mut [T]) -> u32,
) -> (u32, Vec<T>) {
    let (lent, mut written) = (Lent::new(read), Lent::new(kept));
    let number = call(&lent, written.lend());
    assert!(lent.back() == read, "what was lent to be read was changed");
    (number, written.back())
}

fn agreed<T: PartialEq + Debug>(what: &dyn Debug, answer: T, promised: T) -> T {
    assert!(
        answer == promised,
        "{what:02X?}\n  was answered {answer:?}\n  and not      {promised:?}"
    );
    answer
}

/// So many words are shown, if there are any to show.
fn shown(found: Option<Vec<u32>>, words: usize, kept: &[u32]) -> Words {
    match found {
        _ if kept.len() != words => (8, kept.to_vec()),
        Some(words) => (0, words),
        None => (14, kept.to_vec()),
    }
}

/// Bytes are written, if there are any to write and room for them.
fn put(made: Option<Vec<u8>>, kept: &[u8]) -> Bytes {
    match made {
        Some(bytes) => written(bytes, kept),
        None => (14, kept.to_vec()),
    }
}

// The reader

pub fn trace(file: &[u8], kept: &[u32]) -> Words {
    let answer = called(file, kept, calls::trace);
    let found = Trace::read(file).map(|trace| vec![trace.ports as u32, trace.bodies.len() as u32]);
    agreed(&file, answer, shown(found, HEAD_WORDS, kept))
}

pub fn trace_body(file: &[u8], k: u32, kept: &[u32]) -> Words {
    let answer = called(file, kept, |file, place| calls::trace_body(file, k, place));
    let found = Trace::read(file).and_then(|trace| {
        let entries = trace.layout().entries;
        Some(entries.get(k as usize)?.words(trace.ports))
    });
    agreed(&(k, file), answer, shown(found, BODY_WORDS, kept))
}

pub fn contents(start: &[u8], file_len: usize, kept: &[u32]) -> Words {
    let answer = called(start, kept, |start, shown| {
        calls::contents(start, file_len, shown)
    });
    let found = Contents::read(start, file_len)
        .map(|contents| vec![contents.ports as u32, contents.entries.len() as u32]);
    agreed(&(file_len, start), answer, shown(found, HEAD_WORDS, kept))
}

pub fn entry(start: &[u8], k: u32, kept: &[u32]) -> Words {
    let answer = called(start, kept, |start, place| calls::entry(start, k, place));
    let found = entry_there(start, k);
    agreed(&(k, start), answer, shown(found, BODY_WORDS, kept))
}

/// Entry k as it stands, whether or not it is sound.
fn entry_there(start: &[u8], k: u32) -> Option<Vec<u32>> {
    let (&[ports, high, low], entries) = start.split_first_chunk()?;
    let ports = usize::from(ports);
    let known = (1..=MOST_PORTS).contains(&ports) && k < u32::from(u16::from_be_bytes([high, low]));
    let mut rest = entries.chunks(10).nth(k as usize).filter(|_| known)?;
    Some(traces::entry(&mut rest)?.words(ports))
}

// The replay of a body

/// All that it is lent to read.
#[derive(Clone, Debug)]
pub struct Replay {
    pub n: u32,
    pub first: u32,
    pub slots: u32,
    pub body: Vec<u8>,
}

impl Replay {
    pub fn of(body: &Body, ports: usize) -> Replay {
        Replay {
            n: ports as u32,
            first: body.first,
            slots: body.blocks.len() as u32,
            body: body.bytes(),
        }
    }

    fn promised(&self) -> Option<Vec<u8>> {
        let (n, slots) = (self.n as usize, self.slots as usize);
        Some(Body::read(n, self.first, slots, &self.body)?.tables(n))
    }

    pub fn agreed(&self, kept: &[u8]) -> Bytes {
        let answer = called(&self.body, kept, |body, tables| {
            calls::replay(self.n, self.first, self.slots, body, tables)
        });
        agreed(self, answer, put(self.promised(), kept))
    }
}

/// A body of a file: where it is, and its tables.
#[derive(Debug, PartialEq)]
pub struct Found {
    pub place: Vec<u32>,
    pub tables: Vec<u8>,
}

/// A file as the header goes through it, with the contents and one body at a time: its bodies, or
/// the number that refuses it.
pub fn body_by_body(file: &[u8]) -> Result<Vec<Found>, u32> {
    let count = match file {
        [_, high, low, ..] => usize::from(u16::from_be_bytes([*high, *low])),
        _ => 0,
    };
    let start = &file[..contents_len(count).min(file.len())];
    let (number, shown) = contents(start, file.len(), &[7; HEAD_WORDS]);
    if number != 0 {
        return Err(number);
    }
    let bodies = 0..shown[1];
    bodies
        .map(|k| {
            let (number, place) = entry(start, k, &[7; BODY_WORDS]);
            assert_eq!(number, 0, "an entry of sound contents was not shown");
            let tables = replayed(shown[0], &place, file)?;
            Ok(Found { place, tables })
        })
        .collect()
}

fn replayed(n: u32, place: &[u32], file: &[u8]) -> Result<Vec<u8>, u32> {
    let [first, slots, offset, len] = place[..] else {
        unreachable!("four words")
    };
    let replay = Replay {
        n,
        first,
        slots,
        body: file[offset as usize..][..len as usize].to_vec(),
    };
    match replay.agreed(&vec![0xB7; TABLE_LEN * slots as usize]) {
        (0, tables) => Ok(tables),
        (number, _) => Err(number),
    }
}

// The writers

/// All that sealing a body is lent to read.
#[derive(Clone, Debug)]
pub struct Seal {
    pub n: u32,
    pub slots: u32,
    pub mode: u32,
    pub i: u32,
    pub j: u32,
    pub blocks: Vec<u8>,
}

impl Seal {
    pub fn of(body: &Body, ports: usize) -> Seal {
        Seal {
            n: ports as u32,
            slots: body.blocks.len() as u32,
            mode: body.mode.into(),
            i: body.initiator.into(),
            j: body.target.into(),
            blocks: body.blocks.concat(),
        }
    }

    fn promised(&self) -> Option<Vec<u8>> {
        let block_len = self.n as usize * CONFIG_LEN;
        let fits = (1..=MOST_PORTS as u32).contains(&self.n)
            && (1..=MOST_BODY_SLOTS as u32).contains(&self.slots)
            && self.mode <= 17
            && self.i.max(self.j) < self.n
            && self.blocks.len() == self.slots as usize * block_len;
        fits.then(|| {
            let body = Body {
                first: 0,
                mode: self.mode as u8,
                initiator: self.i as u8,
                target: self.j as u8,
                blocks: self.blocks.chunks(block_len).map(<[u8]>::to_vec).collect(),
            };
            body.bytes()
        })
    }

    pub fn agreed(&self, kept: &[u8]) -> Bytes {
        let answer = called(&self.blocks, kept, |blocks, out| {
            calls::seal_body(self.n, self.slots, self.mode, self.i, self.j, blocks, out)
        });
        agreed(self, answer, put(self.promised(), kept))
    }
}

/// All that writing a trace is lent to read.
#[derive(Clone, Debug)]
pub struct Writing {
    pub n: u32,
    pub firsts: Vec<u32>,
    pub slots: Vec<u16>,
    pub bodies: Vec<u8>,
}

impl Writing {
    pub fn of(trace: &Trace) -> Writing {
        let bodies = trace.bodies.iter();
        Writing {
            n: trace.ports as u32,
            firsts: bodies.clone().map(|body| body.first).collect(),
            slots: bodies
                .clone()
                .map(|body| body.blocks.len() as u16)
                .collect(),
            bodies: bodies.flat_map(Body::bytes).collect(),
        }
    }

    fn promised(&self) -> Option<Vec<u8>> {
        let ports = self.n as usize;
        let fits = (1..=MOST_PORTS).contains(&ports)
            && self.firsts.len() == self.slots.len()
            && self.slots.len() <= MOST_BODIES;
        let mut rest = fits.then_some(&self.bodies[..])?;
        let mut bodies = Vec::new();
        for (&first, &slots) in self.firsts.iter().zip(&self.slots) {
            let slots = usize::from(slots);
            let (body, behind) = rest.split_at_checked(body_len(ports, slots))?;
            bodies.push(Body::read(ports, first, slots, body)?);
            rest = behind;
        }
        rest.is_empty().then(|| Trace { ports, bodies }.file())
    }

    pub fn agreed(&self, kept: &[u8]) -> Bytes {
        let (firsts, slots) = (Lent::new(&self.firsts), Lent::new(&self.slots));
        let answer = called(&self.bodies, kept, |bodies, out| {
            calls::write_trace(self.n, &firsts, &slots, bodies, out)
        });
        assert_eq!(firsts.back(), self.firsts, "the first slots were changed");
        assert_eq!(slots.back(), self.slots, "the slot counts were changed");
        agreed(self, answer, put(self.promised(), kept))
    }
}
