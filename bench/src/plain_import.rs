//! The import of a capture in plain fast Rust: a pass that tests and counts, so that nothing is
//! written where it is refused, and one that writes.

use crate::plain_check::by;

const HEADER: usize = 24;
const RECORD: usize = 32;
const FRAME: usize = 11;
const MOST_SLOTS: usize = 360;
const MOST_BODIES: usize = 1024;

/// The low byte of each number first or last, by the magic; the link type is 147.
fn low_first(capture: &[u8]) -> Option<bool> {
    let header = capture.first_chunk::<HEADER>()?;
    let low = match header[..4] {
        [0xD4, 0xC3, 0xB2, 0xA1] => true,
        [0xA1, 0xB2, 0xC3, 0xD4] => false,
        _ => return None,
    };
    let word = [header[20], header[21], header[22], header[23]];
    let link = if low {
        u32::from_le_bytes(word)
    } else {
        u32::from_be_bytes(word)
    };
    (link << 4 == 147 << 4).then_some(low)
}

/// How a packet stands to those before it.
enum Kind {
    Resent,
    SameSlot,
    NextSlot,
    NewBody,
}

/// What is known of the packets so far.
struct Progress {
    last: u32,
    hosts: u32,
    /// Of the open body; 0 before the first packet.
    slots: usize,
    bodies: usize,
    all_slots: usize,
    resent: u32,
}

impl Progress {
    fn new() -> Progress {
        Progress {
            last: 0,
            hosts: 0,
            slots: 0,
            bodies: 0,
            all_slots: 0,
            resent: 0,
        }
    }

    /// Nothing if the slot is stale.
    #[inline(always)]
    fn take(&mut self, slot: u32, host: u32) -> Option<Kind> {
        let ahead = slot.wrapping_sub(self.last);
        let bit = 1 << host;
        if self.slots != 0 {
            if ahead == 0 {
                let resent = self.hosts & bit != 0;
                self.hosts |= bit;
                self.resent = self.resent.wrapping_add(resent.into());
                return Some(if resent { Kind::Resent } else { Kind::SameSlot });
            }
            if ahead >= 1 << 31 {
                return None;
            }
        }
        (self.last, self.hosts) = (slot, bit);
        self.all_slots += 1;
        if ahead == 1 && (1..MOST_SLOTS).contains(&self.slots) {
            self.slots += 1;
            return Some(Kind::NextSlot);
        }
        self.slots = 1;
        self.bodies += 1;
        Some(Kind::NewBody)
    }
}

fn slot_of(record: &[u8; RECORD]) -> u32 {
    u32::from_be_bytes([record[16], record[17], record[18], record[19]])
}

/// The pass that tests.
fn counted(n: usize, low: bool, records: &[[u8; RECORD]]) -> Option<Progress> {
    let captured = if low { [16, 0, 0, 0] } else { [0, 0, 0, 16] };
    let mut progress = Progress::new();
    for record in records {
        if record[8..12] != captured || usize::from(record[20]) >= n {
            return None;
        }
        progress.take(slot_of(record), record[20].into())?;
    }
    (progress.bodies <= MOST_BODIES).then_some(progress)
}

/// The open body: where it starts, where its last block does, and its first slot.
struct Open {
    start: usize,
    block: usize,
    first: u32,
}

/// A trace in the making. `fields` are the mode and the first offsets.
struct Writer<'a> {
    n: usize,
    fields: [usize; 3],
    out: &'a mut [u8],
    open: Open,
}

impl Writer<'_> {
    fn blank(&mut self, block: usize) {
        self.open.block = block;
        self.out[block..][..FRAME * self.n].fill(0);
    }

    /// Checks the open body, of so many slots, and writes entry k of it.
    fn close(&mut self, k: usize, slots: usize) {
        let Open {
            start,
            block,
            first,
        } = self.open;
        let end = block + FRAME * self.n;
        let check = by::<16>(&self.out[start..end]);
        self.out[end..end + 2].copy_from_slice(&check.to_be_bytes());
        let entry = &mut self.out[3 + 10 * k..][..10];
        entry[..4].copy_from_slice(&first.to_be_bytes());
        entry[4..6].copy_from_slice(&(slots as u16).to_be_bytes());
        entry[6..].copy_from_slice(&(start as u32).to_be_bytes());
        self.open.start = end + 2;
    }

    /// Of the slot that was taken last.
    fn begin(&mut self, progress: &Progress) {
        let ([mode, i, j], n) = (self.fields, self.n);
        let turn = j * n + i + progress.all_slots - 1;
        let fields = [mode, turn % n, turn / n % n].map(|field| field as u8);
        self.out[self.open.start..][..3].copy_from_slice(&fields);
        self.open.first = progress.last;
        self.blank(self.open.start + 3);
    }

    fn contents(&mut self, bodies: usize) {
        let end = 3 + 10 * bodies;
        self.out[0] = self.n as u8;
        self.out[1..3].copy_from_slice(&(bodies as u16).to_be_bytes());
        let check = by::<16>(&self.out[..end]);
        self.out[end..end + 2].copy_from_slice(&check.to_be_bytes());
    }
}

/// The pass that writes.
fn write(n: usize, fields: [usize; 3], records: &[[u8; RECORD]], bodies: usize, out: &mut [u8]) {
    let open = Open {
        start: 5 + 10 * bodies,
        block: 0,
        first: 0,
    };
    let mut writer = Writer {
        n,
        fields,
        out,
        open,
    };
    let mut progress = Progress::new();
    for record in records {
        let slots = progress.slots;
        match progress.take(slot_of(record), record[20].into()) {
            None | Some(Kind::Resent) => continue,
            Some(Kind::SameSlot) => {}
            Some(Kind::NextSlot) => writer.blank(writer.open.block + FRAME * n),
            Some(Kind::NewBody) => {
                if slots != 0 {
                    writer.close(progress.bodies - 2, slots);
                }
                writer.begin(&progress);
            }
        }
        let at = writer.open.block + FRAME * usize::from(record[20]);
        writer.out[at..at + FRAME].copy_from_slice(&record[21..]);
    }
    if progress.slots != 0 {
        writer.close(bodies - 1, progress.slots);
    }
    writer.contents(bodies);
}

/// As the C call, which has its numbers apart: n, mode, I and J.
pub fn import(numbers: [u32; 4], capture: &[u8], out: &mut [u8], report: &mut [u8]) -> u32 {
    let [n, mode, i, j] = numbers.map(|number| number as usize);
    match (report.len(), n) {
        (8, 1..=16) => {}
        (8, _) => return 1,
        _ => return 8,
    }
    if i >= n || j >= n {
        return 2;
    }
    if mode > 17 {
        return 5;
    }
    let Some(low) = low_first(capture) else {
        return 18;
    };
    let (records, []) = capture[HEADER..].as_chunks::<RECORD>() else {
        return 18;
    };
    let Some(progress) = counted(n, low, records) else {
        return 18;
    };
    let len = 5 + 15 * progress.bodies + FRAME * n * progress.all_slots;
    if out.len() < len {
        return 7;
    }
    write(n, [mode, i, j], records, progress.bodies, out);
    report[..4].copy_from_slice(&(len as u32).to_be_bytes());
    report[4..].copy_from_slice(&progress.resent.to_be_bytes());
    0
}
