//! The salvage of a damaged trace in plain Rust: the entries are read once, each body is checked
//! where it stands, and those kept are copied behind their contents.

use crate::plain_check::by;

const HEAD: usize = 3;
const ENTRY: usize = 10;
const CHECK: usize = 2;
const FRAME: usize = 11;

#[derive(Clone, Copy)]
struct Entry {
    first: u32,
    slots: u16,
    start: usize,
    end: usize,
}

/// The check over bytes that end with their own is 0.
fn intact(bytes: &[u8]) -> bool {
    by::<16>(bytes) == 0
}

fn word(bytes: &[u8], at: usize) -> u16 {
    u16::from_be_bytes([bytes[at], bytes[at + 1]])
}

fn long(bytes: &[u8], at: usize) -> u32 {
    u32::from_be_bytes([bytes[at], bytes[at + 1], bytes[at + 2], bytes[at + 3]])
}

fn body_len(ports: usize, slots: u16) -> usize {
    3 + usize::from(slots) * ports * FRAME + CHECK
}

/// Of sound contents.
fn entries(file: &[u8]) -> Option<Vec<Entry>> {
    let ports = usize::from(*file.first()?);
    let count = usize::from(word(file.get(..HEAD)?, 1));
    let end = HEAD + count * ENTRY + CHECK;
    let contents = file.get(..end)?;
    if !(1..=16).contains(&ports) || count > 1024 || !intact(contents) {
        return None;
    }
    let mut entries = Vec::with_capacity(count);
    let mut due = end;
    for bytes in contents[HEAD..end - CHECK].chunks_exact(ENTRY) {
        let (first, slots, start) = (long(bytes, 0), word(bytes, 4), long(bytes, 6) as usize);
        if !(1..=360).contains(&slots) || start != due {
            return None;
        }
        due += body_len(ports, slots);
        entries.push(Entry {
            first,
            slots,
            start,
            end: due,
        });
    }
    Some(entries)
}

/// 0 for a body that is kept, or 1, 2 and 3 for one that is short, of a wrong check or form.
fn fate(ports: u8, body: Option<&[u8]>) -> u8 {
    match body {
        None => 1,
        Some(body) if !intact(body) => 2,
        Some(body) if body[0] > 17 || body[1].max(body[2]) >= ports => 3,
        Some(_) => 0,
    }
}

/// The new trace's length, or none where the contents are wrong or there is too little room.
pub fn salvage(file: &[u8], out: &mut [u8], fates: &mut [u8]) -> Option<usize> {
    let entries = entries(file)?;
    let told = fates.get_mut(..entries.len())?;
    for (entry, told) in entries.iter().zip(told.iter_mut()) {
        *told = fate(file[0], file.get(entry.start..entry.end));
    }
    let kept = entries.iter().zip(told).filter(|(_, told)| **told == 0);
    let kept: Vec<Entry> = kept.map(|(entry, _)| *entry).collect();
    let end = HEAD + kept.len() * ENTRY + CHECK;
    let len = kept
        .iter()
        .map(|entry| entry.end - entry.start)
        .sum::<usize>()
        + end;
    let out = out.get_mut(..len)?;
    out[0] = file[0];
    out[1..HEAD].copy_from_slice(&(kept.len() as u16).to_be_bytes());
    let mut at = end;
    for (k, entry) in kept.iter().enumerate() {
        let bytes = &mut out[HEAD + k * ENTRY..][..ENTRY];
        bytes[..4].copy_from_slice(&entry.first.to_be_bytes());
        bytes[4..6].copy_from_slice(&entry.slots.to_be_bytes());
        bytes[6..].copy_from_slice(&(at as u32).to_be_bytes());
        let body = &file[entry.start..entry.end];
        out[at..at + body.len()].copy_from_slice(body);
        at += body.len();
    }
    let check = by::<16>(&out[..end - CHECK]).to_be_bytes();
    out[end - CHECK..end].copy_from_slice(&check);
    Some(len)
}
