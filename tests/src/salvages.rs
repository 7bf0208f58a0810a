//! A salvage of our own, from document 02, item 13, alone, and the library's call, made with
//! guarded memory and seen to answer as ours does.

use crate::calls;
use crate::frames::check_is_right;
use crate::lent::Lent;
use crate::traces::{body_len, Body, Contents, Entry, Trace};

pub const SALVAGE_WORDS: usize = 2;

/// What becomes of a body, in the numbers of the C form.
pub const KEPT: u8 = 0;
pub const SHORT: u8 = 1;
pub const CHECK: u8 = 2;
pub const FORM: u8 = 3;

/// The new trace of a damaged one, and what became of each body of the old.
#[derive(Clone, Debug, PartialEq)]
pub struct Salvaged {
    pub file: Vec<u8>,
    pub fates: Vec<u8>,
}

/// The body that an entry names, or why there is none.
fn body_of(ports: usize, entry: Entry, file: &[u8]) -> Result<Body, u8> {
    let slots = usize::from(entry.slots);
    let from = file.get(entry.offset as usize..).ok_or(SHORT)?;
    let bytes = from.get(..body_len(ports, slots)).ok_or(SHORT)?;
    if !check_is_right(bytes) {
        return Err(CHECK);
    }
    Body::read(ports, entry.first, slots, bytes).ok_or(FORM)
}

/// Of any bytes; none if the contents or their check are wrong.
pub fn salvaged(file: &[u8]) -> Option<Salvaged> {
    let (Contents { ports, entries }, _) = Contents::found(file)?;
    let found = entries.iter().map(|&entry| body_of(ports, entry, file));
    let found: Vec<Result<Body, u8>> = found.collect();
    let fates = found.iter().map(|body| body.as_ref().err().copied());
    let fates = fates.map(|fault| fault.unwrap_or(KEPT)).collect();
    let bodies = found.into_iter().flatten().collect();
    let file = Trace { ports, bodies }.file();
    Some(Salvaged { file, fates })
}

/// The number, and what was lent to be written, as the call leaves it.
#[derive(Clone, Debug, PartialEq)]
pub struct Answer {
    pub number: u32,
    pub out: Vec<u8>,
    pub fates: Vec<u8>,
    pub shown: Vec<u32>,
}

/// Puts these in front of what was there.
fn over(front: &[u8], kept: &[u8]) -> Vec<u8> {
    [front, &kept[front.len()..]].concat()
}

fn promised(file: &[u8], out: &[u8], fates: &[u8], shown: &[u32]) -> Answer {
    let declined = |number| Answer {
        number,
        out: out.to_vec(),
        fates: fates.to_vec(),
        shown: shown.to_vec(),
    };
    match salvaged(file) {
        _ if shown.len() != SALVAGE_WORDS => declined(8),
        None => declined(14),
        Some(made) if fates.len() < made.fates.len() => declined(7),
        Some(made) if out.len() < made.file.len() => declined(7),
        Some(made) => Answer {
            number: 0,
            out: over(&made.file, out),
            fates: over(&made.fates, fates),
            shown: vec![made.file.len() as u32, made.fates.len() as u32],
        },
    }
}

/// The call on copies of what is lent, once it is seen to answer as we do and to leave the file
/// alone.
pub fn agreed(file: &[u8], out: &[u8], fates: &[u8], shown: &[u32]) -> Answer {
    let lent = Lent::new(file);
    let (mut made, mut told, mut words) = (Lent::new(out), Lent::new(fates), Lent::new(shown));
    let number = calls::salvage(&lent, made.lend(), told.lend(), words.lend());
    assert!(lent.back() == file, "the file was changed");
    let answer = Answer {
        number,
        out: made.back(),
        fates: told.back(),
        shown: words.back(),
    };
    let promised = promised(file, out, fates, shown);
    assert!(
        answer == promised,
        "{file:02X?}\n  was answered {answer:02X?}\n  and not      {promised:02X?}"
    );
    answer
}

/// What the library salvages, given room; none if it declines the contents.
pub fn library_salvaged(file: &[u8]) -> Option<Salvaged> {
    let room = vec![0xB7; file.len()];
    let answer = agreed(file, &room, &[0x5A; 1024], &[7; SALVAGE_WORDS]);
    (answer.number == 0).then(|| Salvaged {
        file: answer.out[..answer.shown[0] as usize].to_vec(),
        fates: answer.fates[..answer.shown[1] as usize].to_vec(),
    })
}
