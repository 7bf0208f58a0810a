//! Frames of our own: check, configuration and grants, written from documents 01 and 02 alone.

use std::sync::OnceLock;

pub const CONFIG_LEN: usize = 11;
pub const GRANT_LEN: usize = 5;
pub const HELD_LEN: usize = 7;
pub const CONFIG_TYPE: u8 = 1;
pub const GRANT_TYPE: u8 = 2;
pub const HELD_TYPE: u8 = 3;

/// x^16 + x^12 + x^5 + 1, the highest power first.
const DIVISOR: [bool; 17] = {
    let mut bits = [false; 17];
    bits[0] = true;
    bits[16 - 12] = true;
    bits[16 - 5] = true;
    bits[16] = true;
    bits
};

/// The remainder of one byte followed by sixteen zero bits, by long division.
fn remainder(byte: u8) -> u16 {
    let mut bits = [false; 24];
    for (k, bit) in bits[..8].iter_mut().enumerate() {
        *bit = byte & (0x80 >> k) != 0;
    }
    for lead in 0..8 {
        if bits[lead] {
            for (bit, divisor) in bits[lead..].iter_mut().zip(DIVISOR) {
                *bit ^= divisor;
            }
        }
    }
    bits[8..]
        .iter()
        .fold(0, |word, &bit| word * 2 + u16::from(bit))
}

fn remainders() -> &'static [u16; 256] {
    static TABLE: OnceLock<[u16; 256]> = OnceLock::new();
    TABLE.get_or_init(|| std::array::from_fn(|byte| remainder(byte as u8)))
}

/// The check over these bytes: a byte at a time from a table of remainders.
pub fn check(bytes: &[u8]) -> u16 {
    let table = remainders();
    bytes.iter().fold(0xFFFF, |sum: u16, byte| {
        let [high, low] = sum.to_be_bytes();
        table[usize::from(high ^ byte)] ^ u16::from_be_bytes([low, 0])
    })
}

/// These bytes with their check behind them.
pub fn sealed(mut bytes: Vec<u8>) -> Vec<u8> {
    let check = check(&bytes);
    bytes.extend(check.to_be_bytes());
    bytes
}

pub(crate) fn check_is_right(frame: &[u8]) -> bool {
    let (body, end) = frame.split_at(frame.len() - 2);
    check(body).to_be_bytes() == end
}

#[derive(Clone, Copy, Debug, Default, PartialEq)]
pub struct Config {
    pub req: u16,
    pub pre: u16,
    pub ben: u16,
    pub qen: u16,
}

impl Config {
    /// Asks for these targets, plans nothing and disables nobody.
    pub fn asking(req: u16) -> Config {
        Config {
            req,
            pre: 0,
            ben: 0xFFFF,
            qen: 0xFFFF,
        }
    }

    pub fn part(self) -> Vec<u8> {
        [self.req, self.pre, self.ben, self.qen]
            .iter()
            .flat_map(|field| field.to_be_bytes())
            .collect()
    }

    pub fn frame(self) -> Vec<u8> {
        sealed([vec![CONFIG_TYPE], self.part()].concat())
    }

    /// The fields, or the number that refuses the frame.
    pub fn read(frame: &[u8]) -> Result<Config, u32> {
        if frame.len() != CONFIG_LEN {
            return Err(8);
        }
        if frame[0] != CONFIG_TYPE {
            return Err(9);
        }
        if !check_is_right(frame) {
            return Err(10);
        }
        let field = |at: usize| u16::from_be_bytes([frame[at], frame[at + 1]]);
        Ok(Config {
            req: field(1),
            pre: field(3),
            ben: field(5),
            qen: field(7),
        })
    }
}

/// The flags byte of a grant: gntVal, linkErr and CRCErr from bit 0 on.
fn flag_byte(flags: [bool; 3]) -> u8 {
    (0..3).map(|bit| u8::from(flags[bit]) << bit).sum()
}

/// The fields of a grant of type 2 as numbers of any size; not every one can be framed.
#[derive(Clone, Copy, Debug, PartialEq)]
pub struct Grant {
    pub node_id: u32,
    pub gnt: u32,
    pub gnt_val: bool,
    pub link_err: bool,
    pub crc_err: bool,
}

impl Grant {
    pub fn fits(self) -> bool {
        self.node_id <= 15 && self.gnt <= 15 && (self.gnt_val || self.gnt == 0)
    }

    /// The frame's bytes; of a grant that fits.
    pub fn frame(self) -> Vec<u8> {
        assert!(self.fits());
        sealed(vec![
            GRANT_TYPE,
            (self.node_id * 16 + self.gnt) as u8,
            flag_byte([self.gnt_val, self.link_err, self.crc_err]),
        ])
    }

    /// The fields, or the number that refuses the frame.
    pub fn read(frame: &[u8]) -> Result<Grant, u32> {
        if frame.len() != GRANT_LEN {
            return Err(8);
        }
        if frame[0] != GRANT_TYPE {
            return Err(9);
        }
        if !check_is_right(frame) {
            return Err(10);
        }
        let grant = Grant {
            node_id: u32::from(frame[1] / 16),
            gnt: u32::from(frame[1] % 16),
            gnt_val: frame[2] & 1 != 0,
            link_err: frame[2] & 2 != 0,
            crc_err: frame[2] & 4 != 0,
        };
        if frame[2] >= 8 || !grant.fits() {
            return Err(11);
        }
        Ok(grant)
    }
}

/// The fields of a grant of type 3, which tells all that is held; not every one can be framed.
#[derive(Clone, Copy, Debug, PartialEq)]
pub struct Held {
    pub node_id: u32,
    pub gnt_val: bool,
    pub link_err: bool,
    pub crc_err: bool,
    pub set: u16,
}

impl Held {
    pub fn fits(self) -> bool {
        self.node_id <= 15 && self.gnt_val == (self.set != 0)
    }

    /// The frame's bytes; of a grant that fits.
    pub fn frame(self) -> Vec<u8> {
        assert!(self.fits());
        let flags = flag_byte([self.gnt_val, self.link_err, self.crc_err]);
        let [high, low] = self.set.to_be_bytes();
        sealed(vec![HELD_TYPE, self.node_id as u8, flags, high, low])
    }

    /// The fields, or the number that refuses the frame.
    pub fn read(frame: &[u8]) -> Result<Held, u32> {
        if frame.len() != HELD_LEN {
            return Err(8);
        }
        if frame[0] != HELD_TYPE {
            return Err(9);
        }
        if !check_is_right(frame) {
            return Err(10);
        }
        let held = Held {
            node_id: u32::from(frame[1]),
            gnt_val: frame[2] & 1 != 0,
            link_err: frame[2] & 2 != 0,
            crc_err: frame[2] & 4 != 0,
            set: u16::from_be_bytes([frame[3], frame[4]]),
        };
        if frame[2] >= 8 || !held.fits() {
            return Err(11);
        }
        Ok(held)
    }
}

#[cfg(test)]
mod tests {
    use super::*;

    #[test]
    fn check_of_the_nine_digits_is_29b1() {
        assert_eq!(check(b"123456789"), 0x29B1);
    }

    #[test]
    fn check_of_nothing_is_the_start() {
        assert_eq!(check(b""), 0xFFFF);
    }
}
