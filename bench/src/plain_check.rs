//! The check over a long slice in plain Rust: a table for each of the bytes that are taken at a
//! time. What waits for the check before comes last, which nearly halves the time.

const MOST: usize = 32;

static TABLES: [[u16; 256]; MOST] = tables();

/// Table k: what a byte makes of the check when k bytes follow it.
const fn tables() -> [[u16; 256]; MOST] {
    let mut tables = [[0; 256]; MOST];
    let mut byte = 0;
    while byte < 256 {
        let mut check = passed((byte as u16) << 8);
        let mut k = 0;
        while k < MOST {
            tables[k][byte] = check;
            check = passed(check);
            k += 1;
        }
        byte += 1;
    }
    tables
}

/// The check after a byte of zeros.
const fn passed(mut check: u16) -> u16 {
    let mut bit = 0;
    while bit < 8 {
        let out = check & 0x8000 != 0;
        check = (check << 1) ^ if out { 0x1021 } else { 0 };
        bit += 1;
    }
    check
}

/// By N bytes at a time, N from 2 to 32.
#[inline(never)]
pub fn by<const N: usize>(bytes: &[u8]) -> u16 {
    let mut check: u16 = 0xFFFF;
    let mut parts = bytes.chunks_exact(N);
    for part in &mut parts {
        let mut later = 0;
        for k in 2..N {
            later ^= TABLES[N - 1 - k][usize::from(part[k])];
        }
        let [high, low] = check.to_be_bytes();
        let first = TABLES[N - 1][usize::from(part[0] ^ high)];
        check = later ^ (first ^ TABLES[N - 2][usize::from(part[1] ^ low)]);
    }
    for byte in parts.remainder() {
        let [high, low] = check.to_be_bytes();
        check = TABLES[0][usize::from(byte ^ high)] ^ u16::from_be_bytes([low, 0]);
    }
    check
}
