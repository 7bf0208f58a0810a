//! The proved checks and the central rule alone, as libmeasured.a exports them: no part of the C
//! form.

extern "C" {
    fn measured_crc(bytes: *const u8, len: usize) -> u16;
    fn measured_long_crc(bytes: *const u8, len: usize) -> u16;
    fn measured_checks(bytes: *const u8, len: usize) -> u16;
    fn measured_plain(
        n: u32,
        initiator: u32,
        target: u32,
        live: *const u8,
        live_len: usize,
        sets: *mut u8,
        sets_len: usize,
    );
    fn measured_columns(
        n: u32,
        initiator: u32,
        target: u32,
        live: *const u8,
        live_len: usize,
        sets: *mut u8,
        sets_len: usize,
    );
}

pub fn check(bytes: &[u8]) -> u16 {
    // sound: the callee reads just the bytes that pointer and length show
    unsafe { measured_crc(bytes.as_ptr(), bytes.len()) }
}

pub fn long_check(bytes: &[u8]) -> u16 {
    // sound: as above
    unsafe { measured_long_crc(bytes.as_ptr(), bytes.len()) }
}

/// All checks of one slot of 16 ports.
pub fn checks(bytes: &[u8]) -> u16 {
    // sound: as above
    unsafe { measured_checks(bytes.as_ptr(), bytes.len()) }
}

/// The plain rule 5 on n ports with offsets I and J, from the table of live requests to that of the
/// sets held.
pub fn plain_rule([n, i, j]: [usize; 3], live: &[u8], sets: &mut [u8]) {
    let (live, sets) = ((live.as_ptr(), live.len()), (sets.as_mut_ptr(), sets.len()));
    // sound: pointers show the bytes of slices, of which only the sets may be written
    unsafe { measured_plain(n as u32, i as u32, j as u32, live.0, live.1, sets.0, sets.1) }
}

/// The same by columns.
pub fn column_rule([n, i, j]: [usize; 3], live: &[u8], sets: &mut [u8]) {
    let (live, sets) = ((live.as_ptr(), live.len()), (sets.as_mut_ptr(), sets.len()));
    // sound: as above
    unsafe { measured_columns(n as u32, i as u32, j as u32, live.0, live.1, sets.0, sets.1) }
}
