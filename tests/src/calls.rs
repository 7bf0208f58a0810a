//! The C form's calls, made safe: a slice stands for each pointer and its length.

use std::ffi::c_uchar;

/// The slot call as C sees it.
pub type SlotCall = unsafe extern "C" fn(
    state: *mut c_uchar,
    state_len: usize,
    slot: u32,
    mode: u32,
    block: *const c_uchar,
    block_len: usize,
    link: u16,
    out: *mut c_uchar,
    out_len: usize,
    table: *mut c_uchar,
    table_len: usize,
) -> u32;

extern "C" {
    fn bellacush_fresh(
        n: u32,
        due: u32,
        operators: *const c_uchar,
        operators_len: usize,
        state: *mut c_uchar,
        state_len: usize,
    ) -> u32;
    fn bellacush_slot(
        state: *mut c_uchar,
        state_len: usize,
        slot: u32,
        mode: u32,
        block: *const c_uchar,
        block_len: usize,
        link: u16,
        out: *mut c_uchar,
        out_len: usize,
        table: *mut c_uchar,
        table_len: usize,
    ) -> u32;
    fn bellacush_read_config(
        frame: *const c_uchar,
        frame_len: usize,
        part: *mut c_uchar,
        part_len: usize,
    ) -> u32;
    fn bellacush_read_grant(
        frame: *const c_uchar,
        frame_len: usize,
        part: *mut c_uchar,
        part_len: usize,
    ) -> u32;
    fn bellacush_read_grant3(
        frame: *const c_uchar,
        frame_len: usize,
        part: *mut c_uchar,
        part_len: usize,
    ) -> u32;
    fn bellacush_write_config(
        req: u16,
        pre: u16,
        ben: u16,
        qen: u16,
        out: *mut c_uchar,
        out_len: usize,
    ) -> u32;
    fn bellacush_write_grant3(
        node_id: u32,
        gnt_val: u32,
        link_err: u32,
        crc_err: u32,
        set: u16,
        out: *mut c_uchar,
        out_len: usize,
    ) -> u32;
    fn bellacush_asked(
        state: *const c_uchar,
        state_len: usize,
        block: *const c_uchar,
        block_len: usize,
        table: *mut c_uchar,
        table_len: usize,
    ) -> u32;
    fn bellacush_feed(
        ledger: *mut u32,
        ledger_len: usize,
        n: u32,
        asked: *const c_uchar,
        asked_len: usize,
        connected: *const c_uchar,
        connected_len: usize,
    ) -> u32;
    fn bellacush_figures(
        ledger: *const u32,
        ledger_len: usize,
        initiator: u32,
        target: u32,
        figures: *mut u32,
        figures_len: usize,
    ) -> u32;
    fn bellacush_trace(
        file: *const c_uchar,
        file_len: usize,
        shown: *mut u32,
        shown_len: usize,
    ) -> u32;
    fn bellacush_trace_body(
        file: *const c_uchar,
        file_len: usize,
        k: u32,
        place: *mut u32,
        place_len: usize,
    ) -> u32;
    fn bellacush_contents(
        start: *const c_uchar,
        start_len: usize,
        file_len: usize,
        shown: *mut u32,
        shown_len: usize,
    ) -> u32;
    fn bellacush_entry(
        start: *const c_uchar,
        start_len: usize,
        k: u32,
        place: *mut u32,
        place_len: usize,
    ) -> u32;
    fn bellacush_replay(
        n: u32,
        first: u32,
        slots: u32,
        body: *const c_uchar,
        body_len: usize,
        tables: *mut c_uchar,
        tables_len: usize,
    ) -> u32;
    fn bellacush_seal_body(
        n: u32,
        slots: u32,
        mode: u32,
        i: u32,
        j: u32,
        blocks: *const c_uchar,
        blocks_len: usize,
        out: *mut c_uchar,
        out_len: usize,
    ) -> u32;
    fn bellacush_write_trace(
        n: u32,
        firsts: *const u32,
        firsts_len: usize,
        slots: *const u16,
        slots_len: usize,
        bodies: *const c_uchar,
        bodies_len: usize,
        out: *mut c_uchar,
        out_len: usize,
    ) -> u32;
    fn bellacush_salvage(
        file: *const c_uchar,
        file_len: usize,
        out: *mut c_uchar,
        out_len: usize,
        fates: *mut c_uchar,
        fates_len: usize,
        shown: *mut u32,
        shown_len: usize,
    ) -> u32;
}

/// The library's slot call itself, for those who call it in a way of their own.
pub const SLOT: SlotCall = bellacush_slot;

// Each call is sound for any lengths, bytes and words: a slice is valid for its length, and two
// slices lent at once do not overlap where one may be written.

pub fn fresh(n: u32, due: u32, operators: &[u8], state: &mut [u8]) -> u32 {
    unsafe {
        bellacush_fresh(
            n,
            due,
            operators.as_ptr(),
            operators.len(),
            state.as_mut_ptr(),
            state.len(),
        )
    }
}

pub fn slot(
    state: &mut [u8],
    slot: u32,
    mode: u32,
    block: &[u8],
    link: u16,
    out: &mut [u8],
    table: &mut [u8],
) -> u32 {
    slot_by(SLOT, state, slot, mode, block, link, out, table)
}

/// The same by another archive's slot call.
#[allow(clippy::too_many_arguments)] // the C form's own
pub fn slot_by(
    call: SlotCall,
    state: &mut [u8],
    slot: u32,
    mode: u32,
    block: &[u8],
    link: u16,
    out: &mut [u8],
    table: &mut [u8],
) -> u32 {
    unsafe {
        call(
            state.as_mut_ptr(),
            state.len(),
            slot,
            mode,
            block.as_ptr(),
            block.len(),
            link,
            out.as_mut_ptr(),
            out.len(),
            table.as_mut_ptr(),
            table.len(),
        )
    }
}

pub fn read_config(frame: &[u8], part: &mut [u8]) -> u32 {
    unsafe { bellacush_read_config(frame.as_ptr(), frame.len(), part.as_mut_ptr(), part.len()) }
}

pub fn read_grant(frame: &[u8], part: &mut [u8]) -> u32 {
    unsafe { bellacush_read_grant(frame.as_ptr(), frame.len(), part.as_mut_ptr(), part.len()) }
}

pub fn read_grant3(frame: &[u8], part: &mut [u8]) -> u32 {
    unsafe { bellacush_read_grant3(frame.as_ptr(), frame.len(), part.as_mut_ptr(), part.len()) }
}

pub fn write_config(req: u16, pre: u16, ben: u16, qen: u16, out: &mut [u8]) -> u32 {
    unsafe { bellacush_write_config(req, pre, ben, qen, out.as_mut_ptr(), out.len()) }
}

pub fn write_grant3(
    node_id: u32,
    gnt_val: u32,
    link_err: u32,
    crc_err: u32,
    set: u16,
    out: &mut [u8],
) -> u32 {
    unsafe {
        bellacush_write_grant3(
            node_id,
            gnt_val,
            link_err,
            crc_err,
            set,
            out.as_mut_ptr(),
            out.len(),
        )
    }
}

pub fn asked(state: &[u8], block: &[u8], table: &mut [u8]) -> u32 {
    unsafe {
        bellacush_asked(
            state.as_ptr(),
            state.len(),
            block.as_ptr(),
            block.len(),
            table.as_mut_ptr(),
            table.len(),
        )
    }
}

pub fn feed(ledger: &mut [u32], n: u32, asked: &[u8], connected: &[u8]) -> u32 {
    unsafe {
        bellacush_feed(
            ledger.as_mut_ptr(),
            ledger.len(),
            n,
            asked.as_ptr(),
            asked.len(),
            connected.as_ptr(),
            connected.len(),
        )
    }
}

pub fn figures(ledger: &[u32], initiator: u32, target: u32, figures: &mut [u32]) -> u32 {
    unsafe {
        bellacush_figures(
            ledger.as_ptr(),
            ledger.len(),
            initiator,
            target,
            figures.as_mut_ptr(),
            figures.len(),
        )
    }
}

pub fn trace(file: &[u8], shown: &mut [u32]) -> u32 {
    unsafe { bellacush_trace(file.as_ptr(), file.len(), shown.as_mut_ptr(), shown.len()) }
}

pub fn trace_body(file: &[u8], k: u32, place: &mut [u32]) -> u32 {
    unsafe {
        bellacush_trace_body(
            file.as_ptr(),
            file.len(),
            k,
            place.as_mut_ptr(),
            place.len(),
        )
    }
}

pub fn contents(start: &[u8], file_len: usize, shown: &mut [u32]) -> u32 {
    unsafe {
        bellacush_contents(
            start.as_ptr(),
            start.len(),
            file_len,
            shown.as_mut_ptr(),
            shown.len(),
        )
    }
}

pub fn entry(start: &[u8], k: u32, place: &mut [u32]) -> u32 {
    unsafe {
        bellacush_entry(
            start.as_ptr(),
            start.len(),
            k,
            place.as_mut_ptr(),
            place.len(),
        )
    }
}

pub fn replay(n: u32, first: u32, slots: u32, body: &[u8], tables: &mut [u8]) -> u32 {
    unsafe {
        bellacush_replay(
            n,
            first,
            slots,
            body.as_ptr(),
            body.len(),
            tables.as_mut_ptr(),
            tables.len(),
        )
    }
}

pub fn seal_body(
    n: u32,
    slots: u32,
    mode: u32,
    i: u32,
    j: u32,
    blocks: &[u8],
    out: &mut [u8],
) -> u32 {
    unsafe {
        bellacush_seal_body(
            n,
            slots,
            mode,
            i,
            j,
            blocks.as_ptr(),
            blocks.len(),
            out.as_mut_ptr(),
            out.len(),
        )
    }
}

pub fn write_trace(n: u32, firsts: &[u32], slots: &[u16], bodies: &[u8], out: &mut [u8]) -> u32 {
    unsafe {
        bellacush_write_trace(
            n,
            firsts.as_ptr(),
            firsts.len(),
            slots.as_ptr(),
            slots.len(),
            bodies.as_ptr(),
            bodies.len(),
            out.as_mut_ptr(),
            out.len(),
        )
    }
}

pub fn salvage(file: &[u8], out: &mut [u8], fates: &mut [u8], shown: &mut [u32]) -> u32 {
    unsafe {
        bellacush_salvage(
            file.as_ptr(),
            file.len(),
            out.as_mut_ptr(),
            out.len(),
            fates.as_mut_ptr(),
            fates.len(),
            shown.as_mut_ptr(),
            shown.len(),
        )
    }
}
