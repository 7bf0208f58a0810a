//! The queues of the compact shelf: the C calls, made safe, and a model of plain lists, one for each
//! pair, that says what each call promises.

use std::collections::VecDeque;
use std::ffi::c_uchar;

use crate::frames::Config;
use crate::lent::Lent;
use crate::promises;
use crate::slots::{self, State, TABLE_LEN};

pub const CELL_LEN: usize = 64;
pub const MOST_CELLS: usize = 960;
/// The words of the records before their entries.
pub const HEAD_LEN: usize = 3;

/// The calls that work on full queues, as C sees them.
pub type AddCall = unsafe extern "C" fn(
    records: *mut u32,
    records_len: usize,
    initiator: u32,
    target: u32,
    cell: *const c_uchar,
    cell_len: usize,
    pool: *mut c_uchar,
    pool_len: usize,
) -> u32;
pub type CountCall = unsafe extern "C" fn(
    records: *const u32,
    records_len: usize,
    initiator: u32,
    target: u32,
) -> u32;
pub type SlotCall = unsafe extern "C" fn(
    state: *mut c_uchar,
    state_len: usize,
    slot: u32,
    mode: u32,
    records: *mut u32,
    records_len: usize,
    pool: *const c_uchar,
    pool_len: usize,
    out: *mut c_uchar,
    out_len: usize,
    table: *mut c_uchar,
    table_len: usize,
) -> u32;

extern "C" {
    fn bellacush_new_queues(records: *mut u32, records_len: usize, n: u32, pool_len: usize) -> u32;
    fn bellacush_add_cell(
        records: *mut u32,
        records_len: usize,
        initiator: u32,
        target: u32,
        cell: *const c_uchar,
        cell_len: usize,
        pool: *mut c_uchar,
        pool_len: usize,
    ) -> u32;
    fn bellacush_count_cells(
        records: *const u32,
        records_len: usize,
        initiator: u32,
        target: u32,
    ) -> u32;
    fn bellacush_queue_slot(
        state: *mut c_uchar,
        state_len: usize,
        slot: u32,
        mode: u32,
        records: *mut u32,
        records_len: usize,
        pool: *const c_uchar,
        pool_len: usize,
        out: *mut c_uchar,
        out_len: usize,
        table: *mut c_uchar,
        table_len: usize,
    ) -> u32;
}

pub const ADD: AddCall = bellacush_add_cell;
pub const COUNT: CountCall = bellacush_count_cells;
pub const SLOT: SlotCall = bellacush_queue_slot;

// Every call below is sound: pointers show the units of slices, and the library writes only through
// those that are lent to be written.

pub fn new_queues(records: &mut [u32], n: u32, pool_len: usize) -> u32 {
    unsafe { bellacush_new_queues(records.as_mut_ptr(), records.len(), n, pool_len) }
}

pub fn add(records: &mut [u32], pair: (u32, u32), cell: &[u8], pool: &mut [u8]) -> u32 {
    unsafe {
        bellacush_add_cell(
            records.as_mut_ptr(),
            records.len(),
            pair.0,
            pair.1,
            cell.as_ptr(),
            cell.len(),
            pool.as_mut_ptr(),
            pool.len(),
        )
    }
}

/// The number, and how many cells the pair holds.
pub fn count(records: &[u32], pair: (u32, u32)) -> (u32, u32) {
    let word = unsafe { bellacush_count_cells(records.as_ptr(), records.len(), pair.0, pair.1) };
    (word % 256, word / 256)
}

#[allow(clippy::too_many_arguments)]
pub fn slot(
    state: &mut [u8],
    slot: u32,
    mode: u32,
    records: &mut [u32],
    pool: &[u8],
    out: &mut [u8],
    table: &mut [u8],
) -> u32 {
    unsafe {
        bellacush_queue_slot(
            state.as_mut_ptr(),
            state.len(),
            slot,
            mode,
            records.as_mut_ptr(),
            records.len(),
            pool.as_ptr(),
            pool.len(),
            out.as_mut_ptr(),
            out.len(),
            table.as_mut_ptr(),
            table.len(),
        )
    }
}

pub type Cell = [u8; CELL_LEN];

/// A shelf with queues: what is lent to the library, and beside it the lists that it stands for.
#[derive(Clone)]
pub struct Shelf {
    pub state: State,
    pub records: Vec<u32>,
    pub pool: Vec<u8>,
    pub lists: Vec<VecDeque<Cell>>,
}

impl Shelf {
    pub fn new(ports: usize, cells: usize) -> Shelf {
        let mut records = Lent::new(&vec![0xB7B7_B7B7; HEAD_LEN + cells]);
        let number = new_queues(records.lend(), ports as u32, cells * CELL_LEN);
        assert_eq!(number, 0, "queues of {ports} ports and {cells} cells");
        Shelf {
            state: State::fresh(ports, 0),
            records: records.back(),
            pool: vec![0xB7; cells * CELL_LEN],
            lists: vec![VecDeque::new(); ports * ports],
        }
    }

    pub fn ports(&self) -> usize {
        usize::from(self.state.ports)
    }

    pub fn held(&self) -> usize {
        self.lists.iter().map(VecDeque::len).sum()
    }

    pub fn cells(&self) -> usize {
        self.pool.len() / CELL_LEN
    }

    pub fn list(&mut self, initiator: usize, target: usize) -> &mut VecDeque<Cell> {
        let ports = self.ports();
        &mut self.lists[initiator * ports + target]
    }

    /// Adds a cell: 16 exactly when all cells are held. Lists and library go on alike.
    pub fn add(&mut self, initiator: usize, target: usize, cell: Cell) -> u32 {
        let (mut records, mut pool) = (Lent::new(&self.records), Lent::new(&self.pool));
        let pair = (initiator as u32, target as u32);
        let number = add(records.lend(), pair, &cell, pool.lend());
        let (records, pool) = (records.back(), pool.back());
        if self.held() == self.cells() {
            assert_eq!(number, 16);
            assert!(records == self.records && pool == self.pool);
        } else {
            assert_eq!(number, 0);
            self.list(initiator, target).push_back(cell);
        }
        (self.records, self.pool) = (records, pool);
        number
    }

    /// The frames of hosts that ask for what their queues hold, plan nothing and let all through.
    fn hosts(&self) -> Vec<Config> {
        let ports = self.ports();
        let asked = |i: usize| {
            let holds = |t: &usize| !self.lists[i * ports + t].is_empty();
            (0..ports).filter(holds).fold(0, |set, t| set | 1 << t)
        };
        let host = |i: usize| Config {
            req: asked(i),
            pre: 0,
            ben: u16::MAX,
            qen: 0,
        };
        (0..ports).map(host).collect()
    }

    /// Serves the due slot: the table and the rounds are those of the slot call on such frames,
    /// and each granted head goes to its target's place in the output.
    pub fn serve(&mut self, mode: u32) {
        let call = slots::Slot::of_hosts(self.state, mode, &self.hosts());
        let promised = promises::slot(&call);
        let ports = self.ports();
        let mut out = vec![0xA9; CELL_LEN * ports + 5];
        let (mut state, mut lent_out) = (Lent::new(&self.state.bytes()), Lent::new(&out));
        let (mut records, pool) = (Lent::new(&self.records), Lent::new(&self.pool));
        let mut table = Lent::new(&[0xB7; TABLE_LEN]);
        let word = slot(
            state.lend(),
            self.state.due,
            mode,
            records.lend(),
            &pool,
            lent_out.lend(),
            table.lend(),
        );
        assert_eq!(word, promised.word);
        assert_eq!(pool.back(), self.pool, "the pool was changed");
        let (state, table) = (state.back(), table.back());
        assert_eq!((&state, &table), (&promised.state, &promised.table));
        for initiator in 0..ports {
            let set = u16::from_be_bytes([table[2 * initiator], table[2 * initiator + 1]]);
            for target in (0..ports).filter(|t| set >> t & 1 == 1) {
                let head = self.list(initiator, target).pop_front();
                let place = &mut out[CELL_LEN * target..][..CELL_LEN];
                place.copy_from_slice(&head.expect("a grant has a cell"));
            }
        }
        assert_eq!(lent_out.back(), out);
        self.records = records.back();
        self.state = State::read(&state);
    }

    /// Every pair's count is that of its list.
    pub fn counts(&self) {
        let ports = self.ports();
        for (k, list) in self.lists.iter().enumerate() {
            let pair = ((k / ports) as u32, (k % ports) as u32);
            assert_eq!(count(&self.records, pair), (0, list.len() as u32));
        }
    }
}

/// A slot call that must decline: nothing lent changes.
pub fn declined(
    shelf: &Shelf,
    state: &[u8],
    due: u32,
    mode: u32,
    pool_len: usize,
    out_len: usize,
) -> u32 {
    let mut lent_state = Lent::new(state);
    let mut records = Lent::new(&shelf.records);
    let pool = vec![0x5C; pool_len];
    let mut out = Lent::new(&vec![0xA9; out_len]);
    let mut table = Lent::new(&[0xB7; TABLE_LEN]);
    let word = slot(
        lent_state.lend(),
        due,
        mode,
        records.lend(),
        &pool,
        out.lend(),
        table.lend(),
    );
    assert_ne!(word, 0, "the slot was served");
    assert_eq!(lent_state.back(), state);
    assert_eq!(records.back(), shelf.records);
    assert!(out.back().iter().all(|&byte| byte == 0xA9));
    assert!(table.back().iter().all(|&byte| byte == 0xB7));
    word
}
