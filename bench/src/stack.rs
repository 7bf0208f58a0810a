//! How much stack a call uses: it is run on a painted stack of its own, and the lowest byte that
//! changed is looked for.

use bellacush_tests::calls::SlotCall;
use bellacush_tests::slots::{State, TABLE_LEN};
use std::arch::asm;

use crate::traces::Trace;

const STACK: usize = 256 * 1024;

/// Two colours, so that no byte goes unseen because the call wrote the colour itself.
const COLOURS: [u8; 2] = [0xA5, 0x5A];

#[repr(C, align(16))]
pub struct Stack([u8; STACK]);

impl Stack {
    pub fn new() -> Box<Stack> {
        Box::new(Stack([0; STACK]))
    }
}

/// A call with what is lent to it.
pub trait Job {
    /// Puts back what the call changes.
    fn prepare(&mut self);
    /// Makes the call, and nothing else.
    fn run(&mut self);
}

extern "C" fn work(job: &mut &mut dyn Job) {
    job.run();
}

/// Runs the job on another stack, from its top down.
fn run_on(stack: &mut Stack, mut job: &mut dyn Job) {
    // sound: the stack is ours alone and large; the old one is back before the block ends
    unsafe {
        let top = stack.0.as_mut_ptr().add(STACK);
        asm!(
            "xchg rsp, r12", // calls keep r12
            "call {work}",
            "mov rsp, r12",
            inout("r12") top => _,
            work = sym work,
            inout("rdi") &mut job => _,
            clobber_abi("C"),
        );
    }
}

fn depth(stack: &mut Stack, job: &mut dyn Job) -> usize {
    let mut deepest = 0;
    for colour in COLOURS {
        stack.0.fill(colour);
        job.prepare();
        run_on(stack, job);
        let untouched = stack.0.iter().take_while(|&&byte| byte == colour).count();
        assert!(untouched > 0, "the painted stack is too small");
        deepest = deepest.max(STACK - untouched);
    }
    deepest
}

/// The bytes that a call takes below its caller's frame, its arguments and its return address: the
/// idle job is the same with a call that needs no stack of its own.
pub fn taken(stack: &mut Stack, idle: &mut dyn Job, job: &mut dyn Job) -> usize {
    let frame = depth(stack, idle);
    depth(stack, job) - frame
}

#[derive(Clone)]
struct SlotJob {
    call: SlotCall,
    state: Vec<u8>,
    slot: u32,
    mode: u32,
    block: Vec<u8>,
    out: Vec<u8>,
    table: Vec<u8>,
}

impl Job for SlotJob {
    fn prepare(&mut self) {
        let fresh = State::fresh(usize::from(self.state[0]), self.slot).bytes();
        let len = self.state.len();
        self.state.copy_from_slice(&fresh[..len]);
    }

    fn run(&mut self) {
        // sound: each pointer comes from a buffer of the length beside it
        unsafe {
            (self.call)(
                self.state.as_mut_ptr(),
                self.state.len(),
                self.slot,
                self.mode,
                self.block.as_ptr(),
                self.block.len(),
                0,
                self.out.as_mut_ptr(),
                self.out.len(),
                self.table.as_mut_ptr(),
                self.table.len(),
            );
        }
    }
}

/// Stands for a call that needs no stack of its own.
unsafe extern "C" fn idle(
    _: *mut u8,
    _: usize,
    _: u32,
    _: u32,
    _: *const u8,
    _: usize,
    _: u16,
    _: *mut u8,
    _: usize,
    _: *mut u8,
    _: usize,
) -> u32 {
    0
}

/// The most bytes that a slot of the trace takes. So many bytes of the state are lent.
pub fn used(call: SlotCall, state_len: usize, trace: &Trace) -> usize {
    let mut stack = Stack::new();
    let mut most = 0;
    for block in &trace.blocks {
        let mut job = SlotJob {
            call,
            state: State::fresh(trace.ports, 0).bytes()[..state_len].to_vec(),
            slot: 0,
            mode: trace.mode,
            block: block.clone(),
            out: vec![0; 7 * trace.ports],
            table: vec![0; TABLE_LEN],
        };
        let mut resting = SlotJob {
            call: idle,
            ..job.clone()
        };
        most = most.max(taken(&mut stack, &mut resting, &mut job));
    }
    most
}
