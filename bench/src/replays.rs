//! The replay of a trace, from the file's bytes to the tables, beside the slot call that served
//! the same blocks.

use bellacush_tests::calls;
use bellacush_tests::slots::{CENTRAL, TABLE_LEN};
use bellacush_tests::trace_calls::{BODY_WORDS, HEAD_WORDS};
use bellacush_tests::traces::{Body, Trace as Recorded, MOST_BODY_SLOTS};
use std::hint::black_box;

use crate::micro;
use crate::timing::{compare, Times};
use crate::traces::{Load, Player, Trace, HALF};

const PORTS: usize = 16;
const MOST_REPLAY_RATIO: f64 = 1.5;

/// How the tables of a body come about.
pub type BodyFn = fn(u32, u32, u32, &[u8], &mut [u8]) -> u32;

/// How a program begins with a file: what it checks before it goes from body to body.
type Begin = fn(&[u8], &mut [u32]) -> u32;

pub fn contents_alone(file: &[u8], shown: &mut [u32]) -> u32 {
    calls::contents(file, file.len(), shown)
}

/// The file of a run that starts at slot 0 with both offsets 0.
pub fn recorded(run: &Trace) -> Vec<u8> {
    let bodies = run.blocks.chunks(MOST_BODY_SLOTS).enumerate();
    let body = |(k, blocks): (usize, &[Vec<u8>])| {
        let before = k * MOST_BODY_SLOTS;
        Body {
            first: before as u32,
            mode: run.mode as u8,
            initiator: (before % run.ports) as u8,
            target: (before / run.ports % run.ports) as u8,
            blocks: blocks.to_vec(),
        }
    };
    let trace = Recorded {
        ports: run.ports,
        bodies: bodies.map(body).collect(),
    };
    trace.file()
}

pub fn replay(begin: Begin, of_body: BodyFn, file: &[u8], tables: &mut [u8]) {
    let (mut shown, mut place) = ([0; HEAD_WORDS], [0; BODY_WORDS]);
    assert_eq!(begin(file, &mut shown), 0, "the file was refused");
    let [ports, count] = shown;
    let mut rest = tables;
    for k in 0..count {
        assert_eq!(calls::entry(file, k, &mut place), 0);
        let [first, slots, offset, len] = place;
        let body = &file[offset as usize..][..len as usize];
        let (told, behind) = rest.split_at_mut(TABLE_LEN * slots as usize);
        assert_eq!(of_body(ports, first, slots, body, told), 0);
        rest = behind;
    }
}

fn measure(begin: Begin, run: &Trace) -> Times {
    let file = recorded(run);
    let mut tables = vec![0; TABLE_LEN * run.blocks.len()];
    let mut live = Player::new(calls::slot, run);
    replay(begin, calls::replay, &file, &mut tables);
    for (block, table) in run.blocks.iter().zip(tables.chunks(TABLE_LEN)) {
        assert_eq!(live.connected(run, block), table);
    }
    compare(
        run.blocks.len(),
        || replay(begin, calls::replay, black_box(&file), &mut tables),
        || live.pass(run),
    )
}

fn row(work: &str, times: Times) {
    let (ours, slot, ratio) = (micro(times.ours), micro(times.rust), times.ratio());
    let limit = if ratio <= MOST_REPLAY_RATIO {
        "met"
    } else {
        "missed"
    };
    println!("| {work} | {ours:.3} | {slot:.3} | {ratio:.2} | {limit} |");
}

/// Several bodies, the last one shorter.
pub fn long_run(load: Load) -> Trace {
    let mut run = Trace::new(PORTS, load, CENTRAL);
    run.blocks = [&run.blocks[..]; 4].concat();
    run
}

pub fn section() {
    let run = long_run(HALF);
    println!("\n## The replay of a trace, 16 ports, central, half load\n");
    println!(
        "From the bytes of a file of {} slots to their tables, all checks included, against the",
        run.blocks.len()
    );
    println!("slot call on the same blocks, whose tables were first seen to be the same; limit: a");
    println!("ratio of {MOST_REPLAY_RATIO:.1}. The replay checks each body; where the whole file is checked before, its");
    println!("bodies are checked twice.\n");
    println!("| Work | Replay, µs a slot | Slot call, µs | Ratio | Limit |");
    println!("|---|---|---|---|---|");
    row("contents, then each body", measure(contents_alone, &run));
    row("whole file, then each body", measure(calls::trace, &run));
}
