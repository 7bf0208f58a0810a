//! The import of a capture, from the file's bytes to the trace's, against plain Rust.

use bellacush_tests::captures::{self, Capture, Import, Order, Packet, REPORT_LEN};
use bellacush_tests::random::Random;
use bellacush_tests::traffic::Traffic;
use std::hint::black_box;

use crate::plain_import;
use crate::timing::{compare, Times};

const LEAST_MB: f64 = 150.0;
const LEAST_PART: f64 = 0.5;
/// Several bodies, the last one shorter.
const SLOTS: u32 = 1004;

type ImportFn = fn([u32; 4], &[u8], &mut [u8], &mut [u8]) -> u32;

/// What of a capture changes how it is imported.
struct Kind {
    name: &'static str,
    ports: usize,
    order: Order,
    /// Every packet comes so often.
    copies: usize,
    /// So many slots are left out behind each.
    gap: u32,
}

const USUAL: Kind = Kind {
    name: "16 ports, low byte first",
    ports: 16,
    order: Order::LowFirst,
    copies: 1,
    gap: 0,
};

const KINDS: [Kind; 5] = [
    USUAL,
    Kind {
        name: "16 ports, high byte first",
        order: Order::HighFirst,
        ..USUAL
    },
    Kind {
        name: "16 ports, each frame resent",
        copies: 2,
        ..USUAL
    },
    Kind {
        name: "4 ports",
        ports: 4,
        ..USUAL
    },
    Kind {
        name: "4 ports, a gap behind each slot",
        ports: 4,
        gap: 1,
        ..USUAL
    },
];

impl Kind {
    fn import(&self) -> Import {
        let mut random = Random::new(1);
        let traffic = Traffic::requests(32);
        let mut packets = Vec::new();
        for k in 0..SLOTS {
            for host in 0..self.ports as u8 {
                let frame = traffic.frame(&mut random);
                let packet = Packet {
                    slot: k * (1 + self.gap),
                    host,
                    frame: frame.try_into().expect("a frame has eleven bytes"),
                };
                packets.extend(vec![packet; self.copies]);
            }
        }
        Import::of(self.ports, &Capture::new(self.order, packets))
    }
}

/// Seconds a byte of the capture.
fn measure(import: &Import) -> Times {
    let trace = import.promised().expect("it is sound").trace.file();
    let numbers = [import.n, import.mode, import.i, import.j];
    let player = |call: ImportFn| {
        let (mut out, mut report) = (vec![0; trace.len()], [0; REPORT_LEN]);
        assert_eq!(call(numbers, &import.capture, &mut out, &mut report), 0);
        assert!(out == trace, "another trace was written");
        move || {
            let capture = black_box(&import.capture);
            assert_eq!(call(numbers, capture, &mut out, &mut report), 0);
            black_box((&mut out, &mut report));
        }
    };
    compare(
        import.capture.len(),
        player(captures::import),
        player(plain_import::import),
    )
}

/// Millions of bytes a second.
fn mb(seconds_a_byte: f64) -> f64 {
    1e-6 / seconds_a_byte
}

fn row(kind: &Kind) {
    let times = measure(&kind.import());
    let (ours, rust) = (mb(times.ours), mb(times.rust));
    let met = ours >= LEAST_MB || ours >= LEAST_PART * rust;
    println!(
        "| {} | {ours:.0} | {rust:.0} | {:.2} | {} |",
        kind.name,
        ours / rust,
        if met { "met" } else { "missed" }
    );
}

pub fn section() {
    println!("\n## The import of a capture\n");
    println!(
        "From the bytes of a capture of {SLOTS} slots to those of its trace, in memory, all checks"
    );
    println!("included, against plain Rust that does the same in two passes; both were first seen to write");
    println!("the trace that the tests' own import makes. MB of capture a second; limit: {LEAST_MB} or {LEAST_PART} of");
    println!("plain Rust.\n");
    println!("| Capture | C form, MB/s | Rust, MB/s | Part | Limit |");
    println!("|---|---|---|---|---|");
    for kind in &KINDS {
        row(kind);
    }
}
