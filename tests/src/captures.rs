//! Captures of our own, from document 02, item 12, alone: a builder of classic libpcap files, the
//! import that makes a trace of one, and the library's call, seen to do just that.

use std::collections::BTreeMap;
use std::ffi::c_uchar;

use crate::frames::CONFIG_LEN;
use crate::lent::Lent;
use crate::random::Random;
use crate::scheduler::MOST_PORTS;
use crate::traces::{Body, Trace, MOST_BODIES, MOST_BODY_SLOTS, MOST_MODE};
use crate::traffic::Traffic;

pub const MAGIC: u32 = 0xA1B2_C3D4;
pub const LINK_TYPE: u32 = 147;
pub const HEADER_LEN: usize = 24;
pub const PACKET_LEN: u32 = 16;
pub const RECORD_LEN: usize = 32;
pub const REPORT_LEN: usize = 8;
const HALF: u32 = 1 << 31;

// The file

/// How the file's writer laid its numbers down.
#[derive(Clone, Copy, Debug, PartialEq)]
pub enum Order {
    LowFirst,
    HighFirst,
}

pub const ORDERS: [Order; 2] = [Order::LowFirst, Order::HighFirst];

impl Order {
    fn bytes(self, number: u32) -> [u8; 4] {
        match self {
            Order::LowFirst => number.to_le_bytes(),
            Order::HighFirst => number.to_be_bytes(),
        }
    }

    fn short_bytes(self, number: u16) -> [u8; 2] {
        match self {
            Order::LowFirst => number.to_le_bytes(),
            Order::HighFirst => number.to_be_bytes(),
        }
    }

    /// The number that four bytes are, if there are four.
    fn number(self, bytes: &[u8]) -> Option<u32> {
        let bytes = bytes.try_into().ok()?;
        Some(match self {
            Order::LowFirst => u32::from_le_bytes(bytes),
            Order::HighFirst => u32::from_be_bytes(bytes),
        })
    }
}

#[derive(Clone, Copy, Debug, PartialEq)]
pub struct Packet {
    pub slot: u32,
    pub host: u8,
    pub frame: [u8; CONFIG_LEN],
}

impl Packet {
    /// With a frame of this byte alone.
    pub fn of(slot: u32, host: u8, byte: u8) -> Packet {
        Packet {
            slot,
            host,
            frame: [byte; CONFIG_LEN],
        }
    }

    fn bytes(&self) -> Vec<u8> {
        let mut bytes = self.slot.to_be_bytes().to_vec();
        bytes.push(self.host);
        bytes.extend(self.frame);
        bytes
    }
}

/// A file laid out as a capture is; magic, link type and captured length need not be right.
#[derive(Clone, Debug)]
pub struct Capture {
    pub order: Order,
    pub magic: u32,
    pub link_type: u32,
    pub captured: u32,
    pub packets: Vec<Packet>,
}

impl Capture {
    pub fn new(order: Order, packets: Vec<Packet>) -> Capture {
        Capture {
            order,
            magic: MAGIC,
            link_type: LINK_TYPE,
            captured: PACKET_LEN,
            packets,
        }
    }

    /// Magic, version 2.4, no zone, no accuracy, the greatest captured length, link type.
    fn header(&self) -> Vec<u8> {
        let mut bytes = self.order.bytes(self.magic).to_vec();
        bytes.extend(self.order.short_bytes(2));
        bytes.extend(self.order.short_bytes(4));
        for number in [0, 0, 65_535, self.link_type] {
            bytes.extend(self.order.bytes(number));
        }
        bytes
    }

    /// Record k: seconds, microseconds, captured and original length, packet.
    fn record(&self, k: usize) -> Vec<u8> {
        let (seconds, micros) = (1_700_000_000 + k as u32 / 1000, k as u32 % 1000 * 1000);
        let numbers = [seconds, micros, self.captured, PACKET_LEN];
        let mut bytes = numbers.map(|number| self.order.bytes(number)).concat();
        bytes.extend(self.packets[k].bytes());
        bytes
    }

    pub fn file(&self) -> Vec<u8> {
        let records = (0..self.packets.len()).flat_map(|k| self.record(k));
        self.header().into_iter().chain(records).collect()
    }

    /// Any sound one for so many ports: so many slots, gaps between some, frames of some hosts in
    /// any order, some of them resent, as they were or not.
    pub fn any(random: &mut Random, ports: usize, slots: usize) -> Capture {
        let traffic = Traffic::any(random);
        let [gaps, absent, resent] = [0; 3].map(|_| random.pick(&[0, 0, 1, 8, 32]));
        let mut slot = match random.below(3) {
            0 => u32::MAX - random.below(slots + 1) as u32, // at the wrap or just before it
            _ => random.long(),
        };
        let mut packets = Vec::new();
        for _ in 0..slots {
            packets.extend(any_slot(random, ports, slot, traffic, [absent, resent]));
            slot = slot.wrapping_add(1);
            if random.chance(gaps, 64) {
                slot = slot.wrapping_add(any_gap(random));
            }
        }
        Capture::new(random.pick(&ORDERS), packets)
    }
}

/// Slots left out: a few, any number, or as many as can be without the next one being stale.
fn any_gap(random: &mut Random) -> u32 {
    let most = random.pick(&[1, 5, 1000, HALF as usize - 2]);
    let any = random.between(1, most);
    random.pick(&[1, most, any]) as u32
}

/// Each host's frame, unless it is absent; each that came may come again, later in the slot. How
/// often, in 64, frames are absent and are resent. One at least comes.
fn any_slot(
    random: &mut Random,
    ports: usize,
    slot: u32,
    traffic: Traffic,
    [absent, resent]: [usize; 2],
) -> Vec<Packet> {
    let always = random.below(ports);
    let mut packets: Vec<Packet> = Vec::new();
    for host in 0..ports {
        if host == always || !random.chance(absent, 64) {
            let place = random.below(packets.len() + 1);
            packets.insert(place, any_packet(random, slot, host as u8, traffic));
        }
    }
    while random.chance(resent, 64) {
        let again = random.pick(&packets);
        let changed = any_packet(random, slot, again.host, traffic);
        packets.push(random.pick(&[again, changed]));
    }
    packets
}

fn any_packet(random: &mut Random, slot: u32, host: u8, traffic: Traffic) -> Packet {
    let frame = traffic.frame(random);
    Packet {
        slot,
        host,
        frame: frame.try_into().expect("a frame has eleven bytes"),
    }
}

// The import

/// A trace, and how many frames were resent.
#[derive(Clone, Debug, PartialEq)]
pub struct Imported {
    pub trace: Trace,
    pub resent: usize,
}

/// One slot as it was captured: the first frame of each host that sent one.
struct Seen {
    slot: u32,
    frames: BTreeMap<u8, [u8; CONFIG_LEN]>,
}

impl Seen {
    fn block(&self, ports: usize) -> Vec<u8> {
        let absent = [0; CONFIG_LEN];
        let frame = |host| *self.frames.get(&(host as u8)).unwrap_or(&absent);
        (0..ports).flat_map(frame).collect()
    }
}

/// The byte order that a header's magic is in, if all of the header is right. Above the link type
/// stand four bits of another meaning.
fn order_of(header: &[u8]) -> Option<Order> {
    let written = |order: &Order| order.number(&header[..4]) == Some(MAGIC);
    let order = ORDERS.into_iter().find(written)?;
    let link_type = order.number(&header[20..])? & 0x0FFF_FFFF;
    (link_type == LINK_TYPE).then_some(order)
}

/// The packets of a whole file, if it is a capture of nothing but such packets.
fn packets(file: &[u8]) -> Option<Vec<Packet>> {
    let (header, mut rest) = file.split_at_checked(HEADER_LEN)?;
    let order = order_of(header)?;
    let mut packets = Vec::new();
    while !rest.is_empty() {
        let (record, behind) = rest.split_at_checked(16)?;
        let (packet, behind) = behind.split_at_checked(16)?;
        if order.number(&record[8..12])? != PACKET_LEN {
            return None;
        }
        packets.push(Packet {
            slot: Order::HighFirst.number(&packet[..4])?,
            host: packet[4],
            frame: packet[5..].try_into().ok()?,
        });
        rest = behind;
    }
    Some(packets)
}

fn stale(before: &Packet, packet: &Packet) -> bool {
    (1..=HALF).contains(&before.slot.wrapping_sub(packet.slot))
}

fn seen(packets: &[Packet]) -> Seen {
    let mut frames = BTreeMap::new();
    for packet in packets {
        frames.entry(packet.host).or_insert(packet.frame);
    }
    Seen {
        slot: packets[0].slot,
        frames,
    }
}

/// The slots of each body: without gaps, and no more than a body can have.
fn runs(slots: &[Seen]) -> Vec<&[Seen]> {
    slots
        .chunk_by(|one, next| next.slot == one.slot.wrapping_add(1))
        .flat_map(|run| run.chunks(MOST_BODY_SLOTS))
        .collect()
}

/// What a capture holds, from the slot of these offsets on, or nothing where it is refused with
/// 18. The numbers are such as 1, 2 and 5 let through.
fn imported(ports: usize, mode: u8, offsets: [usize; 2], file: &[u8]) -> Option<Imported> {
    let packets = packets(file)?;
    let known = packets
        .iter()
        .all(|packet| usize::from(packet.host) < ports);
    if !known || packets.windows(2).any(|two| stale(&two[0], &two[1])) {
        return None;
    }
    let slots: Vec<Seen> = packets
        .chunk_by(|one, next| one.slot == next.slot)
        .map(seen)
        .collect();
    let mut turn = offsets[1] * ports + offsets[0];
    let mut bodies = Vec::new();
    for run in runs(&slots) {
        bodies.push(Body {
            first: run[0].slot,
            mode,
            initiator: (turn % ports) as u8,
            target: (turn / ports % ports) as u8,
            blocks: run.iter().map(|seen| seen.block(ports)).collect(),
        });
        turn += run.len();
    }
    let kept: usize = slots.iter().map(|seen| seen.frames.len()).sum();
    (bodies.len() <= MOST_BODIES).then(|| Imported {
        trace: Trace { ports, bodies },
        resent: packets.len() - kept,
    })
}

// The call

extern "C" {
    fn bellacush_import(
        n: u32,
        mode: u32,
        i: u32,
        j: u32,
        capture: *const c_uchar,
        capture_len: usize,
        out: *mut c_uchar,
        out_len: usize,
        report: *mut c_uchar,
        report_len: usize,
    ) -> u32;
}

/// The library's. Sound as those of `calls` are.
pub fn import([n, mode, i, j]: [u32; 4], capture: &[u8], out: &mut [u8], report: &mut [u8]) -> u32 {
    unsafe {
        bellacush_import(
            n,
            mode,
            i,
            j,
            capture.as_ptr(),
            capture.len(),
            out.as_mut_ptr(),
            out.len(),
            report.as_mut_ptr(),
            report.len(),
        )
    }
}

/// All that an import is lent to read.
#[derive(Clone, Debug)]
pub struct Import {
    pub n: u32,
    pub mode: u32,
    pub i: u32,
    pub j: u32,
    pub capture: Vec<u8>,
}

/// The number, and what was lent to be written as the call leaves it.
#[derive(Clone, Debug, PartialEq)]
pub struct Answer {
    pub number: u32,
    pub out: Vec<u8>,
    pub report: Vec<u8>,
}

impl Import {
    /// Central and from the first offsets on.
    pub fn of(ports: usize, capture: &Capture) -> Import {
        Import {
            n: ports as u32,
            mode: 0,
            i: 0,
            j: 0,
            capture: capture.file(),
        }
    }

    /// In any mode and from any offsets on.
    pub fn any(random: &mut Random, ports: usize, capture: &Capture) -> Import {
        Import {
            mode: random.below(usize::from(MOST_MODE) + 1) as u32,
            i: random.below(ports) as u32,
            j: random.below(ports) as u32,
            ..Import::of(ports, capture)
        }
    }

    fn numbers(&self) -> [u32; 4] {
        [self.n, self.mode, self.i, self.j]
    }

    /// What there is to write, or the number before 7.
    pub fn promised(&self) -> Result<Imported, u32> {
        let [n, mode, i, j] = self.numbers().map(|number| number as usize);
        let tests = [
            (1, n == 0 || n > MOST_PORTS),
            (2, i.max(j) >= n),
            (5, mode > usize::from(MOST_MODE)),
        ];
        match tests.iter().find(|test| test.1) {
            Some(test) => Err(test.0),
            None => imported(n, mode as u8, [i, j], &self.capture).ok_or(18),
        }
    }

    fn promised_answer(&self, out: &[u8], report: &[u8]) -> Answer {
        let kept = |number| Answer {
            number,
            out: out.to_vec(),
            report: report.to_vec(),
        };
        if report.len() != REPORT_LEN {
            return kept(8);
        }
        let Imported { trace, resent } = match self.promised() {
            Ok(imported) => imported,
            Err(number) => return kept(number),
        };
        let file = trace.file();
        if out.len() < file.len() {
            return kept(7);
        }
        let told = [file.len(), resent].map(|number| (number as u32).to_be_bytes());
        Answer {
            number: 0,
            out: [&file[..], &out[file.len()..]].concat(),
            report: told.concat(),
        }
    }

    /// The library's answer, over guarded copies of what is lent.
    pub fn answer(&self, out: &[u8], report: &[u8]) -> Answer {
        let capture = Lent::new(&self.capture);
        let (mut lent_out, mut lent_report) = (Lent::new(out), Lent::new(report));
        let number = import(
            self.numbers(),
            &capture,
            lent_out.lend(),
            lent_report.lend(),
        );
        assert!(capture.back() == self.capture, "the capture was changed");
        Answer {
            number,
            out: lent_out.back(),
            report: lent_report.back(),
        }
    }

    /// The same, once it is seen to be what is promised.
    pub fn agreed(&self, out: &[u8], report: &[u8]) -> Answer {
        let answer = self.answer(out, report);
        let promised = self.promised_answer(out, report);
        let start = &self.capture[..self.capture.len().min(HEADER_LEN + 4 * RECORD_LEN)];
        assert!(
            answer == promised,
            "{:?}, {} bytes that start with {start:02X?}, out {}, report {}\n  was answered {}, {:?}\n  and not      {}, {:?}\n  out is{} the same",
            self.numbers(),
            self.capture.len(),
            out.len(),
            report.len(),
            answer.number,
            answer.report,
            promised.number,
            promised.report,
            if answer.out == promised.out { "" } else { " not" },
        );
        answer
    }
}
