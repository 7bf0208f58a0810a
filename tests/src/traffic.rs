//! Random blocks: what hosts ask, plan and vote, and what befalls their frames on the way.

use crate::frames::{sealed, Config, Held, CONFIG_LEN};
use crate::random::Random;

/// How often, in 64, each thing happens.
#[derive(Clone, Copy, Debug)]
pub struct Traffic {
    pub asked: usize,
    pub planned: usize,
    pub vote_cleared: usize,
    pub spoilt: usize,
}

impl Traffic {
    /// Every kind of slot: empty to full, nothing planned to everything, and so on.
    pub fn any(random: &mut Random) -> Traffic {
        Traffic {
            asked: random.pick(&[0, 4, 8, 16, 32, 48, 60, 64]),
            planned: random.pick(&[0, 0, 0, 1, 4, 16, 64]),
            vote_cleared: random.pick(&[0, 0, 0, 1, 4]),
            spoilt: random.pick(&[0, 0, 4, 32]),
        }
    }

    /// Requests alone, all heard.
    pub fn requests(asked: usize) -> Traffic {
        Traffic {
            asked,
            planned: 0,
            vote_cleared: 0,
            spoilt: 0,
        }
    }

    /// What one host says, in all sixteen bits of each field whatever the ports.
    pub fn config(self, random: &mut Random) -> Config {
        Config {
            req: random.bits(self.asked, 64),
            pre: random.bits(self.planned, 64),
            ben: !random.bits(self.vote_cleared, 64),
            qen: random.word(),
        }
    }

    pub fn frame(self, random: &mut Random) -> Vec<u8> {
        let frame = self.config(random).frame();
        if random.chance(self.spoilt, 64) {
            spoilt(random, frame)
        } else {
            frame
        }
    }

    pub fn block(self, random: &mut Random, ports: usize) -> Vec<u8> {
        (0..ports).flat_map(|_| self.frame(random)).collect()
    }
}

/// What may come in place of a configuration frame: damaged, missing, foreign, cut short.
pub fn spoilt(random: &mut Random, mut frame: Vec<u8>) -> Vec<u8> {
    match random.below(10) {
        0 => frame.fill(0),
        1 => frame[random.below(CONFIG_LEN)] ^= 1 << random.below(8),
        2 => frame[random.below(CONFIG_LEN)] = random.draw() as u8,
        3 => frame = foreign(random),
        4 => frame = lengthened(grant(random)),
        5 => frame[random.below(CONFIG_LEN)..].fill(0),
        6 => frame.rotate_left(1),
        7 => frame.swap(9, 10),
        8 => frame[9..].iter_mut().for_each(|byte| *byte ^= 0xFF),
        _ => frame = random.bytes(CONFIG_LEN),
    }
    frame
}

/// A frame of another type, its check right.
fn foreign(random: &mut Random) -> Vec<u8> {
    let kind = random.pick(&[0, 2, 3, 4, 129, 255]);
    let mut bytes = vec![kind];
    bytes.extend(random.bytes(CONFIG_LEN - 3));
    sealed(bytes)
}

fn grant(random: &mut Random) -> Vec<u8> {
    let set = random.word();
    let held = Held {
        node_id: random.below(16) as u32,
        gnt_val: set != 0,
        link_err: random.chance(1, 2),
        crc_err: random.chance(1, 2),
        set,
    };
    held.frame()
}

fn lengthened(mut frame: Vec<u8>) -> Vec<u8> {
    frame.resize(CONFIG_LEN, 0);
    frame
}
