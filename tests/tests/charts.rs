//! The ledger beside the slot call: the sets asked of a block, and histories of slots whose
//! blocks come again, where the ledger is fed after each served slot and only then.

use bellacush_tests::calls;
use bellacush_tests::frames::{Config, CONFIG_LEN};
use bellacush_tests::ledger::{Feed, History, FIGURES_LEN, LEDGER_LEN};
use bellacush_tests::lent::Lent;
use bellacush_tests::promises;
use bellacush_tests::random::{cases, Random};
use bellacush_tests::slots::{block, sets, Slot, State, CENTRAL, STATE_LEN, TABLE_LEN};
use bellacush_tests::traffic::{spoilt, Traffic};

// The sets asked

/// The number and the table after it, seen to be the promised ones.
fn asked(state: &[u8], block: &[u8], table: &[u8]) -> (u32, Vec<u8>) {
    let lent_state = Lent::new(state);
    let frames = Lent::new(block);
    let mut lent = Lent::new(table);
    let number = calls::asked(&lent_state, &frames, lent.lend());
    assert_eq!(lent_state.back(), state, "the state was changed");
    assert_eq!(frames.back(), block, "the block was changed");
    let answer = (number, lent.back());
    let promised = promises::asked(state, block, table);
    assert_eq!(answer, promised, "{state:?} {block:?}");
    answer
}

/// The state of a shelf of one operator.
fn ports(n: usize) -> Vec<u8> {
    State::fresh(n, 7).bytes()
}

fn asked_sets(hosts: &[Config]) -> Vec<u16> {
    let (number, table) = asked(&ports(hosts.len()), &block(hosts), &[0xB7; TABLE_LEN]);
    assert_eq!(number, 0);
    sets(&table)
}

#[test]
fn sets_asked_of_random_blocks() {
    let mut random = Random::of_test("sets_asked_of_random_blocks");
    for ports in 1..=16 {
        for _ in 0..cases(2_000) {
            let block = Traffic::any(&mut random).block(&mut random, ports);
            let table = random.bytes(TABLE_LEN);
            let (initiator, target) = (random.below(256), random.below(256));
            let some = random.word();
            let owners = random.pick(&[0, some, some]);
            let state = State::at(ports, initiator, target, random.long()).owned(owners);
            assert_eq!(asked(&state.bytes(), &block, &table).0, 0);
        }
    }
}

#[test]
fn bits_at_or_above_n_are_not_asked() {
    for ports in 1..=16 {
        let below = 0xFFFF >> (16 - ports);
        let mut wanted = vec![below; ports];
        wanted.resize(16, 0);
        assert_eq!(asked_sets(&vec![Config::asking(0xFFFF); ports]), wanted);
    }
}

#[test]
fn a_planner_asks_too_and_a_disabled_host_does_not() {
    let mut hosts = vec![Config::asking(0b1011); 4];
    hosts[1].pre = 0b0010;
    hosts[3].ben = 0b1011;
    assert_eq!(asked_sets(&hosts)[..4], [0b1011; 4]);
    hosts[2].ben = 0b1011;
    let wanted = [0b1011, 0b1011, 0, 0b1011];
    assert_eq!(asked_sets(&hosts)[..4], wanted);
    hosts[0].req = 0;
    hosts[1].ben = 0b0111;
    hosts[2].ben = 0b0011;
    assert_eq!(asked_sets(&hosts)[..4], [0, 0b1011, 0, 0]);
}

#[test]
fn an_unheard_host_neither_asks_nor_votes() {
    let mut random = Random::of_test("an_unheard_host_neither_asks_nor_votes");
    let mut hosts = vec![Config::asking(0b111); 3];
    hosts[1].ben = 0;
    hosts[2].ben = 0;
    assert_eq!(asked_sets(&hosts)[..3], [0, 0, 0]);
    for _ in 0..cases(2_000) {
        let mut block = block(&hosts);
        let frame = spoilt(&mut random, block[2 * CONFIG_LEN..].to_vec());
        if Config::read(&frame).is_err() {
            block[2 * CONFIG_LEN..].copy_from_slice(&frame);
            let (_, table) = asked(&ports(3), &block, &[0xB7; TABLE_LEN]);
            assert_eq!(sets(&table)[..3], [0b111, 0b111, 0]);
        }
    }
}

#[test]
fn every_bit_of_a_frame_counts() {
    let hosts = [Config::asking(0b01), Config::asking(0b10)];
    for bit in 0..8 * CONFIG_LEN {
        let mut block = block(&hosts);
        block[CONFIG_LEN + bit / 8] ^= 1 << (bit % 8);
        let (_, table) = asked(&ports(2), &block, &[0xB7; TABLE_LEN]);
        assert_eq!(sets(&table)[..2], [0b01, 0]);
    }
}

#[test]
fn number_8_for_state_and_table_then_1_then_6() {
    let block = block(&[Config::asking(0xFFFF); 16]);
    for n in [0, 3, 16, 17] {
        for len in (0..=70).filter(|&len| len != TABLE_LEN) {
            assert_eq!(asked(&ports(n), &block, &vec![0xB7; len]).0, 8);
        }
        for len in (0..=20).filter(|&len| len != STATE_LEN) {
            let mut state = ports(n);
            state.resize(len, 0);
            assert_eq!(asked(&state, &block, &[0xB7; TABLE_LEN]).0, 8);
        }
    }
    for n in [0, 17, 18, 255] {
        for len in [0, 11, 176, CONFIG_LEN * n] {
            assert_eq!(asked(&ports(n), &vec![0; len], &[0xB7; TABLE_LEN]).0, 1);
        }
    }
    for n in 1..=16 {
        for len in (0..=200).filter(|&len| len != CONFIG_LEN * n) {
            assert_eq!(asked(&ports(n), &vec![1; len], &[0xB7; TABLE_LEN]).0, 6);
        }
    }
}

// Histories of slots

/// A card and its ledger, with the slots that were served.
struct Card {
    state: State,
    mode: u32,
    ledger: Vec<u32>,
    served: History,
}

impl Card {
    fn new(ports: usize, mode: u32) -> Card {
        Card {
            state: State::fresh(ports, 7),
            mode,
            ledger: vec![0; LEDGER_LEN],
            served: History::default(),
        }
    }

    /// A block comes: it is served if its slot is due, and then fed. Says whether it was.
    fn takes(&mut self, slot: u32, block: &[u8]) -> bool {
        let mut call = Slot::due(self.state, self.mode, block.to_vec());
        call.slot = slot;
        let after = call.agreed();
        if after.number() != 0 {
            assert_eq!(after.number(), 3);
            return false;
        }
        self.state = State::read(&after.state);
        self.feed(block, &after.table);
        true
    }

    fn feed(&mut self, block: &[u8], connected: &[u8]) {
        let n = u32::from(self.state.ports);
        let (_, asked) = asked(&self.state.bytes(), block, &[0xB7; TABLE_LEN]);
        let mut ledger = Lent::new(&self.ledger);
        assert_eq!(calls::feed(ledger.lend(), n, &asked, connected), 0);
        self.ledger = ledger.back();
        let feed = Feed::of_tables(n as usize, &asked, connected);
        self.served.feeds.push(feed);
    }

    fn figures(&self, initiator: usize, target: usize) -> [u32; FIGURES_LEN] {
        let mut figures = [7; FIGURES_LEN];
        let (i, t) = (initiator as u32, target as u32);
        assert_eq!(calls::figures(&self.ledger, i, t, &mut figures), 0);
        figures
    }

    /// The ledger is that of the slots served, and each request is accounted for.
    fn balances(&self) {
        assert_eq!(self.ledger, self.served.words());
        for (initiator, target) in (0..256).map(|pair| (pair / 16, pair % 16)) {
            let [_, connected, fresh, withdrawn, open] = self.figures(initiator, target);
            assert_eq!(fresh, connected + withdrawn + open);
        }
    }
}

/// The block of the next slot: most hosts say what they said, as those that wait do.
fn next_block(random: &mut Random, traffic: Traffic, last: &[u8]) -> Vec<u8> {
    let frames = last.chunks(CONFIG_LEN);
    frames
        .flat_map(|frame| match random.below(4) {
            0 => traffic.frame(random),
            _ => frame.to_vec(),
        })
        .collect()
}

#[test]
fn resent_blocks_change_no_figure() {
    let mut random = Random::of_test("resent_blocks_change_no_figure");
    for ports in 1..=16 {
        for mode in [CENTRAL, 1, 4, 17] {
            let mut card = Card::new(ports, mode);
            let traffic = Traffic::any(&mut random);
            let mut block = traffic.block(&mut random, ports);
            for _ in 0..cases(60) {
                block = next_block(&mut random, traffic, &block);
                let slot = card.state.due;
                assert!(card.takes(slot, &block));
                let fed = card.ledger.clone();
                for _ in 0..random.below(4) {
                    assert!(!card.takes(slot, &block));
                }
                assert_eq!(card.ledger, fed);
            }
            assert_eq!(card.ledger[0], card.served.feeds.len() as u32);
            card.balances();
        }
    }
}

/// Host `initiator` begins to ask for `target`, which all ask for, and asks until it is
/// connected. Gives the slots that it waited.
fn waits_until_connected(card: &mut Card, initiator: usize, target: usize) -> u32 {
    let ports = usize::from(card.state.ports);
    let mut hosts = vec![Config::asking(1 << target); ports];
    hosts[initiator].req = 0;
    let due = card.state.due;
    assert!(card.takes(due, &block(&hosts)));
    hosts[initiator].req = 1 << target;
    let before = card.figures(initiator, target);
    for waited in 0..(ports * ports) as u32 {
        let slot = card.state.due;
        assert!(card.takes(slot, &block(&hosts)));
        assert!(!card.takes(slot, &block(&hosts)));
        let now = card.figures(initiator, target);
        let more: Vec<u32> = (0..4).map(|figure| now[figure] - before[figure]).collect();
        assert_eq!((before[4], more[2], more[3]), (0, 1, 0));
        if now[4] == 0 {
            assert_eq!(more, [waited + 1, 1, 1, 0]);
            return waited;
        }
    }
    panic!("not connected in {ports} times {ports} slots")
}

#[test]
fn a_request_that_waits_w_slots_and_is_connected_is_one_fresh_request() {
    for ports in 1..=16 {
        for mode in [CENTRAL, 16, 17] {
            let mut card = Card::new(ports, mode);
            let mut longest = 0;
            for pair in (0..ports * ports).step_by(1 + ports / 5) {
                let waited = waits_until_connected(&mut card, pair / ports, pair % ports);
                longest = longest.max(waited);
            }
            assert!(ports < 3 || longest > 0, "nobody waited on {ports} ports");
            card.balances();
        }
    }
}

#[test]
fn a_host_that_gives_up_withdraws_once() {
    let mut card = Card::new(3, CENTRAL);
    let slot = |card: &mut Card, rows: [u16; 3]| {
        let (due, hosts) = (card.state.due, rows.map(Config::asking));
        assert!(card.takes(due, &block(&hosts)));
        assert!(!card.takes(due, &block(&hosts)));
    };
    // host 0 is favoured for target 0; host 1 asks, waits and gives up, and asks again later
    slot(&mut card, [1, 1, 0]);
    assert_eq!(card.figures(1, 0), [1, 0, 1, 0, 1]);
    slot(&mut card, [0, 0, 1]);
    assert_eq!(card.figures(1, 0), [1, 0, 1, 1, 0]);
    slot(&mut card, [0, 0, 0]);
    assert_eq!(card.figures(1, 0), [1, 0, 1, 1, 0]);
    slot(&mut card, [0, 1, 0]);
    assert_eq!(card.figures(1, 0), [2, 1, 2, 1, 0]);
    card.balances();
}
