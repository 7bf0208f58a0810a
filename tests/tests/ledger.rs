//! The ledger's feed and figures against the independent one, which reads each figure off the
//! whole history. Every word that is lent is compared, before and after.

use bellacush_tests::calls;
use bellacush_tests::ledger::{self, Feed, History, FIGURES_LEN, LEDGER_LEN, TABLES, WAITING};
use bellacush_tests::lent::Lent;
use bellacush_tests::random::{cases, Random};

const ODD_NUMBERS: [u32; 10] = [
    17,
    18,
    255,
    256,
    257,
    65_536,
    65_540,
    1 << 31,
    (1 << 31) + 16,
    u32::MAX,
];

/// All that a feed is lent.
#[derive(Clone, Debug)]
struct Call {
    ledger: Vec<u32>,
    n: u32,
    asked: Vec<u8>,
    connected: Vec<u8>,
}

impl Call {
    fn new(ledger: Vec<u32>, feed: &Feed) -> Call {
        Call {
            ledger,
            n: feed.ports as u32,
            asked: feed.asked_table(),
            connected: feed.connected_table(),
        }
    }

    /// Everybody asks for everything and holds half of it, on sixteen ports.
    fn busy(ledger: Vec<u32>) -> Call {
        let busy = Feed {
            ports: 16,
            asked: vec![0xFFFF; 16],
            connected: vec![0x5555; 16],
        };
        Call::new(ledger, &busy)
    }

    /// The number, seen to be the promised one, and the ledger after it.
    fn agreed(&self) -> (u32, Vec<u32>) {
        let mut ledger = Lent::new(&self.ledger);
        let (asked, connected) = (Lent::new(&self.asked), Lent::new(&self.connected));
        let number = calls::feed(ledger.lend(), self.n, &asked, &connected);
        assert_eq!(asked.back(), self.asked, "the sets asked were changed");
        assert_eq!(
            connected.back(),
            self.connected,
            "the sets connected were changed"
        );
        let (asked, connected) = (self.asked.len(), self.connected.len());
        let promised = ledger::feed_number(&self.ledger, self.n, asked, connected);
        assert_eq!(number, promised, "{self:?}");
        (number, ledger.back())
    }

    fn expect_kept(&self, number: u32) {
        assert_eq!(self.agreed(), (number, self.ledger.clone()));
    }

    fn expect_counted(&self) -> Vec<u32> {
        let (number, ledger) = self.agreed();
        assert_eq!(number, 0);
        ledger
    }
}

fn fresh_ledger() -> Vec<u32> {
    vec![0; LEDGER_LEN]
}

/// Zeros, but for the slots counted.
fn counted(slots: u32) -> Vec<u32> {
    let mut words = fresh_ledger();
    words[0] = slots;
    words
}

fn shown(ledger: &[u32], initiator: u32, target: u32, kept: &[u32]) -> (u32, Vec<u32>) {
    let lent = Lent::new(ledger);
    let mut figures = Lent::new(kept);
    let number = calls::figures(&lent, initiator, target, figures.lend());
    assert_eq!(lent.back(), ledger, "the ledger was changed");
    let answer = (number, figures.back());
    assert_eq!(answer, ledger::figures(ledger, initiator, target, kept));
    answer
}

/// The figures of every pair are the history's, and fresh = connected + withdrawn + open.
fn expect_figures(ledger: &[u32], history: &History) {
    for (initiator, target) in (0..256).map(|pair| (pair / 16, pair % 16)) {
        let (number, figures) = shown(ledger, initiator as u32, target as u32, &[7; FIGURES_LEN]);
        assert_eq!(number, 0);
        assert_eq!(figures, history.figures(initiator, target));
        let [_, connected, fresh, withdrawn, open] = figures[..] else {
            unreachable!("five figures")
        };
        assert_eq!(fresh, connected + withdrawn + open);
        assert!(open <= 1);
    }
}

// Histories

/// Sets at random; now and then those of the slot before, as hosts that wait ask again.
fn any_feed(random: &mut Random, before: Option<&Feed>) -> Feed {
    let asked = random.pick(&[0, 4, 16, 32, 48, 64]);
    let connected = random.pick(&[0, 4, 32, 60, 64]);
    let mut sets = |density| (0..16).map(|_| random.bits(density, 64)).collect();
    let mut feed = Feed {
        ports: 16,
        asked: sets(asked),
        connected: sets(connected),
    };
    feed.ports = random.between(1, 16);
    if let Some(before) = before {
        if random.chance(1, 2) {
            feed.ports = before.ports;
        }
        if random.chance(1, 2) {
            feed.asked = before.asked.clone();
        }
    }
    feed
}

#[test]
fn random_histories_feed_by_feed() {
    let mut random = Random::of_test("random_histories_feed_by_feed");
    for _ in 0..cases(60) {
        let (mut words, mut history) = (fresh_ledger(), History::default());
        for _ in 0..random.between(1, 30) {
            let feed = any_feed(&mut random, history.feeds.last());
            words = Call::new(words, &feed).expect_counted();
            history.feeds.push(feed);
            assert_eq!(words, history.words());
            expect_figures(&words, &history);
        }
    }
}

#[test]
fn long_histories() {
    let mut random = Random::of_test("long_histories");
    let (mut words, mut history) = (fresh_ledger(), History::default());
    for _ in 0..cases(20_000) {
        let feed = any_feed(&mut random, history.feeds.last());
        words = Call::new(words, &feed).expect_counted();
        history.feeds.push(feed);
    }
    assert_eq!(words, history.words());
    expect_figures(&words, &history);
}

/// Random counts, none above the slots counted, and random sets that wait.
fn any_ledger(random: &mut Random) -> Vec<u32> {
    let slots = random.pick(&[1, 2, 1000, 1 << 16, 1 << 31, u32::MAX - 1]);
    let mut words = counted(slots);
    for count in &mut words[1..WAITING] {
        *count = random.pick(&[0, 1, slots / 2, slots - 1, slots]);
    }
    for set in &mut words[WAITING..] {
        *set = u32::from(random.word());
    }
    words
}

/// What a feed adds to each word, if the slot before left `waiting`.
fn added(waiting: &[u32], feed: &Feed) -> Vec<u32> {
    let before = Feed {
        ports: 16,
        asked: waiting.iter().map(|&set| set as u16).collect(),
        connected: vec![0; 16],
    };
    let one = History {
        feeds: vec![before.clone()],
    };
    let two = History {
        feeds: vec![before, feed.clone()],
    };
    let words = two.words().into_iter().zip(one.words());
    words
        .map(|(after, before)| after.wrapping_sub(before))
        .collect()
}

#[test]
fn any_ledger_in_order_is_counted_on_from_what_waits() {
    let mut random = Random::of_test("any_ledger_in_order");
    for _ in 0..cases(2_000) {
        let words = any_ledger(&mut random);
        let feed = any_feed(&mut random, None);
        let after = Call::new(words.clone(), &feed).expect_counted();
        let more = added(&words[WAITING..], &feed);
        for place in 0..LEDGER_LEN {
            assert_eq!(
                after[place],
                words[place].wrapping_add(more[place]),
                "{place}"
            );
        }
    }
}

#[test]
fn bits_from_16_on_of_a_set_that_waits_are_ignored() {
    let mut random = Random::of_test("bits_from_16_on");
    for _ in 0..cases(200) {
        let mut words = any_ledger(&mut random);
        words[0] = words[0].max(2);
        let feed = any_feed(&mut random, None);
        let plain = Call::new(words.clone(), &feed).expect_counted();
        for set in &mut words[WAITING..] {
            *set |= random.long() << 16;
        }
        assert_eq!(Call::new(words, &feed).expect_counted(), plain);
    }
}

#[test]
fn a_request_that_waits_and_is_connected_is_one_fresh_request() {
    for (initiator, target, waits) in [(0, 0, 0), (3, 15, 1), (15, 3, 7), (15, 15, 400)] {
        let mut words = fresh_ledger();
        let mut feed = Feed {
            ports: 16,
            asked: vec![0; 16],
            connected: vec![0; 16],
        };
        feed.asked[initiator] = 1 << target;
        for _ in 0..waits {
            words = Call::new(words, &feed).expect_counted();
        }
        feed.connected[initiator] = 1 << target;
        words = Call::new(words, &feed).expect_counted();
        let (_, figures) = shown(&words, initiator as u32, target as u32, &[7; FIGURES_LEN]);
        assert_eq!(figures, [waits + 1, 1, 1, 0, 0]);
        let others: u32 = words[1..WAITING].iter().sum();
        assert_eq!(others, waits + 3, "another pair was counted");
    }
}

#[test]
fn a_request_of_ports_that_are_gone_is_withdrawn() {
    let full = vec![0xFFFF; 16];
    let slot = |ports| Feed {
        ports,
        asked: full.clone(),
        connected: vec![0; 16],
    };
    for ports in 1..=16 {
        let words = Call::new(fresh_ledger(), &slot(16)).expect_counted();
        let words = Call::new(words, &slot(ports)).expect_counted();
        for pair in 0..256 {
            let stays = pair / 16 < ports && pair % 16 < ports;
            let (_, figures) = shown(&words, (pair / 16) as u32, (pair % 16) as u32, &[7; 5]);
            let wanted = if stays {
                [2, 0, 1, 0, 1]
            } else {
                [1, 0, 1, 1, 0]
            };
            assert_eq!(figures, wanted);
        }
    }
}

// The numbers

#[test]
fn number_1_for_ports_outside_1_to_16() {
    for n in ODD_NUMBERS.into_iter().chain([0]) {
        let mut call = Call::busy(counted(3));
        call.n = n;
        call.expect_kept(1);
    }
    for n in 1..=16 {
        let mut call = Call::busy(counted(3));
        call.n = n;
        call.expect_counted();
    }
}

#[test]
fn number_8_for_other_lengths() {
    let call = Call::busy(counted(3));
    for len in [0, 1, 2, 5, 16, 260, 1040, 1042, 4 * LEDGER_LEN] {
        let mut other = call.clone();
        other.ledger.resize(len, 0);
        other.expect_kept(8);
    }
    for len in (0..=70).filter(|&len| len != 32) {
        let mut other = call.clone();
        other.asked.resize(len, 0);
        other.expect_kept(8);
        other = call.clone();
        other.connected.resize(len, 0);
        other.expect_kept(8);
    }
}

#[test]
fn number_13_for_a_full_ledger() {
    Call::busy(counted(u32::MAX)).expect_kept(13);
    let last = Call::busy(counted(u32::MAX - 1)).expect_counted();
    assert_eq!(last[0], u32::MAX);
    Call::busy(last).expect_kept(13);
}

#[test]
fn number_13_for_a_count_above_the_slots_counted() {
    for slots in [0, 1, 7, 65_535, 1 << 31, u32::MAX - 1] {
        for place in 1..WAITING {
            let mut call = Call::busy(counted(slots));
            call.ledger[place] = slots + 1;
            call.expect_kept(13);
            call.ledger[place] = u32::MAX;
            call.expect_kept(13);
            call.ledger[place] = slots;
            call.expect_counted();
        }
    }
}

#[test]
fn number_13_for_an_open_request_before_the_first_slot() {
    for pair in 0..256 {
        let mut call = Call::busy(fresh_ledger());
        call.ledger[WAITING + pair / 16] = 1 << (pair % 16);
        call.expect_kept(13);
        call.ledger[0] = 1;
        call.expect_counted();
        call.ledger[0] = 0;
        call.ledger[WAITING + pair / 16] = 0x1_0000 << (pair % 16);
        call.expect_counted();
    }
}

/// A number, and what makes a feed be declined with it.
type Reason = (u32, fn(&mut Call));

/// In the order of the tests.
const REASONS: [Reason; 7] = [
    (8, |call| call.ledger.truncate(1040)),
    (8, |call| call.asked.push(0)),
    (8, |call| call.connected.truncate(31)),
    (1, |call| call.n = 17),
    (13, |call| call.ledger[0] = u32::MAX),
    (13, |call| call.ledger[TABLES[3]] = 9),
    (13, |call| call.ledger[TABLES[0] + 255] = u32::MAX),
];

#[test]
fn each_number_goes_before_all_later_ones() {
    for chosen in 1_u32..1 << REASONS.len() {
        let mut call = Call::busy(counted(3));
        let reasons = (0..REASONS.len()).filter(|reason| chosen & (1 << reason) != 0);
        let mut numbers = Vec::new();
        for reason in reasons {
            REASONS[reason].1(&mut call);
            numbers.push(REASONS[reason].0);
        }
        call.expect_kept(numbers[0]);
    }
}

// Figures

#[test]
fn figures_of_any_words_are_shown_as_they_are() {
    let mut random = Random::of_test("figures_of_any_words");
    for _ in 0..cases(50) {
        let words: Vec<u32> = (0..LEDGER_LEN).map(|_| random.long()).collect();
        for pair in 0..256 {
            let (number, _) = shown(&words, pair / 16, pair % 16, &[7; FIGURES_LEN]);
            assert_eq!(number, 0);
        }
    }
}

#[test]
fn number_11_for_a_pair_of_ports_that_no_shelf_has() {
    let words = counted(3);
    for far in ODD_NUMBERS.into_iter().chain([16]) {
        for (initiator, target) in [(far, 0), (0, far), (15, far), (far, 15), (far, far)] {
            let kept = [7; FIGURES_LEN];
            assert_eq!(shown(&words, initiator, target, &kept).0, 11);
        }
    }
}

#[test]
fn number_8_for_figures_goes_before_11() {
    for place in [3, 16, u32::MAX] {
        for len in [0, 1, 1040, 1042] {
            assert_eq!(shown(&vec![0; len], place, place, &[7; FIGURES_LEN]).0, 8);
        }
        for len in [0, 1, 4, 6, 20] {
            assert_eq!(shown(&counted(3), place, place, &vec![7; len]).0, 8);
        }
    }
}
