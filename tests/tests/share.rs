//! The share: of W slots served one after another, a pair that waits in all of them is
//! connected in at least W / n² (rounded down), whatever other hosts do and whatever calls are
//! declined in between. A pair waits if its initiator is heard and enabled, asks for the target
//! and plans nothing, and no enabled host plans that target. Where all of them are diagonal first,
//! it is connected once in any n + 1 and n times in any n².

use bellacush_tests::frames::Config;
use bellacush_tests::random::{cases, Random};
use bellacush_tests::slots::{block, Slot, State};
use bellacush_tests::traffic::Traffic;

#[derive(Clone, Copy, Debug)]
struct Pair {
    initiator: usize,
    target: usize,
}

/// Hosts at random, but so that the pair waits.
fn random_hosts(random: &mut Random, ports: usize, pair: Pair) -> Vec<u8> {
    let mut traffic = Traffic::any(random);
    traffic.planned = traffic.planned.min(4);
    let mut frames: Vec<Vec<u8>> = Vec::new();
    for host in 0..ports {
        let mut config = traffic.config(random);
        config.ben |= 1 << pair.initiator;
        config.pre &= !(1 << pair.target);
        if host == pair.initiator {
            config.req |= 1 << pair.target;
            config.pre = 0;
        }
        let quiet = host != pair.initiator && random.chance(traffic.spoilt, 64);
        frames.push(if quiet { vec![0; 11] } else { config.frame() });
    }
    frames.concat()
}

/// The hardest case: all others want that target alone, and the pair's initiator wants all.
fn crowded_hosts(ports: usize, pair: Pair) -> Vec<u8> {
    let mut hosts = vec![Config::asking(1 << pair.target); ports];
    hosts[pair.initiator].req = 0xFFFF;
    block(&hosts)
}

fn decline(random: &mut Random, call: &Slot) {
    let mut other = call.clone();
    match random.below(3) {
        0 => other.slot = call.slot.wrapping_sub(1),
        1 => other.slot = call.slot.wrapping_add(1),
        _ => other.mode = 18,
    }
    let after = other.called();
    assert_eq!(after, other.kept(after.number()));
}

/// In which of the slots served from this state the pair was connected.
fn connected(
    random: &mut Random,
    mut state: State,
    slots: usize,
    pair: Pair,
    mode: Option<u32>,
    mut hosts: impl FnMut(&mut Random) -> Vec<u8>,
) -> Vec<bool> {
    (0..slots)
        .map(|_| {
            let mode = mode.unwrap_or_else(|| random.below(18) as u32);
            let block = hosts(random);
            let call = Slot::due(state, mode, block);
            for _ in 0..random.below(3) {
                decline(random, &call);
            }
            let after = call.called();
            assert_eq!(after.number(), 0);
            state = State::read(&after.state);
            after.joins(pair.initiator, pair.target)
        })
        .collect()
}

/// Every stretch of W slots has its W / n² at the least.
fn has_its_share(connected: &[bool], ports: usize) {
    let mut sums = vec![0];
    for &hit in connected {
        sums.push(sums[sums.len() - 1] + usize::from(hit));
    }
    for start in 0..sums.len() {
        for end in start..sums.len() {
            let least = (end - start) / (ports * ports);
            assert!(
                sums[end] - sums[start] >= least,
                "below {least} in slots {start}..{end} of {ports} ports"
            );
        }
    }
}

fn any_pair(random: &mut Random, ports: usize) -> Pair {
    Pair {
        initiator: random.below(ports),
        target: random.below(ports),
    }
}

/// Two operators may share the shelf; the pair is of one of them.
fn any_state(random: &mut Random, ports: usize, pair: Pair) -> State {
    let place = any_pair(random, ports);
    let some = random.word();
    let owners = random.pick(&[0, some]) & !(1 << pair.target);
    let same = (owners >> pair.initiator & 1) << pair.target;
    State::at(ports, place.initiator, place.target, random.long()).owned(owners | same)
}

#[test]
fn of_a_pair_among_random_hosts() {
    let mut random = Random::of_test("share_among_random_hosts");
    for ports in 1..=16 {
        for _ in 0..cases(4) {
            let pair = any_pair(&mut random, ports);
            let state = any_state(&mut random, ports, pair);
            let slots = 3 * ports * ports + random.below(30);
            let hits = connected(&mut random, state, slots, pair, None, |random| {
                random_hosts(random, ports, pair)
            });
            has_its_share(&hits, ports);
        }
    }
}

#[test]
fn of_every_pair_that_all_others_crowd() {
    let mut random = Random::of_test("share_in_a_crowd");
    for ports in 2..=6 {
        for place in 0..ports * ports {
            let pair = Pair {
                initiator: place % ports,
                target: place / ports,
            };
            for mode in [0, 1, 4, 16, 17] {
                let state = any_state(&mut random, ports, pair);
                let slots = 3 * ports * ports;
                let hits = connected(&mut random, state, slots, pair, Some(mode), |_| {
                    crowded_hosts(ports, pair)
                });
                has_its_share(&hits, ports);
            }
        }
    }
}

#[test]
fn of_a_crowded_pair_of_sixteen_ports() {
    let mut random = Random::of_test("share_in_a_crowd_of_sixteen");
    for mode in [0, 1, 4, 17] {
        let pair = any_pair(&mut random, 16);
        let state = any_state(&mut random, 16, pair);
        let hits = connected(&mut random, state, 520, pair, Some(mode), |_| {
            crowded_hosts(16, pair)
        });
        has_its_share(&hits, 16);
    }
}

/// How often at the least the pair was connected in so many slots one after another.
fn least_in(connected: &[bool], slots: usize) -> usize {
    let sum = |part: &[bool]| part.iter().filter(|&&hit| hit).count();
    connected.windows(slots).map(sum).min().unwrap_or(0)
}

fn has_its_diagonal_share(connected: &[bool], ports: usize) {
    assert!(least_in(connected, ports + 1) >= 1);
    assert!(least_in(connected, ports * ports) >= ports);
}

#[test]
fn of_a_pair_diagonal_first_among_random_hosts() {
    let mut random = Random::of_test("share_diagonal_first_among_random_hosts");
    for ports in 1..=16 {
        for _ in 0..cases(4) {
            let pair = any_pair(&mut random, ports);
            let state = any_state(&mut random, ports, pair);
            let slots = 2 * ports * ports + 2 * ports;
            let hits = connected(&mut random, state, slots, pair, Some(17), |random| {
                random_hosts(random, ports, pair)
            });
            has_its_diagonal_share(&hits, ports);
        }
    }
}

/// Where all others want that target alone, it has just that share, and is kept out for n slots.
#[test]
fn of_every_pair_diagonal_first_that_all_others_crowd() {
    let mut random = Random::of_test("share_diagonal_first_in_a_crowd");
    for ports in 2..=16 {
        for place in 0..ports * ports {
            let pair = Pair {
                initiator: place % ports,
                target: place / ports,
            };
            let state = any_state(&mut random, ports, pair).owned(0);
            let slots = 2 * ports * ports + ports;
            let hits = connected(&mut random, state, slots, pair, Some(17), |_| {
                crowded_hosts(ports, pair)
            });
            has_its_diagonal_share(&hits, ports);
            assert_eq!(least_in(&hits, ports * ports), ports);
            assert_eq!(least_in(&hits, ports), 0);
        }
    }
}

/// The worst case that is proved: all ask for target 0, from offsets (1, 0) on.
#[test]
fn host_0_can_be_kept_out_for_n_slots_diagonal_first() {
    for ports in 2..=16 {
        let mut state = State::at(ports, 1, 0, 0);
        for served in 0..=ports {
            let call = Slot::of_hosts(state, 17, &vec![Config::asking(1); ports]);
            let after = call.agreed();
            assert_eq!(after.number(), 0);
            assert_eq!(after.joins(0, 0), served == ports, "{ports} ports");
            state = State::read(&after.state);
        }
    }
}
