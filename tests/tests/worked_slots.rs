//! Document 01's worked slots A to I, through the C form.

use bellacush_tests::frames::Config;
use bellacush_tests::slots::{asking, set, After, Slot, State, CENTRAL};

fn slot(ports: usize, offsets: (usize, usize), mode: u32, hosts: &[Config]) -> After {
    let state = State::at(ports, offsets.0, offsets.1, 9);
    let after = Slot::of_hosts(state, mode, hosts).agreed();
    assert_eq!(after.number(), 0);
    after
}

fn hosts_of_b() -> Vec<Config> {
    asking(&[&[0, 1], &[0], &[1, 2]])
}

fn hosts_of_i() -> Vec<Config> {
    asking(&[&[0, 1], &[0, 1, 2], &[2]])
}

#[test]
fn a_joins_the_only_pair() {
    let after = slot(1, (0, 0), CENTRAL, &asking(&[&[0]]));
    assert_eq!((after.line().as_str(), after.rounds()), ("0:0", 0));
}

#[test]
fn b_joins_two_though_three_could_be() {
    let after = slot(3, (0, 0), CENTRAL, &hosts_of_b());
    assert_eq!((after.line().as_str(), after.rounds()), ("0:0 1:- 2:1", 0));
}

#[test]
fn c_joins_three_from_other_offsets() {
    let after = slot(3, (2, 0), CENTRAL, &hosts_of_b());
    assert_eq!(after.line(), "0:1 1:0 2:2");
}

#[test]
fn d_breaks_a_tie_by_the_rotation() {
    let after = slot(3, (1, 2), CENTRAL, &asking(&[&[0, 2], &[], &[1, 2]]));
    assert_eq!(after.line(), "0:0 1:- 2:2");
}

#[test]
fn e_loses_a_later_diagonal_position() {
    let after = slot(3, (0, 0), CENTRAL, &asking(&[&[], &[0, 1], &[]]));
    assert_eq!(after.line(), "0:- 1:0 2:-");
}

#[test]
fn f_keeps_a_planned_multicast() {
    let mut hosts = asking(&[&[0, 3], &[0, 1], &[], &[]]);
    hosts[3].pre = set(&[1, 3]);
    hosts[0].pre = set(&[3]);
    let after = slot(4, (3, 1), CENTRAL, &hosts);
    assert_eq!(after.line(), "0:0 1:- 2:- 3:1,3");
}

#[test]
fn g_disables_nobody_by_one_vote() {
    let mut hosts = asking(&[&[0], &[0]]);
    hosts[1].ben = !1;
    let after = slot(2, (0, 0), CENTRAL, &hosts);
    assert_eq!(after.line(), "0:0 1:-");
}

#[test]
fn h_runs_one_distributed_round() {
    let after = slot(3, (0, 0), 1, &hosts_of_b());
    assert_eq!((after.line().as_str(), after.rounds()), ("0:0 1:- 2:2", 1));
}

#[test]
fn i_at_limit_1_joins_two() {
    let after = slot(3, (2, 0), 1, &hosts_of_i());
    assert_eq!((after.line().as_str(), after.rounds()), ("0:1 1:- 2:2", 1));
}

#[test]
fn i_at_limit_2_joins_three() {
    let after = slot(3, (2, 0), 2, &hosts_of_i());
    assert_eq!((after.line().as_str(), after.rounds()), ("0:1 1:0 2:2", 2));
}

#[test]
fn i_at_every_greater_limit_runs_two_rounds() {
    for limit in 3..=16 {
        let after = slot(3, (2, 0), limit, &hosts_of_i());
        assert_eq!((after.line().as_str(), after.rounds()), ("0:1 1:0 2:2", 2));
    }
}
