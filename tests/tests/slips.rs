//! Small slots, each named for the slip that it refuses. Worked slots A to I let most of these
//! slips pass.

use bellacush_tests::frames::Config;
use bellacush_tests::slots::{asking, set, After, Slot, State, CENTRAL, DIAGONAL};

fn slot(ports: usize, offsets: (usize, usize), mode: u32, hosts: &[Config]) -> After {
    let state = State::at(ports, offsets.0, offsets.1, 9);
    let after = Slot::of_hosts(state, mode, hosts).agreed();
    assert_eq!(after.number(), 0);
    after
}

fn asked(offsets: (usize, usize), mode: u32, rows: &[&[u32]]) -> After {
    slot(rows.len(), offsets, mode, &asking(rows))
}

fn planned(offsets: (usize, usize), mode: u32, asked: &[&[u32]], plans: &[&[u32]]) -> After {
    let mut hosts = asking(asked);
    for (host, plan) in hosts.iter_mut().zip(plans) {
        host.pre = set(plan);
    }
    slot(hosts.len(), offsets, mode, &hosts)
}

fn expect(after: After, line: &str, rounds: u32) {
    assert_eq!((after.line().as_str(), after.rounds()), (line, rounds));
}

/// All offsets and a third place, for every number of ports.
fn everywhere(mut look: impl FnMut(usize, usize, usize, usize)) {
    for n in 1..=16 {
        for place in 0..n * n * n {
            look(n, place % n, place / n % n, place / n / n);
        }
    }
}

// The central form

#[test]
fn central_counting_requests_once_per_slot() {
    expect(
        asked((0, 0), CENTRAL, &[&[1, 2], &[2], &[1]]),
        "0:2 1:- 2:1",
        0,
    );
}

#[test]
fn central_taking_the_last_of_equals() {
    expect(asked((0, 0), CENTRAL, &[&[2], &[2], &[]]), "0:2 1:- 2:-", 0);
}

#[test]
fn central_starting_every_rotation_at_i() {
    expect(asked((0, 0), CENTRAL, &[&[1], &[], &[1]]), "0:- 1:- 2:1", 0);
    expect(asked((0, 2), CENTRAL, &[&[0], &[], &[0]]), "0:- 1:- 2:0", 0);
}

#[test]
fn central_rotation_not_starting_at_i_plus_k() {
    everywhere(|n, i, j, target| {
        // all but the diagonal position ask, so that the one after it is first
        let diagonal = (i + target + n - j) % n;
        let mut hosts = vec![Config::asking(1 << target); n];
        hosts[diagonal].req = 0;
        let after = slot(n, (i, j), CENTRAL, &hosts);
        assert_eq!(after.joins((diagonal + 1) % n, target), n > 1);
    });
}

#[test]
fn central_not_favouring_the_diagonal() {
    expect(
        asked((0, 0), CENTRAL, &[&[1], &[1, 2], &[]]),
        "0:- 1:1 2:-",
        0,
    );
}

#[test]
fn central_taking_all_diagonal_positions_first() {
    expect(asked((0, 0), CENTRAL, &[&[], &[0, 1]]), "0:- 1:0", 0);
}

#[test]
fn central_preferring_many_choices() {
    expect(
        asked((0, 0), CENTRAL, &[&[], &[0, 1], &[0]]),
        "0:- 1:1 2:0",
        0,
    );
}

#[test]
fn central_starting_at_target_0() {
    expect(asked((0, 1), CENTRAL, &[&[0, 1], &[]]), "0:1 1:-", 0);
}

#[test]
fn central_joining_only_the_favoured_pair() {
    expect(asked((0, 0), CENTRAL, &[&[1], &[]]), "0:1 1:-", 0);
}

// The distributed form

#[test]
fn distributed_counting_before_the_favoured_pair_left() {
    expect(asked((0, 0), 1, &[&[0], &[0, 1], &[1]]), "0:0 1:1 2:-", 1);
}

#[test]
fn distributed_counting_before_the_first_round_only() {
    expect(
        asked((0, 0), 2, &[&[1, 2, 3], &[2], &[2, 3], &[1, 3]]),
        "0:3 1:2 2:- 3:1",
        2,
    );
}

#[test]
fn grant_taking_the_last_of_equals() {
    expect(asked((0, 0), 1, &[&[1], &[1], &[]]), "0:- 1:1 2:-", 1);
}

#[test]
fn accept_taking_the_last_of_equals() {
    expect(asked((0, 0), 1, &[&[1, 2], &[], &[]]), "0:1 1:- 2:-", 1);
}

#[test]
fn grant_rotation_starting_at_i_for_every_target() {
    expect(asked((0, 0), 1, &[&[1], &[1]]), "0:- 1:1", 1);
    expect(asked((0, 2), 1, &[&[0], &[0], &[]]), "0:- 1:0 2:-", 1);
}

#[test]
fn grant_rotation_not_starting_at_i_plus_t_minus_j() {
    everywhere(|n, i, j, target| {
        let hosts = vec![Config::asking(1 << target); n];
        let after = slot(n, (i, j), 1, &hosts);
        assert!(after.joins((i + target + n - j) % n, target));
    });
}

#[test]
fn accept_rotation_starting_at_j_for_every_initiator() {
    expect(asked((0, 0), 1, &[&[], &[0, 1]]), "0:- 1:1", 1);
    expect(asked((2, 0), 1, &[&[0, 1], &[], &[]]), "0:1 1:- 2:-", 1);
}

#[test]
fn accept_rotation_not_starting_at_j_plus_i_minus_i() {
    everywhere(|n, i, j, initiator| {
        let mut hosts = vec![Config::asking(0); n];
        hosts[initiator].req = 0xFFFF;
        let after = slot(n, (i, j), 1, &hosts);
        assert!(after.joins(initiator, (j + initiator + n - i) % n));
    });
}

#[test]
fn grant_ignoring_how_many_an_asker_asks() {
    expect(asked((0, 0), 1, &[&[1], &[0, 1]]), "0:1 1:0", 1);
}

#[test]
fn accept_ignoring_how_many_asked_a_target() {
    expect(asked((0, 0), 1, &[&[], &[1, 2], &[0, 1]]), "0:- 1:2 2:0", 1);
}

#[test]
fn distributed_not_joining_the_favoured_pair_first() {
    expect(asked((0, 0), 1, &[&[0, 1], &[0]]), "0:0 1:-", 0);
}

#[test]
fn distributed_leaving_the_favoured_row_live() {
    expect(asked((0, 0), 1, &[&[0, 1], &[]]), "0:0 1:-", 0);
}

#[test]
fn distributed_leaving_the_favoured_column_live() {
    expect(asked((0, 0), 1, &[&[0], &[0]]), "0:0 1:-", 0);
}

#[test]
fn round_using_its_new_matches_when_granting() {
    // target 0 grants initiator 1, and so does target 1 in the same round
    expect(asked((0, 0), 1, &[&[], &[0, 1], &[]]), "0:- 1:1 2:-", 1);
}

#[test]
fn round_using_its_new_matches_when_accepting() {
    // initiator 0 goes to target 2, yet target 1 still counts it among its askers
    expect(asked((0, 0), 1, &[&[1, 2], &[0, 1], &[]]), "0:2 1:0 2:-", 1);
}

#[test]
fn round_accepting_two_grants() {
    expect(
        asked((0, 0), 2, &[&[], &[0, 1], &[2, 3], &[1, 2]]),
        "0:- 1:0 2:3 3:1",
        2,
    );
}

#[test]
fn round_joining_fewer_than_accept() {
    expect(
        asked((0, 0), 1, &[&[1], &[2], &[3], &[0]]),
        "0:1 1:2 2:3 3:0",
        1,
    );
}

#[test]
fn rounds_counting_the_favoured_pair_or_the_limit() {
    for limit in 1..=16 {
        expect(asked((0, 0), limit, &[&[0], &[]]), "0:0 1:-", 0);
        expect(asked((0, 0), limit, &[&[], &[]]), "0:- 1:-", 0);
    }
}

#[test]
fn rounds_beyond_the_first_only_pretended() {
    let rows: [&[u32]; 4] = [&[1, 2, 3], &[1, 3], &[0, 2], &[1, 2, 3]];
    expect(asked((0, 0), 1, &rows), "0:- 1:1 2:0 3:-", 1);
    expect(asked((0, 0), 2, &rows), "0:- 1:1 2:0 3:3", 2);
    expect(asked((0, 0), 3, &rows), "0:2 1:1 2:0 3:3", 3);
    expect(asked((0, 0), 16, &rows), "0:2 1:1 2:0 3:3", 3);
}

// The planned stage

#[test]
fn planned_rotation_starting_at_i_for_every_target() {
    let after = planned((0, 0), CENTRAL, &[&[], &[]], &[&[1], &[1]]);
    expect(after, "0:- 1:1", 0);
    let after = planned((0, 1), 1, &[&[], &[], &[]], &[&[], &[0], &[0]]);
    expect(after, "0:- 1:- 2:0", 0);
}

#[test]
fn planned_rotation_not_starting_at_i_plus_t_minus_j() {
    everywhere(|n, i, j, target| {
        let mut hosts = vec![Config::asking(0); n];
        hosts.iter_mut().for_each(|host| host.pre = 1 << target);
        let after = slot(n, (i, j), CENTRAL, &hosts);
        assert!(after.joins((i + target + n - j) % n, target));
    });
}

#[test]
fn planned_taking_the_last_claimant() {
    let after = planned((0, 0), CENTRAL, &[&[], &[]], &[&[0], &[0]]);
    expect(after, "0:0 1:-", 0);
}

#[test]
fn planned_going_to_the_fewest_claims() {
    let after = planned((0, 0), CENTRAL, &[&[], &[]], &[&[1], &[0, 1]]);
    expect(after, "0:- 1:0,1", 0);
}

#[test]
fn planned_giving_one_target_only() {
    let after = planned((0, 1), CENTRAL, &[&[], &[]], &[&[], &[0, 1]]);
    expect(after, "0:- 1:0,1", 0);
}

#[test]
fn planned_asking_for_the_request_too() {
    for mode in 0..=2 {
        expect(
            planned((1, 1), mode, &[&[], &[]], &[&[0], &[]]),
            "0:0 1:-",
            0,
        );
    }
}

#[test]
fn planner_without_a_target_sitting_the_slot_out() {
    for mode in 0..=2 {
        let after = planned((0, 0), mode, &[&[0], &[]], &[&[1], &[1]]);
        expect(after, "0:0 1:1", 0);
    }
}

#[test]
fn planner_with_a_target_staying_in() {
    for mode in 0..=2 {
        expect(
            planned((0, 0), mode, &[&[], &[1]], &[&[], &[0]]),
            "0:- 1:0",
            0,
        );
        expect(
            planned((0, 0), mode, &[&[1], &[]], &[&[0], &[]]),
            "0:0 1:-",
            0,
        );
    }
}

#[test]
fn planned_target_staying_in() {
    for mode in 0..=2 {
        expect(
            planned((0, 0), mode, &[&[], &[1]], &[&[1], &[]]),
            "0:1 1:-",
            0,
        );
    }
}

#[test]
fn planned_targets_still_counted_as_choices() {
    // target 0 is planned for initiator 3, which leaves initiator 0 one choice, as initiator 1
    let asked: [&[u32]; 4] = [&[0, 1], &[1], &[], &[]];
    let plans: [&[u32]; 4] = [&[], &[], &[], &[0]];
    expect(
        planned((2, 0), CENTRAL, &asked, &plans),
        "0:1 1:- 2:- 3:0",
        0,
    );
    expect(planned((2, 0), 1, &asked, &plans), "0:1 1:- 2:- 3:0", 1);
}

// Who is heard and enabled

/// Initiator 1 asks for target 2 and plans target 3; these hosts vote against it.
fn against_host_1(mode: u32, voters: &[usize]) -> After {
    let mut hosts = asking(&[&[2], &[2], &[], &[]]);
    hosts[1].pre = set(&[3]);
    for &voter in voters {
        hosts[voter].ben = !set(&[1]);
    }
    slot(4, (1, 2), mode, &hosts)
}

#[test]
fn one_vote_disabling() {
    for voter in 0..4 {
        expect(against_host_1(CENTRAL, &[voter]), "0:2 1:3 2:- 3:-", 0);
        expect(against_host_1(1, &[voter]), "0:2 1:3 2:- 3:-", 1);
    }
}

#[test]
fn two_votes_of_heard_hosts_not_disabling() {
    for (one, other) in [(0, 1), (0, 2), (0, 3), (1, 2), (1, 3), (2, 3)] {
        expect(against_host_1(CENTRAL, &[one, other]), "0:2 1:- 2:- 3:-", 0);
        expect(against_host_1(1, &[one, other]), "0:2 1:- 2:- 3:-", 1);
    }
}

#[test]
fn vote_of_a_disabled_host_counting_for_nothing() {
    // hosts 0 and 1 vote against each other, and host 2 against both
    let mut hosts = asking(&[&[0], &[1], &[2]]);
    hosts[0].ben = !set(&[1]);
    hosts[1].ben = !set(&[0]);
    hosts[2].ben = !set(&[0, 1]);
    expect(slot(3, (0, 0), CENTRAL, &hosts), "0:- 1:- 2:2", 0);
}

#[test]
fn vote_of_an_unheard_host_counting() {
    let mut hosts = asking(&[&[0], &[1], &[2]]);
    hosts[1].ben = 0;
    hosts[2].ben = 0;
    let mut call = Slot::of_hosts(State::fresh(3, 9), CENTRAL, &hosts);
    call.block[32] ^= 1;
    assert_eq!(call.agreed().line(), "0:0 1:1 2:-");
}

/// A failing board clears all of ben: what every host gets is what it would get without that.
#[test]
fn one_bad_host_silencing_the_shelf() {
    for n in 1..=16 {
        for bad in 0..n {
            for mode in [CENTRAL, 4] {
                let mut hosts = vec![Config::asking(0xFFFF); n];
                let sound = slot(n, (0, 0), mode, &hosts);
                hosts[bad].ben = 0;
                let after = slot(n, (0, 0), mode, &hosts);
                assert_eq!((after.sets(), after.out), (sound.sets(), sound.out));
            }
        }
    }
}

#[test]
fn two_bad_hosts_stopping_others_than_both_clear() {
    for n in 2..=16 {
        let (half, all) = (!0u16 >> (16 - n / 2), !0u16 >> (16 - n));
        let mut hosts = vec![Config::asking(0xFFFF); n];
        hosts[0].ben = 0;
        hosts[n - 1].ben = !half;
        let after = slot(n, (0, 0), CENTRAL, &hosts);
        for host in 0..n {
            assert_eq!(after.sets()[host] == 0, half >> host & 1 == 1);
        }
        hosts[n - 1].ben = !all;
        let after = slot(n, (0, 0), CENTRAL, &hosts);
        assert!(after.sets().iter().all(|&held| held == 0));
    }
}

#[test]
fn one_port_being_disabled() {
    let mut hosts = asking(&[&[0]]);
    hosts[0].ben = 0;
    expect(slot(1, (0, 0), CENTRAL, &hosts), "0:0", 0);
}

#[test]
fn votes_at_or_above_n_counting() {
    let mut hosts = asking(&[&[0], &[1]]);
    hosts.iter_mut().for_each(|host| host.ben = set(&[0, 1]));
    expect(slot(2, (0, 0), CENTRAL, &hosts), "0:0 1:1", 0);
}

#[test]
fn requests_and_plans_at_or_above_n_counting() {
    for mode in [CENTRAL, 1] {
        // initiator 0 has one choice below n, initiator 1 has one as well
        let mut hosts = asking(&[&[1, 3, 4, 15], &[1], &[]]);
        hosts[2].pre = set(&[3, 9, 15]);
        let after = slot(3, (1, 0), mode, &hosts);
        expect(after, "0:1 1:- 2:-", mode.min(1));
    }
}

// Diagonal first

#[test]
fn diagonal_from_j_and_i() {
    let rows: [&[u32]; 3] = [&[1], &[], &[0, 1, 2]];
    expect(asked((1, 0), DIAGONAL, &rows), "0:- 1:- 2:1", 0);
    expect(asked((1, 0), CENTRAL, &rows), "0:1 1:- 2:0", 0);
}

#[test]
fn diagonal_without_the_central_form() {
    expect(asked((0, 0), DIAGONAL, &[&[1], &[]]), "0:1 1:-", 0);
}

#[test]
fn diagonal_joining_what_is_not_live() {
    let plans: [&[u32]; 2] = [&[1], &[]];
    expect(
        planned((0, 0), DIAGONAL, &[&[], &[1]], &plans),
        "0:1 1:-",
        0,
    );
}

#[test]
fn diagonal_counting_a_round() {
    everywhere(|n, i, j, _| {
        let after = slot(n, (i, j), DIAGONAL, &vec![Config::asking(0xFFFF); n]);
        assert_eq!(after.rounds(), 0);
    });
}

#[test]
fn qen_having_a_part() {
    let mut hosts = asking(&[&[0, 1], &[0, 1]]);
    hosts.iter_mut().for_each(|host| host.qen = 0);
    expect(slot(2, (0, 0), CENTRAL, &hosts), "0:0 1:1", 0);
}
