//! What could be joined in a slot: the greatest number of live requests of which no two share an
//! initiator or a target, found by augmenting paths.

use crate::promises::hosts;
use crate::scheduler::{planned, Matrix, Planned, Position, MOST_PORTS};
use crate::slots::{After, Slot, State};

struct Matching<'a> {
    live: &'a Matrix,
    /// Whom each target is joined with.
    owner: [Option<usize>; MOST_PORTS],
}

impl Matching<'_> {
    /// Joins the initiator, if need be by moving others to targets not yet seen.
    fn place(&mut self, initiator: usize, seen: &mut [bool; MOST_PORTS]) -> bool {
        (0..MOST_PORTS).any(|target| {
            if !self.live[initiator][target] || seen[target] {
                return false;
            }
            seen[target] = true;
            let free = match self.owner[target] {
                None => true,
                Some(other) => self.place(other, seen),
            };
            if free {
                self.owner[target] = Some(initiator);
            }
            free
        })
    }
}

/// How many pairs the best conflict-free set of these requests has.
pub fn best(live: &Matrix) -> usize {
    let mut matching = Matching {
        live,
        owner: [None; MOST_PORTS],
    };
    (0..MOST_PORTS)
        .filter(|&initiator| matching.place(initiator, &mut [false; MOST_PORTS]))
        .count()
}

/// What came of a slot's live requests: the pairs joined after its planned stage, and the best.
#[derive(Clone, Copy, Debug, PartialEq)]
pub struct Compared {
    pub joined: usize,
    pub best: usize,
}

/// Of a call that was served.
pub fn compared(call: &Slot, after: &After) -> Compared {
    let state = State::read(&call.state);
    let ports = usize::from(state.ports);
    let at = Position {
        ports,
        first_initiator: usize::from(state.initiator),
        first_target: usize::from(state.target),
        owners: state.owners,
    };
    let Planned { given, live } = planned(at, &hosts(&call.block));
    let pairs = (0..ports).flat_map(|initiator| (0..ports).map(move |target| (initiator, target)));
    let joined = pairs
        .filter(|&(initiator, target)| after.joins(initiator, target) && !given[initiator][target]);
    Compared {
        joined: joined.count(),
        best: best(&live),
    }
}
