//! What the tests and the benchmarks share: the C form's calls, an independent account of what
//! documents 01 and 02 promise of each, and random slots to hold one against the other.

pub mod calls;
pub mod captures;
pub mod frames;
pub mod ledger;
pub mod lent;
pub mod matching;
pub mod measured;
pub mod promises;
pub mod queues;
pub mod random;
pub mod salvages;
pub mod scheduler;
pub mod slots;
pub mod trace_calls;
pub mod traces;
pub mod traffic;
