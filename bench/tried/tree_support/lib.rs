//! What the tests of an index and of its nodes share: a walk over a tree, which tells what is wrong
//! with it, an index of numbers as tests call it, and scenarios that are played over an index of
//! either size.
#![tactic(auto)]

mod flaw;
mod index;
mod numbers;
mod scenario;
mod walker;

pub use flaw::Flaw;
pub use index::flaws;
pub use numbers::{MoreCalls, Numbers, ascend, put};
pub use scenario::{OwnScenario, Scenario, succeeds_at_both_sizes, succeeds_by_own_calls};
pub use walker::walk;
