//! What the tests of a store share.
#![tactic(auto)]

pub mod script;
pub mod torn;
pub mod writes;
