//! Calls of a store in which an allocation fails.
#![tactic(auto)]

#[cfg(test)]
mod refusals;
