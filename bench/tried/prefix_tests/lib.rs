//! Tests of prefixes, whose clauses say what their calls return: each allocation of a call fails once.
#![tactic(auto)]

#[cfg(test)]
mod prefixes;
