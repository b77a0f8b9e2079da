//! Tests of an index that is read while it changes: threads that run at once, and failed
//! allocations, of which no proof says anything.
#![tactic(auto)]

#[cfg(test)]
mod answers;
#[cfg(test)]
mod calls;
#[cfg(test)]
mod drops;
#[cfg(test)]
mod plays;
#[cfg(test)]
mod publishes;
#[cfg(test)]
mod race;
#[cfg(test)]
mod refusals;
#[cfg(test)]
mod support;
