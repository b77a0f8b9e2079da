//! Tests of look-ups and writes of many keys, whose clauses say what they answer.
#![tactic(auto)]

#[cfg(test)]
mod batches;

#[cfg(test)]
mod stored;

#[cfg(test)]
mod writes;
