//! Tests of calls on a whole index whose clauses say what they answer: a value that is stored where
//! its key is absent, pairs that are stored one after another, copies, look-ups of texts, values
//! that are changed where they stand, removals that return the pair, equality, order, hashes and
//! cursors; and of these calls, and those of a set, in which an allocation fails.
#![tactic(auto)]

#[cfg(test)]
mod changes;
#[cfg(test)]
mod collects;
#[cfg(test)]
mod copies;
#[cfg(test)]
mod cursors;
#[cfg(test)]
mod equality;
#[cfg(test)]
mod indexes;
#[cfg(test)]
mod order;
#[cfg(test)]
mod present;
#[cfg(test)]
mod refusals;
#[cfg(test)]
mod set_refusals;
#[cfg(test)]
mod sets;
#[cfg(test)]
mod takes;
#[cfg(test)]
mod texts;

#[cfg(test)]
use std::alloc::AllocError;
#[cfg(test)]
use tree_support::Numbers;

// Makes the index one of the keys 0, 2, 4 and so on, so many, each with its key as its value, that
// were stored in ascending order. Removes the last of them if `is_emptied`, so that its leaf has
// no pair where it stood alone.
#[cfg(test)]
fn refill(index: &mut impl Numbers, count: u64, is_emptied: bool) -> Result<(), AllocError> {
    index.clear();
    for number in 0..count {
        let key = number.wrapping_mul(2);
        if index.upsert(key, key).is_err() {
            return Err(AllocError);
        }
    }
    if is_emptied {
        index.remove(count.wrapping_sub(1).wrapping_mul(2));
    }
    Ok(())
}

// How many pairs an index is filled with, and whether the last one is removed: none, one, a full
// leaf, a last leaf that a removal emptied, and three levels.
#[cfg(test)]
type Fill = (u64, bool);

#[cfg(test)]
static FILLS: [Fill; 5] = [
    (0, false),
    (1, false),
    (15, false),
    (16, true),
    (3616, false),
];

// The same for leaves of seven pairs.
#[cfg(test)]
static SMALL_FILLS: [Fill; 5] = [(0, false), (1, false), (7, false), (8, true), (400, false)];

// The fills of an index with so many pairs a leaf.
#[cfg(test)]
fn fills(pairs_a_leaf: usize) -> &'static [Fill] {
    if pairs_a_leaf == 7 {
        &SMALL_FILLS
    } else {
        &FILLS
    }
}
