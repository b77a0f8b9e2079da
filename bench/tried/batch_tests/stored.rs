//! Indexes of even numbers, and keys to ask for.
use std::alloc::{AllocError, Global};
use tree_index::TreeIndexOf;

/// Keys to ask for: stored ones, absent ones between them and behind them, in no order, some twice.
pub fn keys_of(alloc: Global, count: usize, stored: u64) -> Result<Vec<u64>, AllocError> {
    let mut keys = Vec::with_capacity(alloc, count)?;
    let numbers = stored.wrapping_mul(2).wrapping_add(3);
    for place in 0..count as u64 {
        let number = place.wrapping_mul(place).wrapping_mul(1_000_003);
        keys.push(number.checked_rem(numbers).unwrap_or(0))?;
    }
    Ok(keys)
}

/// The even numbers below twice the count are stored, each with the next number as its value.
pub fn stored_at(key: u64, stored: u64) -> Option<u64> {
    if key & 1 == 0 && key < stored.wrapping_mul(2) {
        Some(key.wrapping_add(1))
    } else {
        None
    }
}

/// Stores as many even numbers in an empty index, or in one that is emptied first.
pub fn fill<const LEN: usize>(
    index: &mut TreeIndexOf<u64, u64, LEN>,
    stored: u64,
) -> Result<(), AllocError> {
    index.clear();
    for number in 0..stored {
        let key = number.wrapping_mul(2);
        if index.insert_sync(key, key.wrapping_add(1)).is_err() {
            return Err(AllocError);
        }
    }
    Ok(())
}
