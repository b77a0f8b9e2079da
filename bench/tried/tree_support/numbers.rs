//! An index of numbers, as its tests call it.
use crate::walker::copied;
use std::alloc::AllocError;
use std::ops::Bound;
use tree_index::{InsertError, TreeIndexOf};

/// An index of numbers, as its tests call it. Each function makes one call.
pub trait Numbers {
    /// Returns how many pairs a leaf holds.
    fn pairs_a_leaf(&self) -> usize;

    /// Calls `len`.
    fn len(&self) -> usize;

    /// Calls `is_empty`.
    fn is_empty(&self) -> bool;

    /// Calls `depth`.
    fn depth(&self) -> usize;

    /// Calls `spare`.
    fn spare(&self) -> u8;

    /// Calls `insert_sync`.
    fn insert(&mut self, key: u64, value: u64) -> Result<(), InsertError<u64, u64>>;

    /// Calls `upsert_sync`.
    fn upsert(&mut self, key: u64, value: u64) -> Result<(), (u64, u64)>;

    /// Calls `remove_sync`.
    fn remove(&mut self, key: u64) -> bool;

    /// Calls `clear`.
    fn clear(&mut self);

    /// Calls `peek`.
    fn peek(&self, key: u64) -> Option<u64>;
}

/// The calls that few tests make.
pub trait MoreCalls: Numbers {
    /// Calls `replace_sync`.
    fn replace(&mut self, key: u64, value: u64) -> Result<u64, u64>;

    /// Calls `take_sync`.
    fn take(&mut self, key: u64) -> Option<(u64, u64)>;

    /// Calls `pop_first`.
    fn pop_first(&mut self) -> Option<(u64, u64)>;

    /// Calls `pop_last`.
    fn pop_last(&mut self) -> Option<(u64, u64)>;

    /// Calls `first`.
    fn first(&self) -> Option<(u64, u64)>;

    /// Calls `last`.
    fn last(&self) -> Option<(u64, u64)>;

    /// Calls `at_or_below`.
    fn at_or_below(&self, key: u64) -> Option<(u64, u64)>;

    /// Calls `at_or_above`.
    fn at_or_above(&self, key: u64) -> Option<(u64, u64)>;

    /// Returns the value that `peek_or_insert` lends.
    fn lent(&mut self, key: u64, value: u64) -> Result<u64, AllocError>;

    /// Adds to the value at a key by `modify_sync`, and returns whether there is one.
    fn add(&mut self, key: u64, amount: u64) -> bool;

    /// Calls `try_extend`.
    fn extend(&mut self, pairs: Vec<(u64, u64)>) -> Result<(), AllocError>;

    /// Keeps the even keys by `retain_sync`.
    fn keep_even(&mut self);

    /// Keeps the values above this one by `retain_sync`.
    fn keep_larger(&mut self, most: u64);

    /// Returns the last pair of a range over all pairs.
    fn last_in_range(&self) -> Option<(u64, u64)>;
}

impl<const LEN: usize> Numbers for TreeIndexOf<u64, u64, LEN> {
    fn pairs_a_leaf(&self) -> usize {
        LEN
    }

    fn len(&self) -> usize {
        TreeIndexOf::len(self)
    }

    fn is_empty(&self) -> bool {
        TreeIndexOf::is_empty(self)
    }

    fn depth(&self) -> usize {
        TreeIndexOf::depth(self)
    }

    fn spare(&self) -> u8 {
        TreeIndexOf::spare(self)
    }

    fn insert(&mut self, key: u64, value: u64) -> Result<(), InsertError<u64, u64>> {
        self.insert_sync(key, value)
    }

    fn upsert(&mut self, key: u64, value: u64) -> Result<(), (u64, u64)> {
        self.upsert_sync(key, value)
    }

    fn remove(&mut self, key: u64) -> bool {
        self.remove_sync(&key)
    }

    fn clear(&mut self) {
        TreeIndexOf::clear(self);
    }

    fn peek(&self, key: u64) -> Option<u64> {
        TreeIndexOf::peek(self, &key).copied()
    }
}

impl<const LEN: usize> MoreCalls for TreeIndexOf<u64, u64, LEN> {
    fn replace(&mut self, key: u64, value: u64) -> Result<u64, u64> {
        self.replace_sync(&key, value)
    }

    fn take(&mut self, key: u64) -> Option<(u64, u64)> {
        self.take_sync(&key)
    }

    fn pop_first(&mut self) -> Option<(u64, u64)> {
        TreeIndexOf::pop_first(self)
    }

    fn pop_last(&mut self) -> Option<(u64, u64)> {
        TreeIndexOf::pop_last(self)
    }

    fn first(&self) -> Option<(u64, u64)> {
        copied(TreeIndexOf::first(self))
    }

    fn last(&self) -> Option<(u64, u64)> {
        copied(TreeIndexOf::last(self))
    }

    fn at_or_below(&self, key: u64) -> Option<(u64, u64)> {
        copied(TreeIndexOf::at_or_below(self, &key))
    }

    fn at_or_above(&self, key: u64) -> Option<(u64, u64)> {
        copied(TreeIndexOf::at_or_above(self, &key))
    }

    fn lent(&mut self, key: u64, value: u64) -> Result<u64, AllocError> {
        match self.peek_or_insert(key, value) {
            Ok(value) => Ok(*value),
            Err(_) => Err(AllocError),
        }
    }

    fn add(&mut self, key: u64, amount: u64) -> bool {
        self.modify_sync(&key, |value| value.wrapping_add(amount))
    }

    fn extend(&mut self, pairs: Vec<(u64, u64)>) -> Result<(), AllocError> {
        match self.try_extend(pairs) {
            Ok(()) => Ok(()),
            Err(_) => Err(AllocError),
        }
    }

    fn keep_even(&mut self) {
        self.retain_sync(|key, _| key % 2 == 0);
    }

    fn keep_larger(&mut self, most: u64) {
        self.retain_sync(|_, value| *value > most);
    }

    fn last_in_range(&self) -> Option<(u64, u64)> {
        let mut range = self.range((Bound::Unbounded, Bound::Unbounded));
        copied(range.next_back())
    }
}

/// Stores a pair. Returns `Err` if it is refused, for whatever reason.
pub fn put(index: &mut impl Numbers, key: u64, value: u64) -> Result<(), AllocError> {
    match index.insert(key, value) {
        Ok(()) => Ok(()),
        Err(_) => Err(AllocError),
    }
}

/// Stores the numbers from the first to the last, each times a factor, as its own value.
pub fn ascend(
    index: &mut impl Numbers,
    first: u64,
    last: u64,
    factor: u64,
) -> Result<(), AllocError> {
    for number in first..=last {
        let key = number.saturating_mul(factor);
        put(index, key, key)?;
    }
    Ok(())
}
