//! Writes in which an allocation may fail, and what is asked of an index then.
use crate::refusals::keys::Named;
use std::alloc::{AllocError, Global};
use std::ops::Bound;
use std::process::Abort;
use test_support::refusals::{begins, ends, is_granted_again};
use tree_index::{InsertError, TreeIndexOf};

/// An index of names.
pub type Names<const LEN: usize> = TreeIndexOf<Named, u64, LEN>;

// The name of a key that is written.
const WRITTEN: &str = "written";

// The key of a number that is written.
pub(crate) fn written(alloc: Global, number: u64) -> Result<Named, AllocError> {
    let mut key = Named::bare(alloc, number);
    key.name.push_str(WRITTEN)?;
    Ok(key)
}

/// The call that stores a pair.
#[derive(Clone, Copy)]
pub enum Call {
    Insert,
    Upsert,
}

impl Call {
    // The name by which the sweep of refusals knows the call.
    fn name(self) -> &'static str {
        match self {
            Call::Insert => "TreeIndex::insert_sync",
            Call::Upsert => "TreeIndex::upsert_sync",
        }
    }
}

/// An index of names, as its tests call it.
pub trait NamedKeys {
    /// Calls `insert_sync`.
    fn insert(&mut self, key: Named, value: u64) -> Result<(), InsertError<Named, u64>>;

    /// Calls `upsert_sync`.
    fn upsert(&mut self, key: Named, value: u64) -> Result<(), (Named, u64)>;

    /// Calls `remove_sync`.
    fn remove(&mut self, key: &Named) -> bool;

    /// Removes the pair of a key by `remove_if_sync` if its value is above 0.
    fn remove_positive(&mut self, key: &Named) -> bool;

    /// Removes the keys up to this one by `remove_range_sync`.
    fn remove_up_to(&mut self, key: &Named);

    /// Calls `clear`.
    fn clear(&mut self);

    /// Calls `peek`.
    fn peek(&self, key: &Named) -> Option<u64>;

    /// Calls `contains`.
    fn contains(&self, key: &Named) -> bool;

    /// Calls `len`.
    fn len(&self) -> usize;

    /// Calls `is_empty`.
    fn is_empty(&self) -> bool;

    /// Calls `depth`.
    fn depth(&self) -> usize;

    /// Whether the range from a key to itself has that key alone.
    fn is_alone(&self, key: &Named) -> bool;

    /// Whether a walk from the first pair gives these, where the key of this number has a name.
    fn ascends(&self, pairs: &[(u64, u64)], number: u64) -> bool;

    /// Whether a walk from the last pair gives these.
    fn descends(&self, pairs: &[(u64, u64)], number: u64) -> bool;
}

impl<const LEN: usize> NamedKeys for Names<LEN> {
    fn insert(&mut self, key: Named, value: u64) -> Result<(), InsertError<Named, u64>> {
        self.insert_sync(key, value)
    }

    fn upsert(&mut self, key: Named, value: u64) -> Result<(), (Named, u64)> {
        self.upsert_sync(key, value)
    }

    fn remove(&mut self, key: &Named) -> bool {
        self.remove_sync(key)
    }

    fn remove_positive(&mut self, key: &Named) -> bool {
        self.remove_if_sync(key, |value| *value > 0)
    }

    fn remove_up_to(&mut self, key: &Named) {
        self.remove_range_sync((Bound::Unbounded, Bound::Included(key)));
    }

    fn clear(&mut self) {
        TreeIndexOf::clear(self);
    }

    fn peek(&self, key: &Named) -> Option<u64> {
        TreeIndexOf::peek(self, key).copied()
    }

    fn contains(&self, key: &Named) -> bool {
        TreeIndexOf::contains(self, key)
    }

    fn len(&self) -> usize {
        TreeIndexOf::len(self)
    }

    fn is_empty(&self) -> bool {
        TreeIndexOf::is_empty(self)
    }

    fn depth(&self) -> usize {
        TreeIndexOf::depth(self)
    }

    fn is_alone(&self, key: &Named) -> bool {
        is_alone(self, key)
    }

    fn ascends(&self, pairs: &[(u64, u64)], number: u64) -> bool {
        ascends(self, pairs, number)
    }

    fn descends(&self, pairs: &[(u64, u64)], number: u64) -> bool {
        descends(self, pairs, number)
    }
}

// Stores a pair. Returns it if an allocation fails.
pub(crate) fn store(
    index: &mut impl NamedKeys,
    by: Call,
    key: Named,
    value: u64,
) -> Result<(), (Named, u64)> {
    match by {
        Call::Upsert => index.upsert(key, value),
        Call::Insert => match index.insert(key, value) {
            Err(InsertError::OutOfMemory(key, value)) => Err((key, value)),
            _ => Ok(()),
        },
    }
}

// Whether an entry is this pair, as it was stored: without a name, or with one if it has the
// number of the key that was written.
fn is_stored((key, value): (&Named, &u64), pair: (u64, u64), number: u64) -> bool {
    let name = if key.number == number { WRITTEN } else { "" };
    (key.number, *value) == pair && key.name.as_str() == name
}

// Whether the index has these pairs, walked from both ends. No key has a name but that of this
// number, which was written; with 0 none was.
pub(crate) fn stands(index: &impl NamedKeys, pairs: &[(u64, u64)], number: u64) -> bool {
    index.len() == pairs.len() && index.ascends(pairs, number) && index.descends(pairs, number)
}

// Whether the range from a key to itself has that key alone.
fn is_alone<const LEN: usize>(index: &Names<LEN>, key: &Named) -> bool {
    let mut range = index.range((Bound::Included(key), Bound::Included(key)));
    let is_first = range.next().is_some_and(|(at, _)| at.number == key.number);
    let is_last = range.next_back().is_none();
    is_first && is_last
}

// Whether a walk from the first pair gives these.
fn ascends<const LEN: usize>(index: &Names<LEN>, pairs: &[(u64, u64)], number: u64) -> bool {
    let mut walk = index.iter();
    for pair in pairs {
        if !walk
            .next()
            .is_some_and(|entry| is_stored(entry, *pair, number))
        {
            return false;
        }
    }
    walk.next().is_none()
}

// Whether a walk from the last pair gives these.
fn descends<const LEN: usize>(index: &Names<LEN>, pairs: &[(u64, u64)], number: u64) -> bool {
    let mut walk = index.iter();
    for pair in pairs.iter().rev() {
        if !walk
            .next_back()
            .is_some_and(|entry| is_stored(entry, *pair, number))
        {
            return false;
        }
    }
    walk.next_back().is_none()
}

// Writes a pair to an index of these pairs. Returns its key if an allocation fails: the very pair
// came back then, and the index stood.
fn write_once(
    rt: &impl Abort,
    alloc: Global,
    index: &mut impl NamedKeys,
    pairs: &[(u64, u64)],
    by: Call,
    key: Named,
) -> Option<Named> {
    let number = key.number;
    begins(alloc, by.name());
    let written = store(index, by, key, 0);
    ends(alloc);
    let (key, value) = written.err()?;
    assert!(rt; key.number == number && key.name.as_str() == WRITTEN && value == 0);
    assert!(rt; stands(index, pairs, 0));
    Some(key)
}

// Writes a pair to an index of these pairs, at once or the second time. `Err` if nothing can be
// allocated any more.
pub(crate) fn write_twice(
    rt: &impl Abort,
    alloc: Global,
    index: &mut impl NamedKeys,
    pairs: &[(u64, u64)],
    by: Call,
    key: Named,
) -> Result<(), AllocError> {
    let Some(key) = write_once(rt, alloc, index, pairs, by, key) else {
        return Ok(());
    };
    let back = write_once(rt, alloc, index, pairs, by, key);
    assert!(rt; is_granted_again(alloc, by.name(), back.is_none())?);
    Ok(())
}

// The pairs of the keys up to the last one. The value at each key is its number.
pub(crate) fn ascending(alloc: Global, count: u64) -> Result<Vec<(u64, u64)>, AllocError> {
    let mut pairs = Vec::with_capacity(alloc, count as usize)?;
    for key in 1..=count {
        pairs.push((key, key))?;
    }
    Ok(pairs)
}
