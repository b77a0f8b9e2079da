//! Writes, to a store and to an ordered map of the standard library.
use sqlite_disk::Disk;
use std::alloc::AllocError;
use std::collections::BTreeMap;
use std::ops::Bound;
use tree_index::{InsertError, TreeIndex};
use tree_store::TreeStore;

/// A store of numbers.
pub type Store<D> = TreeStore<u64, u64, D>;

/// A plain model of its pairs.
pub type Map = BTreeMap<u64, u64>;

/// A write.
#[derive(Clone, Copy, Debug)]
pub enum Write {
    Insert(u64, u64),
    Upsert(u64, u64),
    Remove(u64),
    Take(u64),
    /// The keys from the first on, below the second.
    RemoveRange(u64, u64),
    Clear,
}

/// What a write answers.
#[derive(Clone, Copy, Debug, PartialEq, Eq)]
pub enum Answer {
    Done,
    Duplicate(u64, u64),
    Removed(bool),
    Taken(Option<(u64, u64)>),
}

/// Makes a write to a store.
pub fn to_store<D: Disk>(store: &mut Store<D>, write: Write) -> Result<Answer, AllocError> {
    Ok(match write {
        Write::Insert(key, value) => match store.insert(key, value) {
            Ok(()) => Answer::Done,
            Err(InsertError::Duplicate(key, value)) => Answer::Duplicate(key, value),
            Err(InsertError::OutOfMemory(..)) => return Err(AllocError),
        },
        Write::Upsert(key, value) => {
            store.upsert(key, value).map_err(|_| AllocError)?;
            Answer::Done
        }
        Write::Remove(key) => Answer::Removed(store.remove(&key)?),
        Write::Take(key) => Answer::Taken(store.take(&key)?),
        Write::RemoveRange(low, high) => {
            store.remove_range((Bound::Included(&low), Bound::Excluded(&high)))?;
            Answer::Done
        }
        Write::Clear => {
            store.clear()?;
            Answer::Done
        }
    })
}

/// Makes a write to a map.
pub fn to_map(map: &mut Map, write: Write) -> Result<Answer, AllocError> {
    Ok(match write {
        Write::Insert(key, value) if map.contains_key(&key) => Answer::Duplicate(key, value),
        Write::Insert(key, value) | Write::Upsert(key, value) => {
            map.insert(key, value).map_err(|_| AllocError)?;
            Answer::Done
        }
        Write::Remove(key) => Answer::Removed(map.remove(&key).is_some()),
        Write::Take(key) => Answer::Taken(map.remove(&key).map(|value| (key, value))),
        Write::RemoveRange(low, high) => {
            map.retain(|key, _| *key < low || *key >= high);
            Answer::Done
        }
        Write::Clear => {
            map.clear();
            Answer::Done
        }
    })
}

/// Whether an index has exactly the pairs of a map.
pub fn has_pairs(index: &TreeIndex<u64, u64>, map: &Map) -> bool {
    let mut found = index.iter();
    for pair in map.iter() {
        if found.next() != Some(pair) {
            return false;
        }
    }
    map.len() == index.len()
}
