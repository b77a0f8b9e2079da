//! The index of byte strings.
use std::fmt;
use std::iter::FusedIterator;
use std::ops::{Bound, RangeBounds};

use crate::handle::{Entry, Handle, InsertError, OutOfMemory, Owner};
use crate::raw;

/// How many pairs an iterator reads first. Each time it reads twice as many, up to the most.
const FIRST_AHEAD: usize = 16;
const MOST_AHEAD: usize = 64;

/// An ordered index of byte strings by numbers, in the order of `[u8]`.
///
/// ```
/// use tree_index::ByteIndex;
///
/// # fn main() -> Result<(), Box<dyn std::error::Error>> {
/// let mut words = ByteIndex::new()?;
/// for (at, word) in ["to", "be", "or", "not"].into_iter().enumerate() {
///     words.insert(word, at as u64)?;
/// }
/// assert_eq!(words.peek("or"), Some(2));
/// assert_eq!(words.first(), Some((b"be".to_vec(), 1)));
/// assert_eq!(words.range::<&[u8]>(&b"n"[..]..&b"p"[..]).count(), 2);
/// # Ok(())
/// # }
/// ```
pub struct ByteIndex {
    pub(crate) owner: Owner,
}

impl ByteIndex {
    /// Creates an empty index. Allocates one block.
    pub fn new() -> Result<Self, OutOfMemory> {
        let owner = Owner::open(|handle| unsafe { raw::tree_index_bytes_new(handle) }).map_err(|_| OutOfMemory)?;
        Ok(ByteIndex { owner })
    }

    /// Stores a pair with a copy of its key if the key is absent.
    pub fn insert(&mut self, key: impl AsRef<[u8]>, value: u64) -> Result<(), InsertError> {
        let key = key.as_ref();
        match unsafe { raw::tree_index_bytes_insert(self.owner.get(), key.as_ptr(), key.len(), value) } {
            raw::YES => Ok(()),
            raw::NO => Err(InsertError::Duplicate),
            _ => Err(InsertError::OutOfMemory),
        }
    }

    /// Stores a pair with a copy of its key, in place of one with an equal key.
    pub fn upsert(&mut self, key: impl AsRef<[u8]>, value: u64) -> Result<(), OutOfMemory> {
        let key = key.as_ref();
        match unsafe { raw::tree_index_bytes_upsert(self.owner.get(), key.as_ptr(), key.len(), value) } {
            raw::YES => Ok(()),
            _ => Err(OutOfMemory),
        }
    }

    /// Removes the pair with a key. Returns its value, or `None` if the key is absent. Copies the key meanwhile.
    pub fn remove(&mut self, key: impl AsRef<[u8]>) -> Result<Option<u64>, OutOfMemory> {
        let (key, mut value) = (key.as_ref(), 0);
        match unsafe { raw::tree_index_bytes_take(self.owner.get(), key.as_ptr(), key.len(), &mut value) } {
            raw::YES => Ok(Some(value)),
            raw::NO => Ok(None),
            _ => Err(OutOfMemory),
        }
    }

    /// Removes every pair whose key is within the bounds. Copies the keys of the bounds meanwhile.
    pub fn remove_range<B: AsRef<[u8]>>(&mut self, bounds: impl RangeBounds<B>) -> Result<(), OutOfMemory> {
        let (low_kind, low) = kind_of(bounds.start_bound());
        let (high_kind, high) = kind_of(bounds.end_bound());
        let handle = self.owner.get();
        match unsafe { raw::tree_index_bytes_remove_range(handle, low_kind, low.as_ptr(), low.len(), high_kind, high.as_ptr(), high.len()) } {
            raw::YES => Ok(()),
            _ => Err(OutOfMemory),
        }
    }

    /// Removes every pair whose key begins with a prefix. Returns how many there were. Copies the prefix meanwhile.
    pub fn remove_prefix(&mut self, prefix: impl AsRef<[u8]>) -> Result<usize, OutOfMemory> {
        let (prefix, mut count) = (prefix.as_ref(), 0);
        match unsafe { raw::tree_index_bytes_remove_prefix(self.owner.get(), prefix.as_ptr(), prefix.len(), &mut count) } {
            raw::YES => Ok(count),
            _ => Err(OutOfMemory),
        }
    }

    /// Removes all pairs.
    pub fn clear(&mut self) {
        unsafe { raw::tree_index_clear(self.owner.get()) };
    }

    /// Removes the pair with the smallest key and returns it. Panics if memory for the key is refused, and removes nothing then.
    pub fn pop_first(&mut self) -> Option<(Vec<u8>, u64)> {
        self.pair_by(|handle, key, length, entry| unsafe { raw::tree_index_bytes_pop_first(handle, key, length, entry) })
    }

    /// Removes the pair with the largest key and returns it. Panics if memory for the key is refused, and removes nothing then.
    pub fn pop_last(&mut self) -> Option<(Vec<u8>, u64)> {
        self.pair_by(|handle, key, length, entry| unsafe { raw::tree_index_bytes_pop_last(handle, key, length, entry) })
    }

    /// Returns the value of a key. Copies nothing.
    pub fn peek(&self, key: impl AsRef<[u8]>) -> Option<u64> {
        let (key, mut value) = (key.as_ref(), 0);
        (unsafe { raw::tree_index_bytes_peek(self.owner.get(), key.as_ptr(), key.len(), &mut value) } == raw::YES).then_some(value)
    }

    /// Returns whether a key is present. Copies nothing.
    pub fn contains(&self, key: impl AsRef<[u8]>) -> bool {
        let key = key.as_ref();
        unsafe { raw::tree_index_bytes_contains(self.owner.get(), key.as_ptr(), key.len()) == raw::YES }
    }

    /// Returns the number of pairs. Runs in constant time.
    pub fn len(&self) -> usize {
        self.owner.len()
    }

    /// Returns whether there is no pair.
    pub fn is_empty(&self) -> bool {
        self.len() == 0
    }

    /// Returns the pair with the smallest key. Panics if memory for the key is refused.
    pub fn first(&self) -> Option<(Vec<u8>, u64)> {
        self.pair_by(|handle, key, length, entry| unsafe { raw::tree_index_bytes_first(handle, key, length, entry) })
    }

    /// Returns the pair with the largest key. Panics if memory for the key is refused.
    pub fn last(&self) -> Option<(Vec<u8>, u64)> {
        self.pair_by(|handle, key, length, entry| unsafe { raw::tree_index_bytes_last(handle, key, length, entry) })
    }

    /// Returns the pair with a key, or else the one with the next smaller key. Panics if memory for a key is refused.
    pub fn at_or_below(&self, key: impl AsRef<[u8]>) -> Option<(Vec<u8>, u64)> {
        let sought = key.as_ref();
        self.pair_by(|handle, key, length, entry| unsafe { raw::tree_index_bytes_at_or_below(handle, sought.as_ptr(), sought.len(), key, length, entry) })
    }

    /// Returns the pair with a key, or else the one with the next larger key. Panics if memory for a key is refused.
    pub fn at_or_above(&self, key: impl AsRef<[u8]>) -> Option<(Vec<u8>, u64)> {
        let sought = key.as_ref();
        self.pair_by(|handle, key, length, entry| unsafe { raw::tree_index_bytes_at_or_above(handle, sought.as_ptr(), sought.len(), key, length, entry) })
    }

    /// Returns a copy.
    pub fn try_clone(&self) -> Result<Self, OutOfMemory> {
        Ok(ByteIndex { owner: self.owner.copy()? })
    }

    /// Returns the pairs whose keys are within the bounds, in ascending order and from both ends. Panics if memory for keys
    /// is refused. The type of a bound has to be told where both are open: [`iter`](ByteIndex::iter) needs none.
    pub fn range<B: AsRef<[u8]>>(&self, bounds: impl RangeBounds<B>) -> ByteRange<'_> {
        let owned = |bound: Bound<&B>| bound.map(|key| key.as_ref().to_vec());
        self.between(owned(bounds.start_bound()), owned(bounds.end_bound()))
    }

    /// Returns the pairs whose keys begin with a prefix, in ascending order and from both ends. Panics if memory for keys is
    /// refused.
    ///
    /// ```
    /// # use tree_index::ByteIndex;
    /// let words: ByteIndex = [("plum", 1), ("plus", 2), ("pull", 3)].into_iter().collect();
    /// assert_eq!(words.prefix("plu").map(|(_, value)| value).collect::<Vec<_>>(), [1, 2]);
    /// ```
    pub fn prefix(&self, prefix: impl AsRef<[u8]>) -> ByteRange<'_> {
        let prefix = prefix.as_ref();
        self.between(Bound::Included(prefix.to_vec()), end_of(prefix).expect("memory for the end of a prefix"))
    }

    fn between(&self, low: Bound<Vec<u8>>, high: Bound<Vec<u8>>) -> ByteRange<'_> {
        ByteRange { index: self, low, high, front: Ahead::default(), back: Ahead::default() }
    }

    /// Returns all pairs in ascending order and from both ends.
    pub fn iter(&self) -> ByteRange<'_> {
        self.range::<&[u8]>(..)
    }

    /// Stores each pair, in place of one with an equal key. Stops at the first that is refused memory.
    pub fn try_extend<K: AsRef<[u8]>>(&mut self, pairs: impl IntoIterator<Item = (K, u64)>) -> Result<(), OutOfMemory> {
        pairs.into_iter().try_for_each(|(key, value)| self.upsert(key, value))
    }

    /// Panics if memory for a key is refused, as `Vec` does.
    fn pair_by(&self, call: impl Fn(*mut Handle, *mut u8, usize, *mut Entry) -> i32) -> Option<(Vec<u8>, u64)> {
        let (mut key, mut entry) = (vec![0; 64], Entry::default());
        loop {
            match call(self.owner.get(), key.as_mut_ptr(), key.len(), &mut entry) {
                raw::YES => {
                    key.truncate(entry.length);
                    return Some((key, entry.value));
                }
                raw::NO_ROOM => key.resize(entry.length, 0),
                raw::NO => return None,
                _ => panic!("{OutOfMemory}"),
            }
        }
    }
}

/// Panics if an allocation is refused.
impl<K: AsRef<[u8]>> Extend<(K, u64)> for ByteIndex {
    fn extend<I: IntoIterator<Item = (K, u64)>>(&mut self, pairs: I) {
        self.try_extend(pairs).expect("memory for a pair");
    }
}

/// Panics if an allocation is refused.
impl<K: AsRef<[u8]>> FromIterator<(K, u64)> for ByteIndex {
    fn from_iter<I: IntoIterator<Item = (K, u64)>>(pairs: I) -> Self {
        let mut index = ByteIndex::new().expect("memory for an index");
        index.extend(pairs);
        index
    }
}

/// Copies every pair. Panics if an allocation fails; [`try_clone`](ByteIndex::try_clone) doesn't.
impl Clone for ByteIndex {
    fn clone(&self) -> Self {
        self.try_clone().expect("memory for a copy")
    }
}

impl fmt::Debug for ByteIndex {
    fn fmt(&self, f: &mut fmt::Formatter<'_>) -> fmt::Result {
        f.debug_map().entries(self.iter().map(|(key, value)| (String::from_utf8_lossy(&key).into_owned(), value))).finish()
    }
}

impl<'t> IntoIterator for &'t ByteIndex {
    type Item = (Vec<u8>, u64);
    type IntoIter = ByteRange<'t>;

    fn into_iter(self) -> ByteRange<'t> {
        self.iter()
    }
}

fn kind_of<B: AsRef<[u8]>>(bound: Bound<&B>) -> (u8, &[u8]) {
    match bound {
        Bound::Unbounded => (0, &[]),
        Bound::Included(key) => (1, key.as_ref()),
        Bound::Excluded(key) => (2, key.as_ref()),
    }
}

/// The least key that is larger than all that begin with a prefix, or no bound if there is none.
fn end_of(prefix: &[u8]) -> Result<Bound<Vec<u8>>, OutOfMemory> {
    let (mut end, mut length) = (vec![0; prefix.len()], 0);
    match unsafe { raw::tree_index_bytes_prefix_end(prefix.as_ptr(), prefix.len(), end.as_mut_ptr(), end.len(), &mut length) } {
        raw::YES => {
            end.truncate(length);
            Ok(Bound::Excluded(end))
        }
        raw::NO => Ok(Bound::Unbounded),
        _ => Err(OutOfMemory),
    }
}

/// Pairs that were read ahead of one end: the bytes of one key after another, and the length and the value of each.
#[derive(Default)]
struct Ahead {
    keys: Vec<u8>,
    entries: Vec<Entry>,
    /// How many entries were given, and where the key of the last of them begins and ends.
    given: usize,
    last: std::ops::Range<usize>,
    /// How many were asked for.
    asked: usize,
}

impl Ahead {
    /// Goes to the next entry, if there is one.
    fn step(&mut self) -> bool {
        let Some(entry) = self.entries.get(self.given) else { return false };
        self.last = self.last.end..self.last.end + entry.length;
        self.given += 1;
        true
    }

    /// The entry that was given last.
    fn pair(&self) -> Option<(&[u8], u64)> {
        let entry = self.entries.get(self.given.checked_sub(1)?)?;
        Some((&self.keys[self.last.clone()], entry.value))
    }
}

/// The pairs within two bounds. It reads up to 64 ahead from each end.
///
/// Panics if memory is refused, as `Vec` does.
pub struct ByteRange<'t> {
    index: &'t ByteIndex,
    low: Bound<Vec<u8>>,
    high: Bound<Vec<u8>>,
    front: Ahead,
    back: Ahead,
}

type Fill = unsafe extern "C" fn(*mut Handle, u8, *const u8, usize, u8, *const u8, usize, *mut u8, usize, *mut Entry, usize, *mut usize) -> i32;

impl ByteRange<'_> {
    /// Returns the next pair, whose key lies among those that were read ahead: nothing is copied, and nothing is allocated
    /// for a key. [`next`](Iterator::next) copies it.
    ///
    /// ```
    /// # use tree_index::ByteIndex;
    /// let words: ByteIndex = [("plum", 1), ("plus", 2), ("pull", 3)].into_iter().collect();
    /// let (mut walk, mut letters) = (words.iter(), 0);
    /// while let Some((word, _)) = walk.next_view() {
    ///     letters += word.len();
    /// }
    /// assert_eq!(letters, 12);
    /// ```
    pub fn next_view(&mut self) -> Option<(&[u8], u64)> {
        if !self.front.step() {
            self.front = self.read(&self.front, raw::tree_index_bytes_fill)?;
            self.front.step();
        }
        let (key, value) = self.front.pair()?;
        // The other end may have given it since it was read.
        let high = self.back.pair().map_or(self.high.as_ref().map(Vec::as_slice), |(key, _)| Bound::Excluded(key));
        (Bound::Unbounded, high).contains(key).then_some((key, value))
    }

    /// Returns the next pair from the other end, as [`next_view`](ByteRange::next_view) does.
    pub fn next_back_view(&mut self) -> Option<(&[u8], u64)> {
        if !self.back.step() {
            self.back = self.read(&self.back, raw::tree_index_bytes_fill_back)?;
            self.back.step();
        }
        let (key, value) = self.back.pair()?;
        let low = self.front.pair().map_or(self.low.as_ref().map(Vec::as_slice), |(key, _)| Bound::Excluded(key));
        (low, Bound::Unbounded).contains(key).then_some((key, value))
    }

    /// What is between what both ends have given, or `None` if nothing is.
    fn read(&self, end: &Ahead, fill: Fill) -> Option<Ahead> {
        let (low_kind, low) = self.front.pair().map_or(kind_of(self.low.as_ref()), |(key, _)| (2, key));
        let (high_kind, high) = self.back.pair().map_or(kind_of(self.high.as_ref()), |(key, _)| (2, key));
        let asked = (2 * end.asked).clamp(FIRST_AHEAD, MOST_AHEAD);
        let (mut keys, mut entries, mut count) = (vec![0; 32 * asked], vec![Entry::default(); asked], 0);
        loop {
            let answer = unsafe {
                fill(
                    self.index.owner.get(), low_kind, low.as_ptr(), low.len(), high_kind, high.as_ptr(), high.len(),
                    keys.as_mut_ptr(), keys.len(), entries.as_mut_ptr(), asked, &mut count,
                )
            };
            match answer {
                raw::YES => break,
                raw::NO_ROOM => keys.resize(count, 0),
                _ => panic!("{OutOfMemory}"),
            }
        }
        entries.truncate(count);
        (count > 0).then_some(Ahead { keys, entries, given: 0, last: 0..0, asked })
    }
}

impl Iterator for ByteRange<'_> {
    type Item = (Vec<u8>, u64);

    fn next(&mut self) -> Option<(Vec<u8>, u64)> {
        self.next_view().map(|(key, value)| (key.to_vec(), value))
    }
}

impl DoubleEndedIterator for ByteRange<'_> {
    fn next_back(&mut self) -> Option<(Vec<u8>, u64)> {
        self.next_back_view().map(|(key, value)| (key.to_vec(), value))
    }
}

impl FusedIterator for ByteRange<'_> {}
