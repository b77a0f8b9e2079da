//! The index of numbers.
use std::fmt;
use std::iter::FusedIterator;
use std::ops::{Bound, RangeBounds};

use crate::handle::{Handle, InsertError, OutOfMemory, Owner, Pair, kind_of};
use crate::raw;

/// How many pairs an iterator reads first. Each time it reads twice as many, up to the most.
const FIRST_AHEAD: usize = 16;
const MOST_AHEAD: usize = 512;

type Fill = unsafe extern "C" fn(*mut Handle, u8, u64, u8, u64, *mut u64, usize, *mut u64, usize) -> usize;

/// An ordered index of numbers by numbers.
///
/// Look-ups take `&self`, and the type isn't `Sync`: threads share it behind a `Mutex`.
///
/// ```
/// use tree_index::TreeIndex;
///
/// # fn main() -> Result<(), Box<dyn std::error::Error>> {
/// let mut prices = TreeIndex::new()?;
/// for (price, quantity) in [(101, 5), (104, 1), (102, 7)] {
///     prices.insert(price, quantity)?;
/// }
/// prices.remove_range(102..104);
/// assert_eq!(prices.iter().collect::<Vec<_>>(), [(101, 5), (104, 1)]);
/// assert_eq!(prices.at_or_above(103), Some((104, 1)));
/// # Ok(())
/// # }
/// ```
pub struct TreeIndex {
    pub(crate) owner: Owner,
}

impl TreeIndex {
    /// Creates an empty index. Allocates one block.
    pub fn new() -> Result<Self, OutOfMemory> {
        let owner = Owner::open(|handle| unsafe { raw::tree_index_new(handle) }).map_err(|_| OutOfMemory)?;
        Ok(TreeIndex { owner })
    }

    /// Stores a pair if its key is absent.
    ///
    /// ```
    /// # use tree_index::{InsertError, TreeIndex};
    /// let mut index = TreeIndex::new().unwrap();
    /// assert_eq!(index.insert(1, 10), Ok(()));
    /// assert_eq!(index.insert(1, 11), Err(InsertError::Duplicate));
    /// ```
    pub fn insert(&mut self, key: u64, value: u64) -> Result<(), InsertError> {
        match unsafe { raw::tree_index_insert(self.owner.get(), key, value) } {
            raw::YES => Ok(()),
            raw::NO => Err(InsertError::Duplicate),
            _ => Err(InsertError::OutOfMemory),
        }
    }

    /// Stores a pair, in place of one with an equal key.
    pub fn upsert(&mut self, key: u64, value: u64) -> Result<(), OutOfMemory> {
        match unsafe { raw::tree_index_upsert(self.owner.get(), key, value) } {
            raw::YES => Ok(()),
            _ => Err(OutOfMemory),
        }
    }

    /// Replaces the value of a key and returns the old one, or `None` if the key is absent.
    pub fn replace(&mut self, key: u64, mut value: u64) -> Option<u64> {
        (unsafe { raw::tree_index_replace(self.owner.get(), key, &mut value) } == raw::YES).then_some(value)
    }

    /// Removes the pair with a key. Returns its value, or `None` if the key is absent.
    pub fn remove(&mut self, key: u64) -> Option<u64> {
        let mut value = 0;
        (unsafe { raw::tree_index_take(self.owner.get(), key, &mut value) } == raw::YES).then_some(value)
    }

    /// Removes every pair whose key is within the bounds, by one call whose cost is that of two descents and of what it drops.
    pub fn remove_range(&mut self, bounds: impl RangeBounds<u64>) {
        let (low_kind, low) = kind_of(bounds.start_bound().cloned());
        let (high_kind, high) = kind_of(bounds.end_bound().cloned());
        unsafe { raw::tree_index_remove_range(self.owner.get(), low_kind, low, high_kind, high) };
    }

    /// Removes all pairs.
    pub fn clear(&mut self) {
        unsafe { raw::tree_index_clear(self.owner.get()) };
    }

    /// Removes the pair with the smallest key and returns it.
    pub fn pop_first(&mut self) -> Option<(u64, u64)> {
        self.pair_by(|handle, pair| unsafe { raw::tree_index_pop_first(handle, pair) })
    }

    /// Removes the pair with the largest key and returns it.
    pub fn pop_last(&mut self) -> Option<(u64, u64)> {
        self.pair_by(|handle, pair| unsafe { raw::tree_index_pop_last(handle, pair) })
    }

    /// Returns the value of a key.
    pub fn peek(&self, key: u64) -> Option<u64> {
        let mut value = 0;
        (unsafe { raw::tree_index_peek(self.owner.get(), key, &mut value) } == raw::YES).then_some(value)
    }

    /// Returns the value of each key, or `None` if it is absent, in the order of the keys. Out of cache this is faster than
    /// single look-ups.
    ///
    /// ```
    /// # use tree_index::TreeIndex;
    /// let index: TreeIndex = [(1, 10), (3, 30)].into_iter().collect();
    /// assert_eq!(index.peek_many(&[3, 2, 1]), [Some(30), None, Some(10)]);
    /// ```
    pub fn peek_many(&self, keys: &[u64]) -> Vec<Option<u64>> {
        let (mut values, mut found) = (vec![0; keys.len()], vec![0; keys.len()]);
        unsafe { raw::tree_index_peek_many(self.owner.get(), keys.as_ptr(), keys.len(), values.as_mut_ptr(), values.len(), found.as_mut_ptr(), found.len()) };
        values.into_iter().zip(found).map(|(value, is)| (is == 1).then_some(value)).collect()
    }

    /// Returns whether a key is present.
    pub fn contains(&self, key: u64) -> bool {
        unsafe { raw::tree_index_contains(self.owner.get(), key) == raw::YES }
    }

    /// Returns the number of pairs. Runs in constant time.
    pub fn len(&self) -> usize {
        self.owner.len()
    }

    /// Returns whether there is no pair.
    pub fn is_empty(&self) -> bool {
        self.len() == 0
    }

    /// Returns the pair with the smallest key.
    pub fn first(&self) -> Option<(u64, u64)> {
        self.pair_by(|handle, pair| unsafe { raw::tree_index_first(handle, pair) })
    }

    /// Returns the pair with the largest key.
    pub fn last(&self) -> Option<(u64, u64)> {
        self.pair_by(|handle, pair| unsafe { raw::tree_index_last(handle, pair) })
    }

    /// Returns the pair with a key, or else the one with the next smaller key.
    pub fn at_or_below(&self, key: u64) -> Option<(u64, u64)> {
        self.pair_by(|handle, pair| unsafe { raw::tree_index_at_or_below(handle, key, pair) })
    }

    /// Returns the pair with a key, or else the one with the next larger key.
    pub fn at_or_above(&self, key: u64) -> Option<(u64, u64)> {
        self.pair_by(|handle, pair| unsafe { raw::tree_index_at_or_above(handle, key, pair) })
    }

    /// Returns a copy.
    pub fn try_clone(&self) -> Result<Self, OutOfMemory> {
        Ok(TreeIndex { owner: self.owner.copy()? })
    }

    /// Returns the pairs whose keys are within the bounds, in ascending order and from both ends.
    ///
    /// ```
    /// # use tree_index::TreeIndex;
    /// let index: TreeIndex = (0..10).map(|key| (key, key * key)).collect();
    /// assert_eq!(index.range(3..=5).collect::<Vec<_>>(), [(3, 9), (4, 16), (5, 25)]);
    /// assert_eq!(index.range(..5).next_back(), Some((4, 16)));
    /// ```
    pub fn range(&self, bounds: impl RangeBounds<u64>) -> Range<'_> {
        Range {
            index: self,
            low: bounds.start_bound().cloned(),
            high: bounds.end_bound().cloned(),
            front: Ahead::new(),
            back: Ahead::new(),
        }
    }

    /// Returns all pairs in ascending order and from both ends.
    pub fn iter(&self) -> Range<'_> {
        self.range(..)
    }

    /// Writes the first keys within the bounds to `keys`, and their values to the same places of `values`, in ascending order.
    /// Returns how many, which is all that there are if either slice has places left.
    ///
    /// ```
    /// # use tree_index::TreeIndex;
    /// let index: TreeIndex = (0..10).map(|key| (key, key * key)).collect();
    /// let (mut keys, mut squares) = ([0; 4], [0; 4]);
    /// assert_eq!(index.fill(7.., &mut keys, &mut squares), 3);
    /// assert_eq!((keys, squares), ([7, 8, 9, 0], [49, 64, 81, 0]));
    /// ```
    pub fn fill(&self, bounds: impl RangeBounds<u64>, keys: &mut [u64], values: &mut [u64]) -> usize {
        self.fill_by(raw::tree_index_fill_arrays, bounds, keys, values)
    }

    /// Does what [`fill`](TreeIndex::fill) does from the last key down.
    pub fn fill_back(&self, bounds: impl RangeBounds<u64>, keys: &mut [u64], values: &mut [u64]) -> usize {
        self.fill_by(raw::tree_index_fill_arrays_back, bounds, keys, values)
    }

    fn fill_by(&self, fill: Fill, bounds: impl RangeBounds<u64>, keys: &mut [u64], values: &mut [u64]) -> usize {
        let (low_kind, low) = kind_of(bounds.start_bound().cloned());
        let (high_kind, high) = kind_of(bounds.end_bound().cloned());
        unsafe { fill(self.owner.get(), low_kind, low, high_kind, high, keys.as_mut_ptr(), keys.len(), values.as_mut_ptr(), values.len()) }
    }

    /// Stores each pair, in place of one with an equal key. Stops at the first that is refused memory.
    pub fn try_extend(&mut self, pairs: impl IntoIterator<Item = (u64, u64)>) -> Result<(), OutOfMemory> {
        pairs.into_iter().try_for_each(|(key, value)| self.upsert(key, value))
    }

    fn pair_by(&self, call: impl FnOnce(*mut Handle, *mut Pair) -> i32) -> Option<(u64, u64)> {
        let mut pair = Pair::default();
        (call(self.owner.get(), &mut pair) == raw::YES).then_some((pair.key, pair.value))
    }
}

/// Panics if an allocation is refused.
impl Extend<(u64, u64)> for TreeIndex {
    fn extend<I: IntoIterator<Item = (u64, u64)>>(&mut self, pairs: I) {
        self.try_extend(pairs).expect("memory for a pair");
    }
}

/// Panics if an allocation is refused.
impl FromIterator<(u64, u64)> for TreeIndex {
    fn from_iter<I: IntoIterator<Item = (u64, u64)>>(pairs: I) -> Self {
        let mut index = TreeIndex::new().expect("memory for an index");
        index.extend(pairs);
        index
    }
}

/// Copies every pair. Panics if an allocation fails; [`try_clone`](TreeIndex::try_clone) doesn't.
impl Clone for TreeIndex {
    fn clone(&self) -> Self {
        self.try_clone().expect("memory for a copy")
    }
}

impl fmt::Debug for TreeIndex {
    fn fmt(&self, f: &mut fmt::Formatter<'_>) -> fmt::Result {
        f.debug_map().entries(self.iter()).finish()
    }
}

impl<'t> IntoIterator for &'t TreeIndex {
    type Item = (u64, u64);
    type IntoIter = Range<'t>;

    fn into_iter(self) -> Range<'t> {
        self.iter()
    }
}

/// Pairs that were read ahead of one end.
struct Ahead {
    places: Vec<Pair>,
    at: usize,
    /// How many were asked for. If fewer were there, no more are.
    asked: usize,
}

impl Ahead {
    const fn new() -> Self {
        Ahead { places: Vec::new(), at: 0, asked: 0 }
    }

    #[inline]
    fn next(&mut self) -> Option<Pair> {
        let pair = self.places.get(self.at)?;
        self.at += 1;
        Some(*pair)
    }

    /// The key that was given last, if it is still here.
    fn given(&self) -> Option<u64> {
        Some(self.places.get(self.at.checked_sub(1)?)?.key)
    }

    /// Reads the next pairs by a call that takes places and how many there are, and returns how many it has written.
    #[cold]
    fn read(&mut self, fill: impl FnOnce(*mut Pair, usize) -> usize) -> Option<Pair> {
        if self.places.len() < self.asked {
            return None;
        }
        self.asked = (2 * self.asked).clamp(FIRST_AHEAD, MOST_AHEAD);
        self.places.clear();
        self.at = 0;
        // Two blocks serve the longest walk.
        self.places.reserve(if self.asked <= 64 { 64 } else { MOST_AHEAD });
        let count = fill(self.places.as_mut_ptr(), self.asked);
        // SAFETY: there are places for as many as were asked for, and the library has written the first `count` of them.
        unsafe { self.places.set_len(count) };
        self.next()
    }
}

/// The pairs within two bounds. It reads ahead from each end: 16 pairs first, then twice as many each time, up to 512.
pub struct Range<'t> {
    index: &'t TreeIndex,
    /// The bounds, or what an end had given when it read ahead last.
    low: Bound<u64>,
    high: Bound<u64>,
    front: Ahead,
    back: Ahead,
}

impl Range<'_> {
    /// What neither end has given yet is within these.
    fn left(&self) -> (Bound<u64>, Bound<u64>) {
        (self.front.given().map_or(self.low, Bound::Excluded), self.back.given().map_or(self.high, Bound::Excluded))
    }

    fn read(&mut self) -> Option<Pair> {
        (self.low, self.high) = self.left();
        let ((low_kind, low), (high_kind, high), handle) = (kind_of(self.low), kind_of(self.high), self.index.owner.get());
        self.front.read(|places, count| unsafe { raw::tree_index_fill(handle, low_kind, low, high_kind, high, places, count) })
    }

    fn read_back(&mut self) -> Option<Pair> {
        (self.low, self.high) = self.left();
        let ((low_kind, low), (high_kind, high), handle) = (kind_of(self.low), kind_of(self.high), self.index.owner.get());
        self.back.read(|places, count| unsafe { raw::tree_index_fill_back(handle, low_kind, low, high_kind, high, places, count) })
    }
}

impl Iterator for Range<'_> {
    type Item = (u64, u64);

    #[inline]
    fn next(&mut self) -> Option<(u64, u64)> {
        let pair = match self.front.next() {
            Some(pair) => pair,
            None => self.read()?,
        };
        // The other end may have given it since it was read.
        if self.back.asked > 0 && !(Bound::Unbounded, self.left().1).contains(&pair.key) {
            return None;
        }
        Some((pair.key, pair.value))
    }

    fn fold<B, F: FnMut(B, (u64, u64)) -> B>(mut self, first: B, mut f: F) -> B {
        let mut sum = first;
        while let Some(pair) = self.next() {
            sum = f(sum, pair);
            if self.back.asked == 0 {
                for pair in &self.front.places[self.front.at..] {
                    sum = f(sum, (pair.key, pair.value));
                }
                self.front.at = self.front.places.len();
            }
        }
        sum
    }
}

impl DoubleEndedIterator for Range<'_> {
    #[inline]
    fn next_back(&mut self) -> Option<(u64, u64)> {
        let pair = match self.back.next() {
            Some(pair) => pair,
            None => self.read_back()?,
        };
        if self.front.asked > 0 && !(self.left().0, Bound::Unbounded).contains(&pair.key) {
            return None;
        }
        Some((pair.key, pair.value))
    }
}

impl FusedIterator for Range<'_> {}
