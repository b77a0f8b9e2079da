//! Indexes that several threads read at once.
use std::fmt;
use std::ops::Deref;
use std::sync::{Mutex, PoisonError};

use crate::handle::{OutOfMemory, Owner};
use crate::{ByteIndex, TreeIndex, raw};

/// An index over a handle.
pub trait Index: Sized {
    fn over(owner: Owner) -> Self;
    fn owner(&self) -> &Owner;
}

/// An index that can't be changed, and that threads share: a [`view`](Frozen::view) for each of them reads it without a lock.
///
/// ```
/// use std::thread;
/// use tree_index::TreeIndex;
///
/// let index: TreeIndex = (0..100).map(|key| (key, key * key)).collect();
/// let squares = index.freeze().expect("memory for a block");
/// thread::scope(|threads| {
///     for thread in 0..4 {
///         let squares = &squares;
///         threads.spawn(move || {
///             let view = squares.view().expect("memory for a block");
///             assert_eq!(view.peek(thread), Some(thread * thread));
///         });
///     }
/// });
/// let mut index = squares.thaw().expect("no view is left");
/// index.clear();
/// ```
pub struct Frozen<T: Index> {
    /// The handle that each view is made of. No look-up uses it.
    first: Mutex<T>,
}

impl<T: Index> Frozen<T> {
    /// Freezes an index, without a copy. Allocates one block, and returns the index if it can't.
    pub(crate) fn of(index: T) -> Result<Self, T> {
        match unsafe { raw::tree_index_freeze(index.owner().get()) } {
            raw::YES => Ok(Frozen { first: Mutex::new(index) }),
            _ => Err(index),
        }
    }

    /// Returns a view of the index for one thread. It copies no pair, and allocates one block. Takes a lock meanwhile, which
    /// no look-up takes.
    pub fn view(&self) -> Result<FrozenView<T>, OutOfMemory> {
        let first = self.first.lock().unwrap_or_else(PoisonError::into_inner);
        let owner = Owner::open(|to| unsafe { raw::tree_index_share(first.owner().get(), to) }).map_err(|_| OutOfMemory)?;
        Ok(FrozenView { index: T::over(owner) })
    }

    /// Returns the index, which can be changed again, without a copy. Returns `Err` if a view of it is left.
    pub fn thaw(self) -> Result<T, Self> {
        let index = self.first.into_inner().unwrap_or_else(PoisonError::into_inner);
        match unsafe { raw::tree_index_thaw(index.owner().get()) } {
            raw::YES => Ok(index),
            _ => Err(Frozen { first: Mutex::new(index) }),
        }
    }
}

impl<T: Index> fmt::Debug for Frozen<T> {
    fn fmt(&self, f: &mut fmt::Formatter<'_>) -> fmt::Result {
        f.write_str("Frozen { .. }")
    }
}

/// A view of a [`Frozen`] index, for the look-ups and walks of one thread. It goes to another thread whole, and keeps the
/// index alive. Its `try_clone` is a copy that can be changed.
pub struct FrozenView<T: Index> {
    index: T,
}

impl<T: Index> Deref for FrozenView<T> {
    type Target = T;

    fn deref(&self) -> &T {
        &self.index
    }
}

impl<T: Index + fmt::Debug> fmt::Debug for FrozenView<T> {
    fn fmt(&self, f: &mut fmt::Formatter<'_>) -> fmt::Result {
        self.index.fmt(f)
    }
}

impl Index for TreeIndex {
    fn over(owner: Owner) -> Self {
        TreeIndex { owner }
    }

    fn owner(&self) -> &Owner {
        &self.owner
    }
}

impl Index for ByteIndex {
    fn over(owner: Owner) -> Self {
        ByteIndex { owner }
    }

    fn owner(&self) -> &Owner {
        &self.owner
    }
}

impl TreeIndex {
    /// Lets threads read the index at once, each by a view of its own, and no one change it. Copies nothing, and allocates
    /// one block: returns the index, as it was, if it can't.
    pub fn freeze(self) -> Result<Frozen<TreeIndex>, TreeIndex> {
        Frozen::of(self)
    }
}

impl ByteIndex {
    /// Lets threads read the index at once, as [`TreeIndex::freeze`] does.
    pub fn freeze(self) -> Result<Frozen<ByteIndex>, ByteIndex> {
        Frozen::of(self)
    }
}
