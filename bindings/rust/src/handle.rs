//! What crosses to the library.
use std::cell::UnsafeCell;
use std::ffi::c_void;
use std::fmt;
use std::ops::Bound;
use std::ptr;

use crate::raw;

#[repr(C)]
pub struct Handle {
    at: *mut c_void,
    is_open: bool,
}

/// A pair, as the library writes it.
#[repr(C)]
#[derive(Clone, Copy, Default)]
pub struct Pair {
    pub key: u64,
    pub value: u64,
}

/// The length of a key of bytes, and a value.
#[repr(C)]
#[derive(Clone, Copy, Default)]
pub struct Entry {
    pub length: usize,
    pub value: u64,
}

/// An allocation failed, and the pairs are as they were.
#[derive(Debug, Clone, Copy, PartialEq, Eq)]
pub struct OutOfMemory;

impl fmt::Display for OutOfMemory {
    fn fmt(&self, f: &mut fmt::Formatter<'_>) -> fmt::Result {
        f.write_str("an allocation was refused")
    }
}

impl std::error::Error for OutOfMemory {}

/// Why an insert stored nothing.
#[derive(Debug, Clone, Copy, PartialEq, Eq)]
pub enum InsertError {
    /// The key is present.
    Duplicate,
    /// An allocation was refused.
    OutOfMemory,
}

impl fmt::Display for InsertError {
    fn fmt(&self, f: &mut fmt::Formatter<'_>) -> fmt::Result {
        match self {
            InsertError::Duplicate => f.write_str("the key is present"),
            InsertError::OutOfMemory => OutOfMemory.fmt(f),
        }
    }
}

impl std::error::Error for InsertError {}

/// The owner of an open handle. It frees the index when it is dropped.
pub struct Owner {
    handle: UnsafeCell<Handle>,
}

// SAFETY: `Send` is proved of the handle on the other side, and the heap of the C library takes a block back from any thread.
unsafe impl Send for Owner {}

impl Owner {
    /// Opens a handle by a call that takes a closed one.
    pub fn open(call: impl FnOnce(*mut Handle) -> i32) -> Result<Self, i32> {
        let handle = UnsafeCell::new(Handle { at: ptr::null_mut(), is_open: false });
        match call(handle.get()) {
            raw::YES => Ok(Owner { handle }),
            answer => Err(answer),
        }
    }

    /// The handle, for one call. The type isn't `Sync` and no call calls back, so no other call has it meanwhile.
    pub fn get(&self) -> *mut Handle {
        self.handle.get()
    }

    pub fn len(&self) -> usize {
        // SAFETY: as at every call here, the handle is as the last call left it, and no other call has it.
        unsafe { raw::tree_index_len(self.get()) }
    }

    pub fn copy(&self) -> Result<Self, OutOfMemory> {
        Owner::open(|to| unsafe { raw::tree_index_copy(self.get(), to) }).map_err(|_| OutOfMemory)
    }
}

impl Drop for Owner {
    fn drop(&mut self) {
        unsafe { raw::tree_index_free(self.get()) }
    }
}

/// A bound as the library takes it.
pub fn kind_of<K: Copy + Default>(bound: Bound<K>) -> (u8, K) {
    match bound {
        Bound::Unbounded => (0, K::default()),
        Bound::Included(key) => (1, key),
        Bound::Excluded(key) => (2, key),
    }
}
