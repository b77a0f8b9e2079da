//! The declarations of the static library, written by `bindings/declarations` from the source that is proved.
#![allow(missing_docs, dead_code)]

use crate::handle::{Entry, Handle, Pair};

/// No: the key is absent, or present where it must not be, or there is no pair.
pub const NO: i32 = 0;
/// Yes: it was done.
pub const YES: i32 = 1;
/// An allocation failed. The pairs are as they were.
pub const NO_MEMORY: i32 = -1;
/// The handle doesn't fit the call: it is closed, or open where it must be closed, or has the other kind of key, or its index is frozen where it must not be, or not where it must be. Nothing changed.
pub const MISFIT: i32 = -2;
/// The places that the caller passed are too few for a key. Nothing changed but the length that is reported.
pub const NO_ROOM: i32 = -3;

unsafe extern "C" {
    pub fn tree_index_bytes_peek(handle: *mut Handle, key: *const u8, key_length: usize, value: *mut u64) -> i32;
    pub fn tree_index_bytes_contains(handle: *mut Handle, key: *const u8, key_length: usize) -> i32;
    pub fn tree_index_bytes_first(handle: *mut Handle, key: *mut u8, key_length: usize, entry: *mut Entry) -> i32;
    pub fn tree_index_bytes_last(handle: *mut Handle, key: *mut u8, key_length: usize, entry: *mut Entry) -> i32;
    pub fn tree_index_bytes_at_or_below(handle: *mut Handle, sought: *const u8, sought_length: usize, key: *mut u8, key_length: usize, entry: *mut Entry) -> i32;
    pub fn tree_index_bytes_at_or_above(handle: *mut Handle, sought: *const u8, sought_length: usize, key: *mut u8, key_length: usize, entry: *mut Entry) -> i32;
    pub fn tree_index_bytes_prefix_end(prefix: *const u8, prefix_length: usize, end: *mut u8, end_length: usize, length: *mut usize) -> i32;
    pub fn tree_index_bytes_remove_prefix(handle: *mut Handle, prefix: *const u8, prefix_length: usize, count: *mut usize) -> i32;
    pub fn tree_index_bytes_fill(handle: *mut Handle, low_kind: u8, low: *const u8, low_length: usize, high_kind: u8, high: *const u8, high_length: usize, keys: *mut u8, keys_length: usize, entries: *mut Entry, entries_length: usize, count: *mut usize) -> i32;
    pub fn tree_index_bytes_fill_back(handle: *mut Handle, low_kind: u8, low: *const u8, low_length: usize, high_kind: u8, high: *const u8, high_length: usize, keys: *mut u8, keys_length: usize, entries: *mut Entry, entries_length: usize, count: *mut usize) -> i32;
    pub fn tree_index_bytes_remove_range(handle: *mut Handle, low_kind: u8, low: *const u8, low_length: usize, high_kind: u8, high: *const u8, high_length: usize) -> i32;
    pub fn tree_index_bytes_from_sorted(handle: *mut Handle, keys: *const u8, keys_length: usize, entries: *const Entry, entries_length: usize) -> i32;
    pub fn tree_index_bytes_new(handle: *mut Handle) -> i32;
    pub fn tree_index_bytes_insert(handle: *mut Handle, key: *const u8, key_length: usize, value: u64) -> i32;
    pub fn tree_index_bytes_upsert(handle: *mut Handle, key: *const u8, key_length: usize, value: u64) -> i32;
    pub fn tree_index_bytes_remove(handle: *mut Handle, key: *const u8, key_length: usize) -> i32;
    pub fn tree_index_bytes_take(handle: *mut Handle, key: *const u8, key_length: usize, value: *mut u64) -> i32;
    pub fn tree_index_bytes_pop_first(handle: *mut Handle, key: *mut u8, key_length: usize, entry: *mut Entry) -> i32;
    pub fn tree_index_bytes_pop_last(handle: *mut Handle, key: *mut u8, key_length: usize, entry: *mut Entry) -> i32;
    pub fn tree_index_copy(from: *mut Handle, to: *mut Handle) -> i32;
    pub fn tree_index_freeze(handle: *mut Handle) -> i32;
    pub fn tree_index_share(from: *mut Handle, to: *mut Handle) -> i32;
    pub fn tree_index_thaw(handle: *mut Handle) -> i32;
    pub fn tree_index_free(handle: *mut Handle);
    pub fn tree_index_len(handle: *mut Handle) -> usize;
    pub fn tree_index_depth(handle: *mut Handle) -> usize;
    pub fn tree_index_spare(handle: *mut Handle) -> u8;
    pub fn tree_index_clear(handle: *mut Handle) -> i32;
    pub fn tree_index_fill_arrays(handle: *mut Handle, low_kind: u8, low: u64, high_kind: u8, high: u64, keys: *mut u64, keys_length: usize, values: *mut u64, values_length: usize) -> usize;
    pub fn tree_index_fill_arrays_back(handle: *mut Handle, low_kind: u8, low: u64, high_kind: u8, high: u64, keys: *mut u64, keys_length: usize, values: *mut u64, values_length: usize) -> usize;
    pub fn tree_index_peek_many(handle: *mut Handle, keys: *const u64, keys_length: usize, values: *mut u64, values_length: usize, found: *mut u8, found_length: usize) -> i32;
    pub fn tree_index_peek(handle: *mut Handle, key: u64, value: *mut u64) -> i32;
    pub fn tree_index_contains(handle: *mut Handle, key: u64) -> i32;
    pub fn tree_index_first(handle: *mut Handle, pair: *mut Pair) -> i32;
    pub fn tree_index_last(handle: *mut Handle, pair: *mut Pair) -> i32;
    pub fn tree_index_at_or_below(handle: *mut Handle, key: u64, pair: *mut Pair) -> i32;
    pub fn tree_index_at_or_above(handle: *mut Handle, key: u64, pair: *mut Pair) -> i32;
    pub fn tree_index_fill(handle: *mut Handle, low_kind: u8, low: u64, high_kind: u8, high: u64, places: *mut Pair, places_length: usize) -> usize;
    pub fn tree_index_fill_back(handle: *mut Handle, low_kind: u8, low: u64, high_kind: u8, high: u64, places: *mut Pair, places_length: usize) -> usize;
    pub fn tree_index_remove_range(handle: *mut Handle, low_kind: u8, low: u64, high_kind: u8, high: u64) -> i32;
    pub fn tree_index_from_sorted(handle: *mut Handle, pairs: *const Pair, pairs_length: usize) -> i32;
    pub fn tree_index_new(handle: *mut Handle) -> i32;
    pub fn tree_index_insert(handle: *mut Handle, key: u64, value: u64) -> i32;
    pub fn tree_index_upsert(handle: *mut Handle, key: u64, value: u64) -> i32;
    pub fn tree_index_replace(handle: *mut Handle, key: u64, value: *mut u64) -> i32;
    pub fn tree_index_remove(handle: *mut Handle, key: u64) -> i32;
    pub fn tree_index_take(handle: *mut Handle, key: u64, value: *mut u64) -> i32;
    pub fn tree_index_pop_first(handle: *mut Handle, pair: *mut Pair) -> i32;
    pub fn tree_index_pop_last(handle: *mut Handle, pair: *mut Pair) -> i32;
}
