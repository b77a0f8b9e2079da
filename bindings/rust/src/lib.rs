//! An ordered index, written in Rattle and proved, as a crate with no dependencies.
//!
//! [`TreeIndex`] is an index of numbers by numbers, [`ByteIndex`] one of byte strings by numbers. What each call answers is
//! proved in `crates/tree_index_c` of the repository; this crate, the linker and what a caller of C owes are not.
#![warn(missing_docs)]

mod bytes;
mod frozen;
mod handle;
mod numbers;
mod raw;

pub use bytes::{ByteIndex, ByteRange};
pub use frozen::{Frozen, FrozenView};
pub use handle::{InsertError, OutOfMemory};
pub use numbers::{Range, TreeIndex};
