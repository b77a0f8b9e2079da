//! What these tests share.
use std::alloc::AllocError;
use tree_index::{Command, TreeIndexOf};

// Whether an index has exactly these pairs.
pub(crate) fn has<const LEN: usize>(
    index: &TreeIndexOf<u64, u64, LEN>,
    pairs: &[(u64, u64)],
) -> bool {
    for (key, value) in pairs {
        if index.peek(key).copied() != Some(*value) {
            return false;
        }
    }
    index.len() == pairs.len()
}

// Returns `Err` if a command came back.
pub(crate) fn kept(answer: Result<(), Command<u64, u64>>) -> Result<(), AllocError> {
    answer.map_err(|_| AllocError)
}
