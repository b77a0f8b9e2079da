//! Indexes of given pairs.
use std::alloc::{AllocError, Global};
use tree_index::{IndexKey, SmallTreeIndex, TreeIndex, TreeIndexOf};

// Inserts pairs in this order.
fn insert_all<const LEN: usize>(
    index: &mut TreeIndexOf<u64, u64, LEN>,
    pairs: &[(u64, u64)],
) -> Result<(), AllocError> {
    for (key, value) in pairs {
        if index.insert_sync(*key, *value).is_err() {
            return Err(AllocError);
        }
    }
    Ok(())
}

// Returns an index of pairs that are inserted in this order.
pub(crate) fn index_of(
    alloc: Global,
    pairs: &[(u64, u64)],
) -> Result<TreeIndex<u64, u64>, AllocError> {
    let mut index = TreeIndex::new(alloc);
    insert_all(&mut index, pairs)?;
    Ok(index)
}

// Returns an index of pairs that are inserted in this order, with seven pairs a leaf.
pub(crate) fn small_index_of(
    alloc: Global,
    pairs: &[(u64, u64)],
) -> Result<SmallTreeIndex<u64, u64>, AllocError> {
    let mut index: SmallTreeIndex<u64, u64> = TreeIndexOf::new(alloc);
    insert_all(&mut index, pairs)?;
    Ok(index)
}

// Returns whether two indexes are equal.
pub(crate) fn are_equal<K: IndexKey, V: PartialEq + Drop, const LEN: usize>(
    first: &TreeIndexOf<K, V, LEN>,
    second: &TreeIndexOf<K, V, LEN>,
) -> bool {
    first == second
}
