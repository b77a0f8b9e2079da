//! Walks over the tree of an index.
use crate::flaw::{Flaw, expect};
use crate::walker::walk;
use tree_index::TreeIndexOf;

/// Walks the tree of an index, down its levels and along its leaves. Returns `Err` if it isn't
/// whole or its pairs aren't these.
pub fn flaws<const LEN: usize>(
    index: &TreeIndexOf<u64, u64, LEN>,
    pairs: &[(u64, u64)],
) -> Result<(), Flaw> {
    expect(
        index.len() == pairs.len() && index.is_empty() == pairs.is_empty(),
        Flaw::Count,
    )?;
    let (arenas, root) = index.parts();
    if let Some(root) = root {
        return walk(arenas, index.depth(), root, pairs);
    }
    expect(pairs.is_empty(), Flaw::Pairs)?;
    expect(
        arenas.leaf_count() == 0 && arenas.node_count() == 0,
        Flaw::Count,
    )
}
