//! Walks over the part of a tree that stands under a number: down its levels, and along the links
//! of its leaves.
ghost use Rattle.std.specs.Prelude.{◌<◌, Some};
ghost use Rattle.std.specs.List.{AllByRecursion};
ghost use Rattle.std.specs.Ordering.{nat_cmp};
ghost use Rattle.slab.specs.Slab.{ContainsKey};
ghost use Rattle.tree_node.specs.Tree.{StandsOrRetired, in_turn};
ghost use Rattle.tree_parts.specs.Ends.{IsLinked};

use crate::flaw::{Flaw, expect};
use tree_array::array::{ArrayIter, ArrayOf};
use tree_leaf::arena::{LeafId, NodeId};
use tree_leaf::leaf::LeafOf;
use tree_leaf::{IterOf, RevIterOf};
use tree_model::{Backward, Forward};
use tree_node::node::{ArenasOf, NodeOf};
use tree_parts::ends::walk_from_end;

// What a walk down has met: so many leaves, nodes and pairs, the greatest key or separator, and
// the last leaf.
#[derive(Drop)]
struct Met {
    leaves: usize,
    nodes: usize,
    pairs: usize,
    low: Option<u64>,
    leaf: Option<LeafId>,
}

impl Met {
    // Nothing yet.
    fn new() -> Self {
        Met {
            leaves: 0,
            nodes: 0,
            pairs: 0,
            low: None,
            leaf: None,
        }
    }

    // A key, which is larger than all before it.
    fn key(&mut self, key: u64) -> Result<(), Flaw> {
        if let Some(low) = self.low {
            expect(low < key, Flaw::Order)?;
        }
        self.low = Some(key);
        self.pairs = self.pairs.saturating_add(1);
        Ok(())
    }

    // A separator, which is no smaller than the keys under its child. Before the child so many
    // keys were met.
    fn separator(&mut self, separator: u64, before: usize) -> Result<(), Flaw> {
        if let Some(low) = self.low {
            expect(low <= separator, Flaw::Order)?;
        }
        expect(before < self.pairs, Flaw::EmptyChild)?;
        self.low = Some(separator);
        Ok(())
    }

    // A leaf, which is linked behind the one before it.
    fn leaf<V: Drop, const LEN: usize>(
        &mut self,
        id: LeafId,
        leaf: &LeafOf<u64, V, LEN>,
    ) -> Result<(), Flaw> {
        expect(leaf.prev() == self.leaf, Flaw::Link)?;
        self.leaf = Some(id);
        self.leaves = self.leaves.saturating_add(1);
        self.keys(leaf.array())
    }

    // The keys of an array.
    fn keys<V: Drop, const LEN: usize>(
        &mut self,
        array: &ArrayOf<u64, V, LEN>,
    ) -> Result<(), Flaw> {
        for slot in ArrayIter::new(array) {
            self.key(*array.key(slot))?;
        }
        Ok(())
    }
}

fn walk_leaves<V: Drop, const LEN: usize>(
    arenas: &ArenasOf<u64, V, LEN>,
    keyed: &ArrayOf<u64, LeafId, LEN>,
    last: LeafId,
    met: &mut Met,
) -> Result<(), Flaw>
    requires { AllByRecursion (ContainsKey arenas.now.leaves) (in_turn keyed.now.entries (Some last)) }
{
    for slot in ArrayIter::new(keyed) {
        let leaf = *keyed.val(slot);
        let before = met.pairs;
        met.leaf(leaf, arenas.leaf(leaf))?;
        met.separator(*keyed.key(slot), before)?;
    }
    met.leaf(last, arenas.leaf(last))
}

fn walk_node<V: Drop, const LEN: usize>(
    arenas: &ArenasOf<u64, V, LEN>,
    level: usize,
    id: NodeId,
    met: &mut Met,
) -> Result<(), Flaw>
    requires node { 0 < level }
    requires stands { StandsOrRetired nat_cmp level arenas.now id }
{
    met.nodes = met.nodes.saturating_add(1);
    match arenas.node(id) {
        NodeOf::Leaf(node) => {
            expect(level == 1, Flaw::Level)?;
            let Some(last) = node.unbounded_child() else {
                return Ok(());
            };
            walk_leaves(arenas, node.children(), last, met)
        }
        NodeOf::Internal(node) => {
            let Some(last) = node.unbounded_child() else {
                return Ok(());
            };
            let children = node.children();
            for slot in ArrayIter::new(children) {
                let before = met.pairs;
                walk_node(arenas, level - 1, *children.val(slot), met)?;
                met.separator(*children.key(slot), before)?;
            }
            walk_node(arenas, level - 1, last, met)
        }
    }
}

/// Walks down from a node that is alone in its arenas, and along its leaves. Returns `Err` unless
/// every number in use is met once and the pairs are these.
pub fn walk<const LEN: usize>(
    arenas: &ArenasOf<u64, u64, LEN>,
    level: usize,
    id: NodeId,
    pairs: &[(u64, u64)],
) -> Result<(), Flaw>
    requires node { 0 < level }
    requires stands { StandsOrRetired nat_cmp level arenas.now id }
    requires linked { IsLinked level arenas.now id }
{
    let mut met = Met::new();
    walk_node(arenas, level, id, &mut met)?;
    expect(met.pairs == pairs.len(), Flaw::Count)?;
    expect(met.leaves == arenas.leaf_count(), Flaw::Count)?;
    expect(met.nodes == arenas.node_count(), Flaw::Count)?;
    expect(lists_forward(arenas, level, id, pairs), Flaw::Pairs)?;
    expect(lists_backward(arenas, level, id, pairs), Flaw::Pairs)
}

// Whether the leaves of a part, walked on, have these pairs.
fn lists_forward<const LEN: usize>(
    arenas: &ArenasOf<u64, u64, LEN>,
    level: usize,
    id: NodeId,
    pairs: &[(u64, u64)],
) -> bool
    requires node { 0 < level }
    requires stands { StandsOrRetired nat_cmp level arenas.now id }
    requires linked { IsLinked level arenas.now id }
{
    let Some(mut walk) = walk_from_end::<u64, u64, Forward, LEN>(arenas, level, id) else {
        return pairs.is_empty();
    };
    for pair in pairs {
        if following(&mut walk) != Some(*pair) {
            return false;
        }
    }
    following(&mut walk).is_none()
}

// Whether the leaves of a part, walked back, have these pairs.
fn lists_backward<const LEN: usize>(
    arenas: &ArenasOf<u64, u64, LEN>,
    level: usize,
    id: NodeId,
    pairs: &[(u64, u64)],
) -> bool
    requires node { 0 < level }
    requires stands { StandsOrRetired nat_cmp level arenas.now id }
    requires linked { IsLinked level arenas.now id }
{
    let Some(mut walk) = walk_from_end::<u64, u64, Backward, LEN>(arenas, level, id) else {
        return pairs.is_empty();
    };
    for pair in pairs.iter().rev() {
        if preceding(&mut walk) != Some(*pair) {
            return false;
        }
    }
    preceding(&mut walk).is_none()
}

// The pair of an entry.
pub(crate) fn copied(entry: Option<(&u64, &u64)>) -> Option<(u64, u64)> {
    let (key, value) = entry?;
    Some((*key, *value))
}

fn following<const LEN: usize>(walk: &mut IterOf<u64, u64, LEN>) -> Option<(u64, u64)> {
    match copied(walk.next()) {
        Some(pair) => Some(pair),
        None => copied(walk.jump()),
    }
}

fn preceding<const LEN: usize>(walk: &mut RevIterOf<u64, u64, LEN>) -> Option<(u64, u64)> {
    match copied(walk.next()) {
        Some(pair) => Some(pair),
        None => copied(walk.jump()),
    }
}
