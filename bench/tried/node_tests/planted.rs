//! Calls of a tree that stands alone in its arenas, by the number of its root.
ghost use Rattle.std.specs.Prelude.{◌≡◌, ◌⊎◌, ◌+◌, ◌^◌, ◌<◌, IfOk, OnErr};
ghost use Rattle.std.specs.Ordering.{nat_cmp};
ghost use Rattle.slab.specs.Slab.{get};
ghost use Rattle.port_calls.specs.Replanted.{Replants};
ghost use Rattle.tree_insert.specs.Roots.{RaisesRoot};
ghost use Rattle.tree_node.specs.Parts.{IsPart, Unchanged};
ghost use Rattle.tree_node.specs.Tree.{IsOfLevel, IsRetired};
ghost use Rattle.tree_array.specs.Length.{IsLen};
ghost use Rattle.node_tests.specs.Planted.{IsPlanted};

use crate::searches::Searched;
use crate::stored::Stored;
use port_calls::internal_node_calls::InternalNodeCalls;
use port_calls::node_calls::NodeCalls;
use port_calls::root_calls::RootCalls;
use std::alloc::AllocError;
use std::marker::PhantomData;
use std::ops::Bound;
use std::process::Abort;
use tree_array::array::{IndexKey, InsertResult, Judge, RemoveResult};
use tree_leaf::arena::NodeId;
use tree_leaf::leaf::LeafOf;
use tree_node::branch::{InternalNodeOf, LeafNodeOf};
use tree_node::node::{ArenasOf, NodeOf, Root};
use tree_support::walk;

// Adds a leaf node over one empty leaf.
pub(crate) fn first_root<K: IndexKey, V: Drop, const LEN: usize>(
    arenas: &mut ArenasOf<K, V, LEN>,
) -> Result<NodeId, AllocError>
    requires len { IsLen LEN }
    ensures { IfOk result (λ id. IsPlanted K.cmp 1 arenas.new id) }
{
    let Ok(leaf) = arenas.add_leaf(LeafOf::new()) else {
        return Err(AllocError);
    };
    let Ok(root) = arenas.add_node(NodeOf::Leaf(LeafNodeOf::new(leaf))) else {
        return Err(AllocError);
    };
    Ok(root)
}

pub(crate) fn insert<
    N: NodeCalls<K, LEN>,
    K: IndexKey,
    V: Drop,
    const UPSERT: bool,
    const LEVEL: usize,
    const LEN: usize,
>(
    arenas: &mut ArenasOf<K, V, LEN>,
    root: NodeId,
    key: K,
    val: V,
) -> Result<InsertResult<K, V>, (K, V)>
    requires kind { N.StandsAt LEVEL }
    requires planted { IsPlanted K.cmp LEVEL arenas.old root }
    ensures { IsPlanted K.cmp LEVEL arenas.new root }
{
    N::insert::<UPSERT, V>(arenas, root, key, val)
}

pub(crate) fn remove_if<
    N: NodeCalls<K, LEN>,
    K: IndexKey,
    V: Drop,
    F: FnOnce(&V) -> bool + Drop,
    const LEVEL: usize,
    const LEN: usize,
>(arenas: &mut ArenasOf<K, V, LEN>, root: NodeId, key: &K, condition: F) -> RemoveResult
    requires kind { N.StandsAt LEVEL }
    requires planted { IsPlanted K.cmp LEVEL arenas.old root }
    requires callable { F.IsAlwaysCallable condition }
    ensures { IsPlanted K.cmp LEVEL arenas.new root }
{
    N::remove_if(arenas, root, key, condition)
}

// Removes the pairs whose keys are within the bounds, and returns how many children the root has
// left.
pub(crate) fn remove_range<N: NodeCalls<u64, LEN>, const LEVEL: usize, const LEN: usize>(
    arenas: &mut ArenasOf<u64, u64, LEN>,
    root: NodeId,
    low: Bound<&u64>,
    high: Bound<&u64>,
) -> usize
    requires kind { N.StandsAt LEVEL }
    requires planted { IsPlanted nat_cmp LEVEL arenas.old root }
    ensures { IsPlanted nat_cmp LEVEL arenas.new root }
{
    N::remove_range(arenas, root, (low, high))
}

// The entries that a walk in key order and a walk against it come to first.
pub(crate) fn ends<N: NodeCalls<u64, LEN>, const LEVEL: usize, const LEN: usize>(
    arenas: &ArenasOf<u64, u64, LEN>,
    root: NodeId,
) -> (Option<(u64, u64)>, Option<(u64, u64)>)
    requires kind { N.StandsAt LEVEL }
    requires planted { IsPlanted nat_cmp LEVEL arenas.now root }
{
    let first = match N::min(arenas, root) {
        Some(mut walk) => copied(walk.next()),
        None => None,
    };
    let last = match N::max(arenas, root) {
        Some(mut walk) => copied(walk.next()),
        None => None,
    };
    (first, last)
}

// The entry nearest to a key: at or below it with `LE`, and at or above it without.
pub(crate) fn near<N: NodeCalls<u64, LEN>, const LE: bool, const LEVEL: usize, const LEN: usize>(
    arenas: &ArenasOf<u64, u64, LEN>,
    root: NodeId,
    key: u64,
) -> Option<(u64, u64)>
    requires kind { N.StandsAt LEVEL }
    requires planted { IsPlanted nat_cmp LEVEL arenas.now root }
{
    copied(N::approximate::<LE, u64>(arenas, root, &key)?.get())
}

// The pair of an entry.
fn copied(entry: Option<(&u64, &u64)>) -> Option<(u64, u64)> {
    let (key, val) = entry?;
    Some((*key, *val))
}

// How many leaves and nodes there are.
fn counts<const LEN: usize>(arenas: &ArenasOf<u64, u64, LEN>) -> (usize, usize) {
    (arenas.leaf_count(), arenas.node_count())
}

// The depth, and how many leaves and nodes there are.
pub(crate) fn shape<N: NodeCalls<u64, LEN>, const LEVEL: usize, const LEN: usize>(
    arenas: &ArenasOf<u64, u64, LEN>,
    root: NodeId,
) -> (usize, usize, usize)
    requires kind { N.StandsAt LEVEL }
    requires planted { IsPlanted nat_cmp LEVEL arenas.now root }
{
    let depth = N::depth(arenas, root);
    let (leaves, nodes) = counts(arenas);
    (depth, leaves, nodes)
}

// Whether the root is retired, and whether its child may take its place.
pub(crate) fn marks<N: NodeCalls<u64, LEN>, const LEVEL: usize, const LEN: usize>(
    arenas: &ArenasOf<u64, u64, LEN>,
    root: NodeId,
) -> (bool, bool)
    requires kind { N.StandsAt LEVEL }
    requires planted { IsPlanted nat_cmp LEVEL arenas.now root }
{
    let retired = N::is_retired(arenas, root);
    (retired, N::cleanup_needed(arenas, root))
}

// The searches through the node type `N` at this level.
pub(crate) struct Through<N, const LEVEL: usize>(PhantomData<N>);

impl<N: NodeCalls<u64, LEN>, const LEVEL: usize, const LEN: usize> Searched<Through<N, LEVEL>>
    for ArenasOf<u64, u64, LEN> {
    ghost Stands = { λ arenas root. N.StandsAt LEVEL × IsPlanted nat_cmp LEVEL arenas root };

    fn search<J: Judge<u64>>(
        &self,
        root: NodeId,
        judge: &mut J,
    ) -> (Option<(u64, u64)>, Option<u64>) {
        let pair = copied(N::search_entry(self, root, judge));
        let val = N::search_value(self, root, judge);
        (pair, val.copied())
    }
}

// Asserts that a tree is whole and has the pairs that are stored beside it.
pub(crate) fn expect_pairs<const LEN: usize>(
    rt: &impl Abort,
    arenas: &ArenasOf<u64, u64, LEN>,
    level: usize,
    root: NodeId,
    stored: &Stored,
)
    requires node { 0 < level }
    requires planted { IsPlanted nat_cmp level arenas.now root }
{
    assert!(rt; walk(arenas, level, root, stored.pairs()).is_ok());
}

// Makes room in the unbounded child of an internal root, and says whether it could.
pub(crate) fn split_last<const LEVEL: usize, const LEN: usize>(
    arenas: &mut ArenasOf<u64, u64, LEN>,
    root: NodeId,
) -> Result<bool, AllocError>
    requires node { 0 < LEVEL }
    requires planted { IsPlanted nat_cmp LEVEL arenas.old root }
    ensures { IsPlanted nat_cmp LEVEL arenas.new root }
{
    let NodeOf::Internal(node) = arenas.node(root) else {
        return Ok(false);
    };
    let Some(last) = node.unbounded_child() else {
        return Ok(false);
    };
    InternalNodeOf::split_node(arenas, root, last)
}

// Makes room under a root, and returns its number then.
fn grow<const LEVEL: usize, const LEN: usize>(
    arenas: &mut ArenasOf<u64, u64, LEN>,
    root: NodeId,
) -> Result<NodeId, AllocError>
    requires node { 0 < LEVEL }
    requires part { IsPart nat_cmp LEVEL arenas.old root ⊎ IsRetired LEVEL arenas.old root }
    ensures raised { IsPart nat_cmp LEVEL arenas.old root
        → IfOk result (λ id. RaisesRoot nat_cmp LEVEL arenas.old arenas.new root id × (LEVEL + 1 < 2 ^ 64)) }
    ensures replanted { IsRetired LEVEL arenas.old root
        → IfOk result (λ id. (id ≡ root) × Replants nat_cmp arenas.old arenas.new root) }
    ensures err { OnErr result (Unchanged arenas.old arenas.new) }
{
    NodeOf::split_root(arenas, root)
}

// Splits a root, and returns the root then. A retired one keeps its number.
pub(crate) fn split_root<const LEVEL: usize, const LEN: usize>(
    arenas: &mut ArenasOf<u64, u64, LEN>,
    root: NodeId,
) -> Result<Root, AllocError>
    requires node { 0 < LEVEL }
    requires planted { IsPlanted nat_cmp LEVEL arenas.old root }
    ensures node { IfOk result (λ root. 0 < root.level) }
    ensures split { IfOk result (λ root. IsPlanted nat_cmp root.level arenas.new root.id) }
    ensures refused { OnErr result (IsPlanted nat_cmp LEVEL arenas.new root) }
{
    let retired = NodeOf::is_retired(arenas, root);
    let id = grow::<LEVEL, LEN>(arenas, root)?;
    if retired {
        Ok(Root { level: 1, id })
    } else {
        let level = LEVEL + 1;
        Ok(Root { level, id })
    }
}

// Cleans up at a root, and returns the number of the new root.
fn lower<const LEVEL: usize, const LEN: usize>(
    arenas: &mut ArenasOf<u64, u64, LEN>,
    root: NodeId,
) -> Option<NodeId>
    requires node { 0 < LEVEL }
    requires part { IsPart nat_cmp LEVEL arenas.old root ⊎ IsRetired LEVEL arenas.old root }
    requires kind { IsOfLevel LEVEL (get arenas.old.nodes root) }
{
    NodeOf::cleanup_root(arenas, root)
}

// Cleans up at a root. Returns whether the root moved, or `None` if no root is left, and how many
// leaves and nodes there are then.
pub(crate) fn cleanup_root<const LEVEL: usize, const LEN: usize>(
    arenas: &mut ArenasOf<u64, u64, LEN>,
    root: NodeId,
) -> (Option<bool>, usize, usize)
    requires node { 0 < LEVEL }
    requires planted { IsPlanted nat_cmp LEVEL arenas.old root }
{
    let moved = match lower::<LEVEL, LEN>(arenas, root) {
        Some(id) => Some(id != root),
        None => None,
    };
    let (leaves, nodes) = counts(arenas);
    (moved, leaves, nodes)
}
