//! Trees that grow from one empty leaf, step by step.
ghost use Rattle.std.specs.Prelude.{◌<◌, IfOk, OnErr};
ghost use Rattle.std.specs.Ordering.{nat_cmp};
ghost use Rattle.tree_array.specs.Length.{IsLen};
ghost use Rattle.node_tests.specs.Planted.{IsPlanted};

use crate::planted::{cleanup_root, expect_pairs, first_root, split_root};
use crate::steps::{Step, answers};
use crate::stored::Stored;
use port_calls::node_calls::NodeCalls;
use std::alloc::{AllocError, Global};
use std::process::Abort;
use tree_leaf::arena::NodeId;
use tree_node::branch::{InternalNodeOf, LeafNodeOf};
use tree_node::node::{ArenasOf, NodeOf, Root};

// More pairs than any tree has here.
const MOST: usize = 5000;

// Takes the steps of each list in turn, each with its answer, on a leaf node over one empty leaf.
//
// What is refused for lack of memory comes back, the tree is whole then and has the pairs that it
// had, and the same call succeeds the second time. `Err` if anything was refused.
pub(crate) fn plays<const LEN: usize>(
    rt: &impl Abort,
    alloc: Global,
    lists: &[&[Step]],
) -> Result<(), AllocError>
    requires { IsLen LEN }
{
    let mut stored = Stored::new(alloc, MOST)?;
    grows::<LEN>(rt, alloc, lists, &mut stored)?;
    stored.outcome()
}

fn grows<const LEN: usize>(
    rt: &impl Abort,
    alloc: Global,
    lists: &[&[Step]],
    stored: &mut Stored,
) -> Result<(), AllocError>
    requires { IsLen LEN }
{
    let mut arenas = ArenasOf::new(alloc);
    grows_in::<LEN>(rt, &mut arenas, lists, stored)
}

// Plays the lists in empty arenas.
fn grows_in<const LEN: usize>(
    rt: &impl Abort,
    arenas: &mut ArenasOf<u64, u64, LEN>,
    lists: &[&[Step]],
    stored: &mut Stored,
) -> Result<(), AllocError>
    requires { IsLen LEN }
{
    let id = first_root(arenas)?;
    takes_lists::<LEN>(rt, arenas, Root { level: 1, id }, lists, stored)
}

fn takes_lists<const LEN: usize>(
    rt: &impl Abort,
    arenas: &mut ArenasOf<u64, u64, LEN>,
    root: Root,
    lists: &[&[Step]],
    stored: &mut Stored,
) -> Result<(), AllocError>
    requires node { 0 < root.level }
    requires planted { IsPlanted nat_cmp root.level arenas.old root.id }
{
    let mut root = root;
    for steps in lists {
        for step in *steps {
            if let Step::CleanUp(moved, leaves, nodes) = step {
                assert!(rt; cleans(arenas, root, (*moved, *leaves, *nodes)));
                return Ok(());
            }
            root = takes(rt, arenas, root, step, stored)?;
        }
    }
    expect_pairs(rt, arenas, root.level, root.id, stored);
    Ok(())
}

// Whether a clean-up at a root of three levels moves the root, or not, and leaves so many leaves
// and nodes.
fn cleans<const LEN: usize>(
    arenas: &mut ArenasOf<u64, u64, LEN>,
    root: Root,
    told: (bool, usize, usize),
) -> bool
    requires planted { IsPlanted nat_cmp root.level arenas.old root.id }
{
    root.level == 3 && cleanup_root::<3, LEN>(arenas, root.id) == (Some(told.0), told.1, told.2)
}

// Takes a step through the type of nodes that stands at the root's level. Returns the root then.
fn takes<const LEN: usize>(
    rt: &impl Abort,
    arenas: &mut ArenasOf<u64, u64, LEN>,
    root: Root,
    step: &Step,
    stored: &mut Stored,
) -> Result<Root, AllocError>
    requires planted { IsPlanted nat_cmp root.level arenas.old root.id }
    ensures node { IfOk result (λ root. 0 < root.level) }
    ensures planted { IfOk result (λ root. IsPlanted nat_cmp root.level arenas.new root.id) }
{
    match root.level {
        1 => takes_by::<LeafNodeOf<u64, LEN>, 1, LEN>(rt, arenas, root.id, step, stored),
        2 => takes_by::<InternalNodeOf<u64, LEN>, 2, LEN>(rt, arenas, root.id, step, stored),
        3 => takes_by::<NodeOf<u64, LEN>, 3, LEN>(rt, arenas, root.id, step, stored),
        _ => panic!(rt; "no tree is so deep"),
    }
}

fn takes_by<N: NodeCalls<u64, LEN>, const LEVEL: usize, const LEN: usize>(
    rt: &impl Abort,
    arenas: &mut ArenasOf<u64, u64, LEN>,
    id: NodeId,
    step: &Step,
    stored: &mut Stored,
) -> Result<Root, AllocError>
    requires node { 0 < LEVEL }
    requires kind { N.StandsAt LEVEL }
    requires planted { IsPlanted nat_cmp LEVEL arenas.old id }
    ensures node { IfOk result (λ root. 0 < root.level) }
    ensures planted { IfOk result (λ root. IsPlanted nat_cmp root.level arenas.new root.id) }
{
    if let Step::SplitRoot(stays) = step {
        let root = splits_root::<LEVEL, LEN>(rt, arenas, id, stored)?;
        assert!(rt; (root.id == id) == *stays);
        return Ok(root);
    }
    assert!(rt; answers::<N, LEVEL, LEN>(rt, arenas, id, step, stored)?);
    Ok(Root { level: LEVEL, id })
}

// Splits a root, at once or the second time.
fn splits_root<const LEVEL: usize, const LEN: usize>(
    rt: &impl Abort,
    arenas: &mut ArenasOf<u64, u64, LEN>,
    id: NodeId,
    stored: &mut Stored,
) -> Result<Root, AllocError>
    requires node { 0 < LEVEL }
    requires planted { IsPlanted nat_cmp LEVEL arenas.old id }
    ensures node { IfOk result (λ root. 0 < root.level) }
    ensures planted { IfOk result (λ root. IsPlanted nat_cmp root.level arenas.new root.id) }
{
    if let Ok(root) = splits_root_once::<LEVEL, LEN>(arenas, id, stored) {
        return Ok(root);
    }
    expect_pairs(rt, arenas, LEVEL, id, stored);
    let root = splits_root_once::<LEVEL, LEN>(arenas, id, stored);
    stored.made_again(rt, SPLIT_ROOT, root.is_ok())?;
    root
}

const SPLIT_ROOT: &str = "Node::split_root";

fn splits_root_once<const LEVEL: usize, const LEN: usize>(
    arenas: &mut ArenasOf<u64, u64, LEN>,
    id: NodeId,
    stored: &Stored,
) -> Result<Root, AllocError>
    requires node { 0 < LEVEL }
    requires planted { IsPlanted nat_cmp LEVEL arenas.old id }
    ensures node { IfOk result (λ root. 0 < root.level) }
    ensures split { IfOk result (λ root. IsPlanted nat_cmp root.level arenas.new root.id) }
    ensures refused { OnErr result (IsPlanted nat_cmp LEVEL arenas.new id) }
{
    stored.begins(SPLIT_ROOT);
    let root = split_root::<LEVEL, LEN>(arenas, id);
    stored.ends();
    root
}
