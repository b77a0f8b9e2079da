//! Calls of a tree in rows, each with its answer.
ghost use Rattle.std.specs.Prelude.{◌<◌};
ghost use Rattle.std.specs.Ordering.{nat_cmp};
ghost use Rattle.node_tests.specs.Planted.{IsPlanted};

use crate::planted::{
    Through, ends, expect_pairs, insert, marks, near, remove_if, remove_range, shape, split_last,
};
use crate::searches::finds;
use crate::stored::Stored;
use Told::{Duplicate, Full, Success};
use port_calls::node_calls::NodeCalls;
use std::alloc::AllocError;
use std::ops::Bound;
use std::process::Abort;
use tree_array::array::{InsertResult, RemoveResult};
use tree_leaf::arena::NodeId;
use tree_node::node::ArenasOf;

// What an insert answers. The pair that isn't stored comes back.
pub(crate) enum Told {
    Success,
    Duplicate,
    Full,
}

impl Told {
    // The whole answer for a pair.
    fn of(&self, key: u64, val: u64) -> InsertResult<u64, u64> {
        match self {
            Success => InsertResult::Success,
            Duplicate => InsertResult::Duplicate(key, val),
            Full => InsertResult::Full(key, val),
        }
    }
}

// A call, or several of one kind, and what each should answer. The third number of those that take
// one is how much the value at a key is larger than the key.
pub(crate) enum Step {
    // Inserts the keys from the first to the last.
    Insert(u64, u64, u64, Told),
    // Inserts them in place of what is at equal keys.
    Upsert(u64, u64, u64, Told),
    // Removes the keys from the last to the first, on the condition that they have this value.
    Remove(u64, u64, u64, RemoveResult),
    // Removes the keys from the first to the last, whatever their values.
    Drain(u64, u64, RemoveResult),
    // Removes the keys within both bounds, which there are none of. The root has this many
    // children left.
    RemoveRange(Bound<u64>, Bound<u64>, usize),
    // Makes room in the unbounded child of the root, if it can.
    SplitLast(bool),
    // Splits the root, and tells whether it keeps its number.
    SplitRoot(bool),
    // Finds the value at a key.
    Find(u64, Option<u64>),
    // Finds the first pair and the last one.
    Ends(Option<(u64, u64)>, Option<(u64, u64)>),
    // Finds the pair nearest to a key, at or below it and at or above it.
    Near(u64, Option<(u64, u64)>, Option<(u64, u64)>),
    // Tells the depth, and counts the leaves and the nodes in the arenas.
    Shape(usize, usize, usize),
    // Tells whether the root is retired, and whether its child may take its place.
    Marks(bool, bool),
    // Cleans up at the root, which is the last step. Tells whether the root moved, and counts the
    // leaves and the nodes.
    CleanUp(bool, usize, usize),
}

// Whether the tree answers the step so.
pub(crate) fn answers<N: NodeCalls<u64, LEN>, const LEVEL: usize, const LEN: usize>(
    rt: &impl Abort,
    arenas: &mut ArenasOf<u64, u64, LEN>,
    root: NodeId,
    step: &Step,
    stored: &mut Stored,
) -> Result<bool, AllocError>
    requires kind { N.StandsAt LEVEL }
    requires planted { IsPlanted nat_cmp LEVEL arenas.old root }
    ensures { IsPlanted nat_cmp LEVEL arenas.new root }
{
    match step {
        Step::Insert(first, last, more, told) => {
            inserts::<N, false, LEVEL, LEN>(rt, arenas, root, (*first, *last, *more), told, stored)
        }
        Step::Upsert(first, last, more, told) => {
            inserts::<N, true, LEVEL, LEN>(rt, arenas, root, (*first, *last, *more), told, stored)
        }
        Step::Remove(first, last, more, told) => Ok(removes::<N, LEVEL, LEN>(
            arenas,
            root,
            (*first, *last, *more),
            told,
            stored,
        )),
        Step::Drain(first, last, told) => {
            Ok(drains::<N, LEVEL, LEN>(arenas, root, (*first, *last), told, stored))
        }
        Step::RemoveRange(low, high, left) => {
            let children = remove_range::<N, LEVEL, LEN>(arenas, root, low.as_ref(), high.as_ref());
            Ok(children == *left)
        }
        Step::SplitLast(told) => Ok(splits::<LEVEL, LEN>(rt, arenas, root, stored)? == *told),
        _ => Ok(shows::<N, LEVEL, LEN>(arenas, root, step)),
    }
}

// Whether the tree answers a step so that changes nothing.
fn shows<N: NodeCalls<u64, LEN>, const LEVEL: usize, const LEN: usize>(
    arenas: &ArenasOf<u64, u64, LEN>,
    root: NodeId,
    step: &Step,
) -> bool
    requires kind { N.StandsAt LEVEL }
    requires planted { IsPlanted nat_cmp LEVEL arenas.now root }
{
    match step {
        Step::Find(key, val) => finds::<Through<N, LEVEL>, _>(arenas, root, *key, *val),
        Step::Ends(first, last) => ends::<N, LEVEL, LEN>(arenas, root) == (*first, *last),
        Step::Near(key, below, above) => {
            near::<N, true, LEVEL, LEN>(arenas, root, *key) == *below
                && near::<N, false, LEVEL, LEN>(arenas, root, *key) == *above
        }
        Step::Shape(depth, leaves, nodes) => {
            shape::<N, LEVEL, LEN>(arenas, root) == (*depth, *leaves, *nodes)
        }
        Step::Marks(retired, cleanup) => {
            marks::<N, LEVEL, LEN>(arenas, root) == (*retired, *cleanup)
        }
        _ => false,
    }
}

// Whether each insert answers this.
fn inserts<N: NodeCalls<u64, LEN>, const UPSERT: bool, const LEVEL: usize, const LEN: usize>(
    rt: &impl Abort,
    arenas: &mut ArenasOf<u64, u64, LEN>,
    root: NodeId,
    keys: (u64, u64, u64),
    told: &Told,
    stored: &mut Stored,
) -> Result<bool, AllocError>
    requires kind { N.StandsAt LEVEL }
    requires planted { IsPlanted nat_cmp LEVEL arenas.old root }
    ensures { IsPlanted nat_cmp LEVEL arenas.new root }
{
    let (first, last, more) = keys;
    for key in first..=last {
        let val = key.wrapping_add(more);
        let answer = inserts_twice::<N, UPSERT, LEVEL, LEN>(rt, arenas, root, (key, val), stored)?;
        if answer != told.of(key, val) {
            return Ok(false);
        }
        if answer == InsertResult::Success {
            stored.put(key, val)?;
        }
    }
    Ok(true)
}

// Inserts a pair, at once or the second time. `Err` if it is refused both times.
fn inserts_twice<N: NodeCalls<u64, LEN>, const UPSERT: bool, const LEVEL: usize, const LEN: usize>(
    rt: &impl Abort,
    arenas: &mut ArenasOf<u64, u64, LEN>,
    root: NodeId,
    pair: (u64, u64),
    stored: &mut Stored,
) -> Result<InsertResult<u64, u64>, AllocError>
    requires kind { N.StandsAt LEVEL }
    requires planted { IsPlanted nat_cmp LEVEL arenas.old root }
    ensures { IsPlanted nat_cmp LEVEL arenas.new root }
{
    if let Ok(answer) = inserts_once::<N, UPSERT, LEVEL, LEN>(rt, arenas, root, pair, stored) {
        return Ok(answer);
    }
    let answer = inserts_once::<N, UPSERT, LEVEL, LEN>(rt, arenas, root, pair, stored);
    stored.made_again(rt, insert_at(LEVEL), answer.is_ok())?;
    answer
}

// The name of the insert of the type of nodes that is tried at a level.
fn insert_at(level: usize) -> &'static str {
    match level {
        1 => "LeafNode::insert",
        2 => "InternalNode::insert",
        _ => "Node::insert",
    }
}

// Inserts a pair. One that is refused comes back, and the tree has the pairs that it had.
fn inserts_once<N: NodeCalls<u64, LEN>, const UPSERT: bool, const LEVEL: usize, const LEN: usize>(
    rt: &impl Abort,
    arenas: &mut ArenasOf<u64, u64, LEN>,
    root: NodeId,
    pair: (u64, u64),
    stored: &Stored,
) -> Result<InsertResult<u64, u64>, AllocError>
    requires kind { N.StandsAt LEVEL }
    requires planted { IsPlanted nat_cmp LEVEL arenas.old root }
    ensures { IsPlanted nat_cmp LEVEL arenas.new root }
{
    stored.begins(insert_at(LEVEL));
    let answer = insert::<N, u64, u64, UPSERT, LEVEL, LEN>(arenas, root, pair.0, pair.1);
    stored.ends();
    match answer {
        Ok(answer) => Ok(answer),
        Err(back) => {
            expect_back(rt, back, pair);
            expect_pairs(rt, arenas, LEVEL, root, stored);
            Err(AllocError)
        }
    }
}

// Asserts that a refused pair came back.
fn expect_back(rt: &impl Abort, back: (u64, u64), pair: (u64, u64)) {
    assert!(rt; back == pair);
}

// Makes room in the unbounded child of the root, at once or the second time. Returns whether it
// could.
fn splits<const LEVEL: usize, const LEN: usize>(
    rt: &impl Abort,
    arenas: &mut ArenasOf<u64, u64, LEN>,
    root: NodeId,
    stored: &mut Stored,
) -> Result<bool, AllocError>
    requires node { 0 < LEVEL }
    requires planted { IsPlanted nat_cmp LEVEL arenas.old root }
    ensures { IsPlanted nat_cmp LEVEL arenas.new root }
{
    if let Ok(split) = splits_once::<LEVEL, LEN>(arenas, root, stored) {
        return Ok(split);
    }
    expect_pairs(rt, arenas, LEVEL, root, stored);
    let split = splits_once::<LEVEL, LEN>(arenas, root, stored);
    stored.made_again(rt, SPLIT_NODE, split.is_ok())?;
    split
}

const SPLIT_NODE: &str = "InternalNode::split_node";

fn splits_once<const LEVEL: usize, const LEN: usize>(
    arenas: &mut ArenasOf<u64, u64, LEN>,
    root: NodeId,
    stored: &Stored,
) -> Result<bool, AllocError>
    requires node { 0 < LEVEL }
    requires planted { IsPlanted nat_cmp LEVEL arenas.old root }
    ensures { IsPlanted nat_cmp LEVEL arenas.new root }
{
    stored.begins(SPLIT_NODE);
    let split = split_last::<LEVEL, LEN>(arenas, root);
    stored.ends();
    split
}

// Whether each removal answers this, in descending order.
fn removes<N: NodeCalls<u64, LEN>, const LEVEL: usize, const LEN: usize>(
    arenas: &mut ArenasOf<u64, u64, LEN>,
    root: NodeId,
    keys: (u64, u64, u64),
    told: &RemoveResult,
    stored: &mut Stored,
) -> bool
    requires kind { N.StandsAt LEVEL }
    requires planted { IsPlanted nat_cmp LEVEL arenas.old root }
    ensures { IsPlanted nat_cmp LEVEL arenas.new root }
{
    let (first, last, more) = keys;
    for key in (first..=last).rev() {
        let val = key.wrapping_add(more);
        let answer = remove_if::<N, u64, u64, _, LEVEL, LEN>(arenas, root, &key, |at_key| {
            *at_key == val
        });
        if answer != *told {
            return false;
        }
        if answer != RemoveResult::Fail {
            stored.remove(key);
        }
    }
    true
}

// Whether each removal of a key answers this, in ascending order.
fn drains<N: NodeCalls<u64, LEN>, const LEVEL: usize, const LEN: usize>(
    arenas: &mut ArenasOf<u64, u64, LEN>,
    root: NodeId,
    keys: (u64, u64),
    told: &RemoveResult,
    stored: &mut Stored,
) -> bool
    requires kind { N.StandsAt LEVEL }
    requires planted { IsPlanted nat_cmp LEVEL arenas.old root }
    ensures { IsPlanted nat_cmp LEVEL arenas.new root }
{
    for key in keys.0..=keys.1 {
        let answer = remove_if::<N, u64, u64, _, LEVEL, LEN>(arenas, root, &key, |_| true);
        if answer != *told {
            return false;
        }
        stored.remove(key);
    }
    true
}
