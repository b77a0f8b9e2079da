//! What a failed allocation leaves of arenas.
ghost use Rattle.tree_array.specs.Length.{IsLen};

use std::alloc::{AllocError, Global};
use std::process::Abort;
use test_support::refusals::{begins, ends, is_granted_again, succeeds};
use tree_array::array::InsertResult;
use tree_leaf::arena::SlotsOf;
use tree_leaf::leaf::LeafOf;

// A leaf with a pair of this key.
fn leaf_of<const LEN: usize>(key: u64) -> LeafOf<u64, u64, LEN>
    requires { IsLen LEN }
{
    let mut leaf = LeafOf::new();
    let _ = leaf.array_mut().insert::<false>(key, 10);
    leaf
}

// Whether a leaf has a pair with this key, and no other one.
fn has_alone<const LEN: usize>(leaf: &mut LeafOf<u64, u64, LEN>, key: u64) -> bool {
    leaf.array_mut().insert::<false>(key, 0) == InsertResult::Duplicate(key, 0)
        && (leaf.array().free() as usize).checked_add(1) == Some(LEN)
}

// Arenas whose nodes are numbers.
type Places<const LEN: usize> = SlotsOf<u64, u64, u64, LEN>;

// How many leaves and nodes there are.
fn counts_of<const LEN: usize>(arenas: &Places<LEN>) -> (usize, usize) {
    (arenas.leaf_count(), arenas.node_count())
}

// Whether the arenas have the leaves of the keys below this number, and no other ones.
fn has_leaves<const LEN: usize>(arenas: &Places<LEN>, count: u64) -> bool {
    for number in 0..count {
        if !arenas
            .leaves()
            .get(number as usize)
            .is_some_and(|leaf| leaf.array().slot_of(&number).is_some())
        {
            return false;
        }
    }
    arenas.leaf_count() as u64 == count
}

// Adds a leaf to arenas that have those of smaller keys. One that is refused comes back, and they
// have the same then.
fn adds_leaf_once<const LEN: usize>(
    rt: &impl Abort,
    alloc: Global,
    arenas: &mut Places<LEN>,
    number: u64,
    leaf: LeafOf<u64, u64, LEN>,
) -> Option<LeafOf<u64, u64, LEN>> {
    let nodes = arenas.node_count();
    begins(alloc, ADD_LEAF);
    let answer = arenas.add_leaf(leaf);
    ends(alloc);
    let mut back = answer.err();
    let count = match &mut back {
        Some(leaf) => {
            assert!(rt; has_alone(leaf, number));
            number
        }
        None => number.saturating_add(1),
    };
    assert!(rt; has_leaves(arenas, count) && arenas.node_count() == nodes);
    back
}

const ADD_LEAF: &str = "Slots::add_leaf";

// Adds a leaf, at once or the second time. Returns whether it was refused once. `Err` if it was
// refused both times.
fn adds_leaf<const LEN: usize>(
    rt: &impl Abort,
    alloc: Global,
    arenas: &mut Places<LEN>,
    number: u64,
) -> Result<bool, AllocError>
    requires { IsLen LEN }
{
    let Some(back) = adds_leaf_once(rt, alloc, arenas, number, leaf_of(number)) else {
        return Ok(false);
    };
    let again = adds_leaf_once(rt, alloc, arenas, number, back);
    assert!(rt; is_granted_again(alloc, ADD_LEAF, again.is_none())?);
    Ok(true)
}

// Adds a node. Returns whether it was refused: it comes back, and the arenas have as many leaves
// and nodes then.
fn is_refused_a_node<const LEN: usize>(
    rt: &impl Abort,
    alloc: Global,
    arenas: &mut Places<LEN>,
    number: u64,
) -> bool {
    let (leaves, nodes) = counts_of(arenas);
    begins(alloc, ADD_NODE);
    let answer = arenas.add_node(number);
    ends(alloc);
    match answer {
        Ok(id) => {
            assert!(rt; *arenas.node(id) == number && arenas.node_count() > nodes);
            false
        }
        Err(back) => {
            assert!(rt; back == number && counts_of(arenas) == (leaves, nodes));
            true
        }
    }
}

const ADD_NODE: &str = "Slots::add_node";

// Adds a node in the same way.
fn adds_node<const LEN: usize>(
    rt: &impl Abort,
    alloc: Global,
    arenas: &mut Places<LEN>,
    number: u64,
) -> Result<bool, AllocError> {
    if !is_refused_a_node(rt, alloc, arenas, number) {
        return Ok(false);
    }
    let again = is_refused_a_node(rt, alloc, arenas, number);
    assert!(rt; is_granted_again(alloc, ADD_NODE, !again)?);
    Ok(true)
}

// Reserves places. Returns whether that was refused. There are as many leaves and nodes as before
// either way.
fn is_refused_places<const LEN: usize>(
    rt: &impl Abort,
    alloc: Global,
    arenas: &mut Places<LEN>,
) -> bool {
    let counts = counts_of(arenas);
    begins(alloc, RESERVE);
    let answer = arenas.reserve(3, 3);
    ends(alloc);
    assert!(rt; counts_of(arenas) == counts);
    answer.is_err()
}

const RESERVE: &str = "Slots::reserve";

// Reserves places in the same way.
fn reserves<const LEN: usize>(
    rt: &impl Abort,
    alloc: Global,
    arenas: &mut Places<LEN>,
) -> Result<bool, AllocError> {
    if !is_refused_places(rt, alloc, arenas) {
        return Ok(false);
    }
    let again = is_refused_places(rt, alloc, arenas);
    assert!(rt; is_granted_again(alloc, RESERVE, !again)?);
    Ok(true)
}

// Adds nine leaves and nodes, and reserves places for three of them. `Err` if anything was
// refused.
fn grows<const LEN: usize>(
    rt: &impl Abort,
    alloc: Global,
    arenas: &mut Places<LEN>,
) -> Result<(), AllocError>
    requires { IsLen LEN }
{
    let mut refused = false;
    for number in 0..9 {
        if number == 3 {
            refused |= reserves(rt, alloc, arenas)?;
        }
        refused |= adds_leaf(rt, alloc, arenas, number)?;
        refused |= adds_node(rt, alloc, arenas, number)?;
    }
    if refused { Err(AllocError) } else { Ok(()) }
}

#[test]
fn refusals_change_nothing(rt: HostRuntime) {
    assert!(rt;
        succeeds(rt.alloc(), || {
            let mut arenas: Places<15> = SlotsOf::new(rt.alloc());
            grows(&rt, rt.alloc(), &mut arenas)
        })
    );
    assert!(rt;
        succeeds(rt.alloc(), || {
            let mut arenas: Places<7> = SlotsOf::new(rt.alloc());
            grows(&rt, rt.alloc(), &mut arenas)
        })
    );
}
