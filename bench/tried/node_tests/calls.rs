//! Each call on a few pairs.
use crate::plays::plays;
use crate::steps::{Step, Told};
use std::ops::Bound;
use test_support::refusals::succeeds;
use tree_array::array::RemoveResult;

// The calls of a root over one empty leaf, until the root is retired. If the root is an internal
// node, the leaf node below it is dropped then.
static FEW: [Step; 29] = [
    Step::Insert(10, 10, 1, Told::Success),
    Step::Insert(20, 20, 2, Told::Success),
    Step::Insert(20, 20, 3, Told::Duplicate),
    Step::Find(20, Some(22)),
    Step::Upsert(20, 20, 4, Told::Success),
    Step::Find(20, Some(24)),
    Step::Find(10, Some(11)),
    Step::Find(15, None),
    Step::RemoveRange(Bound::Excluded(10), Bound::Excluded(20), 1),
    Step::RemoveRange(Bound::Included(20), Bound::Included(10), 1),
    Step::Ends(Some((10, 11)), Some((20, 24))),
    Step::Near(9, None, Some((10, 11))),
    Step::Near(15, Some((10, 11)), Some((20, 24))),
    Step::Near(21, Some((20, 24)), None),
    Step::Remove(15, 15, 1, RemoveResult::Fail),
    Step::Remove(10, 10, 4, RemoveResult::Fail),
    Step::Remove(10, 10, 1, RemoveResult::Success),
    Step::Find(10, None),
    Step::Ends(Some((20, 24)), Some((20, 24))),
    Step::Remove(20, 20, 4, RemoveResult::Retired),
    Step::Shape(1, 0, 1),
    Step::Insert(20, 20, 4, Told::Full),
    Step::Upsert(20, 20, 4, Told::Full),
    Step::Remove(20, 20, 4, RemoveResult::Fail),
    Step::RemoveRange(Bound::Unbounded, Bound::Unbounded, 0),
    Step::Find(20, None),
    Step::Near(20, None, None),
    Step::Ends(None, None),
    Step::Shape(1, 0, 1),
];

static LEAF_NODE: [Step; 2] = [Step::Shape(1, 1, 1), Step::Marks(false, false)];

// A retired leaf node gets an empty leaf, and takes pairs again.
static PLANTED_ANEW: [Step; 8] = [
    Step::Marks(true, false),
    Step::SplitRoot(true),
    Step::Shape(1, 1, 1),
    Step::Marks(false, false),
    Step::Ends(None, None),
    Step::Insert(20, 20, 2, Told::Success),
    Step::Find(20, Some(22)),
    Step::Ends(Some((20, 22)), Some((20, 22))),
];

static INTERNAL_NODE: [Step; 3] = [
    Step::SplitRoot(false),
    Step::Shape(2, 1, 2),
    Step::Marks(false, true),
];

static RETIRED_INTERNAL_NODE: [Step; 1] = [Step::Marks(true, true)];

#[test]
fn a_leaf_node_answers(rt: HostRuntime) {
    assert!(rt;
        succeeds(rt.alloc(), || {
            plays::<15>(&rt, rt.alloc(), &[&LEAF_NODE, &FEW, &PLANTED_ANEW])?;
            plays::<7>(&rt, rt.alloc(), &[&LEAF_NODE, &FEW, &PLANTED_ANEW])
        })
    );
}

#[test]
fn an_internal_node_answers(rt: HostRuntime) {
    assert!(rt;
        succeeds(rt.alloc(), || {
            plays::<15>(
                &rt,
                rt.alloc(),
                &[&INTERNAL_NODE, &FEW, &RETIRED_INTERNAL_NODE]
            )?;
            plays::<7>(
                &rt,
                rt.alloc(),
                &[&INTERNAL_NODE, &FEW, &RETIRED_INTERNAL_NODE]
            )
        })
    );
}
