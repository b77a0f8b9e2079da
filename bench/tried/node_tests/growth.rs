//! How a tree of ascending keys gains and loses levels: a leaf node takes `LEN + 1` leaves of `LEN`
//! pairs, and a node over leaf nodes takes `LEN` of them with `LEN` leaves each and one with
//! `LEN + 1`.
use crate::plays::plays;
use crate::steps::{Step, Told};
use test_support::refusals::succeeds;
use tree_array::array::RemoveResult;

// With fifteen slots a leaf node holds 240 pairs, and a node over leaf nodes 15 times 225 and 240.
// Its last child can't be split, but under a new root there is room for it. The keys up to 3375
// stand under one child of the root of three levels. It has no other once those above are gone.
static LARGE: [Step; 48] = [
    Step::Insert(1, 120, 0, Told::Success),
    Step::Upsert(121, 240, 0, Told::Success),
    Step::Shape(1, 16, 1),
    Step::Insert(241, 241, 7, Told::Full),
    Step::Upsert(241, 241, 7, Told::Full),
    Step::Insert(100, 100, 7, Told::Duplicate),
    Step::Ends(Some((1, 1)), Some((240, 240))),
    Step::Near(15, Some((15, 15)), Some((15, 15))),
    Step::Drain(15, 16, RemoveResult::Success),
    Step::Near(15, Some((14, 14)), Some((17, 17))),
    Step::Near(16, Some((14, 14)), Some((17, 17))),
    Step::Near(0, None, Some((1, 1))),
    Step::Near(241, Some((240, 240)), None),
    Step::SplitRoot(false),
    Step::Shape(2, 16, 3),
    Step::Insert(241, 2000, 0, Told::Success),
    Step::Upsert(2001, 3615, 0, Told::Success),
    Step::Shape(2, 241, 17),
    Step::Insert(3616, 3616, 7, Told::Full),
    Step::Upsert(3616, 3616, 7, Told::Full),
    Step::Insert(225, 225, 7, Told::Duplicate),
    Step::Ends(Some((1, 1)), Some((3615, 3615))),
    Step::Near(225, Some((225, 225)), Some((225, 225))),
    Step::Drain(225, 226, RemoveResult::Success),
    Step::Near(225, Some((224, 224)), Some((227, 227))),
    Step::Near(226, Some((224, 224)), Some((227, 227))),
    Step::Near(0, None, Some((1, 1))),
    Step::Near(3616, Some((3615, 3615)), None),
    Step::SplitLast(false),
    Step::SplitRoot(false),
    Step::SplitLast(true),
    Step::Shape(3, 241, 19),
    Step::Insert(3616, 3616, 0, Told::Success),
    Step::Shape(3, 242, 20),
    Step::Find(3375, Some(3375)),
    Step::Find(3376, Some(3376)),
    Step::Near(3375, Some((3375, 3375)), Some((3375, 3375))),
    Step::Drain(3375, 3375, RemoveResult::Success),
    Step::Near(3375, Some((3374, 3374)), Some((3376, 3376))),
    Step::Near(0, None, Some((1, 1))),
    Step::Near(3617, Some((3616, 3616)), None),
    Step::Upsert(3617, 3840, 0, Told::Success),
    Step::Remove(3377, 3840, 0, RemoveResult::Success),
    Step::Marks(false, false),
    Step::Remove(3376, 3376, 0, RemoveResult::Success),
    Step::Marks(false, true),
    Step::Shape(3, 225, 17),
    Step::CleanUp(true, 225, 16),
];

// With seven slots a leaf node holds 56 pairs, and a node over leaf nodes 7 times 49 and 56. The
// keys up to 343 stand under one child of the root of three levels.
static SMALL: [Step; 48] = [
    Step::Insert(1, 28, 0, Told::Success),
    Step::Upsert(29, 56, 0, Told::Success),
    Step::Shape(1, 8, 1),
    Step::Insert(57, 57, 7, Told::Full),
    Step::Upsert(57, 57, 7, Told::Full),
    Step::Insert(30, 30, 7, Told::Duplicate),
    Step::Ends(Some((1, 1)), Some((56, 56))),
    Step::Near(7, Some((7, 7)), Some((7, 7))),
    Step::Drain(7, 8, RemoveResult::Success),
    Step::Near(7, Some((6, 6)), Some((9, 9))),
    Step::Near(8, Some((6, 6)), Some((9, 9))),
    Step::Near(0, None, Some((1, 1))),
    Step::Near(57, Some((56, 56)), None),
    Step::SplitRoot(false),
    Step::Shape(2, 8, 3),
    Step::Insert(57, 200, 0, Told::Success),
    Step::Upsert(201, 399, 0, Told::Success),
    Step::Shape(2, 57, 9),
    Step::Insert(400, 400, 7, Told::Full),
    Step::Upsert(400, 400, 7, Told::Full),
    Step::Insert(49, 49, 7, Told::Duplicate),
    Step::Ends(Some((1, 1)), Some((399, 399))),
    Step::Near(49, Some((49, 49)), Some((49, 49))),
    Step::Drain(49, 50, RemoveResult::Success),
    Step::Near(49, Some((48, 48)), Some((51, 51))),
    Step::Near(50, Some((48, 48)), Some((51, 51))),
    Step::Near(0, None, Some((1, 1))),
    Step::Near(400, Some((399, 399)), None),
    Step::SplitLast(false),
    Step::SplitRoot(false),
    Step::SplitLast(true),
    Step::Shape(3, 57, 11),
    Step::Insert(400, 400, 0, Told::Success),
    Step::Shape(3, 58, 12),
    Step::Find(343, Some(343)),
    Step::Find(344, Some(344)),
    Step::Near(343, Some((343, 343)), Some((343, 343))),
    Step::Drain(343, 343, RemoveResult::Success),
    Step::Near(343, Some((342, 342)), Some((344, 344))),
    Step::Near(0, None, Some((1, 1))),
    Step::Near(401, Some((400, 400)), None),
    Step::Upsert(401, 448, 0, Told::Success),
    Step::Remove(345, 448, 0, RemoveResult::Success),
    Step::Marks(false, false),
    Step::Remove(344, 344, 0, RemoveResult::Success),
    Step::Marks(false, true),
    Step::Shape(3, 49, 9),
    Step::CleanUp(true, 49, 8),
];

#[test]
fn grows_to_three_levels(rt: HostRuntime) {
    assert!(rt;
        succeeds(rt.alloc(), || {
            plays::<15>(&rt, rt.alloc(), &[&LARGE])?;
            plays::<7>(&rt, rt.alloc(), &[&SMALL])
        })
    );
}

// A leaf node of fifteen slots over 240 ascending keys, which go one by one.
static FILLED_AND_EMPTIED: [Step; 7] = [
    Step::Insert(0, 239, 0, Told::Success),
    Step::Insert(240, 240, 7, Told::Full),
    Step::Shape(1, 16, 1),
    Step::Insert(100, 100, 7, Told::Duplicate),
    Step::Drain(0, 238, RemoveResult::Success),
    Step::Drain(239, 239, RemoveResult::Retired),
    Step::Shape(1, 0, 1),
];

// The one child of a root is full. When it is split, a new node takes all of its leaves but the
// last, so that there is room for as many leaves more before another node is needed.
static DIVIDED: [Step; 9] = [
    Step::SplitRoot(false),
    Step::Insert(1, 240, 0, Told::Success),
    Step::Shape(2, 16, 2),
    Step::SplitLast(true),
    Step::Shape(2, 16, 3),
    Step::Find(225, Some(225)),
    Step::Find(226, Some(226)),
    Step::Insert(241, 465, 0, Told::Success),
    Step::Shape(2, 31, 3),
];

// The same with seven slots.
static SMALL_DIVIDED: [Step; 9] = [
    Step::SplitRoot(false),
    Step::Insert(1, 56, 0, Told::Success),
    Step::Shape(2, 8, 2),
    Step::SplitLast(true),
    Step::Shape(2, 8, 3),
    Step::Find(49, Some(49)),
    Step::Find(50, Some(50)),
    Step::Insert(57, 105, 0, Told::Success),
    Step::Shape(2, 15, 3),
];

#[test]
fn nodes_fill_and_divide(rt: HostRuntime) {
    assert!(rt;
        succeeds(rt.alloc(), || {
            plays::<15>(&rt, rt.alloc(), &[&FILLED_AND_EMPTIED])?;
            plays::<15>(&rt, rt.alloc(), &[&DIVIDED])?;
            plays::<7>(&rt, rt.alloc(), &[&SMALL_DIVIDED])
        })
    );
}

// With four nodes the arena of nodes is full. So the fifth, which splits the full last child of
// the root, allocates.
static SPLIT_WHEN_FULL: [Step; 8] = [
    Step::SplitRoot(false),
    Step::Insert(1, 690, 0, Told::Success),
    Step::Shape(2, 46, 4),
    Step::SplitLast(true),
    Step::Shape(2, 46, 5),
    Step::Find(675, Some(675)),
    Step::Find(676, Some(676)),
    Step::Insert(691, 691, 0, Told::Success),
];

// The same with seven slots.
static SMALL_SPLIT_WHEN_FULL: [Step; 8] = [
    Step::SplitRoot(false),
    Step::Insert(1, 154, 0, Told::Success),
    Step::Shape(2, 22, 4),
    Step::SplitLast(true),
    Step::Shape(2, 22, 5),
    Step::Find(147, Some(147)),
    Step::Find(148, Some(148)),
    Step::Insert(155, 155, 0, Told::Success),
];

// The arena of nodes is full with four as well, when a new root is made. It is full again with
// eight, and both arenas then grow under the new root.
static RAISED_WHEN_FULL: [Step; 6] = [
    Step::SplitRoot(false),
    Step::Insert(1, 690, 0, Told::Success),
    Step::Shape(2, 46, 4),
    Step::SplitRoot(false),
    Step::Shape(3, 46, 5),
    Step::Insert(691, 1400, 0, Told::Success),
];

// The same with seven slots.
static SMALL_RAISED_WHEN_FULL: [Step; 6] = [
    Step::SplitRoot(false),
    Step::Insert(1, 154, 0, Told::Success),
    Step::Shape(2, 22, 4),
    Step::SplitRoot(false),
    Step::Shape(3, 22, 5),
    Step::Insert(155, 400, 0, Told::Success),
];

#[test]
fn full_arenas_grow(rt: HostRuntime) {
    assert!(rt;
        succeeds(rt.alloc(), || {
            plays::<15>(&rt, rt.alloc(), &[&SPLIT_WHEN_FULL])?;
            plays::<15>(&rt, rt.alloc(), &[&RAISED_WHEN_FULL])?;
            plays::<7>(&rt, rt.alloc(), &[&SMALL_SPLIT_WHEN_FULL])?;
            plays::<7>(&rt, rt.alloc(), &[&SMALL_RAISED_WHEN_FULL])
        })
    );
}
