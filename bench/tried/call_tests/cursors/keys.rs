//! Walks over the keys of an index alone, and over its values alone.
ghost use Rattle.std.specs.Iterator.{IsFinite};

use std::alloc::AllocError;
use std::process::Abort;
use tree_index::{SmallTreeIndex, TreeIndex};
use tree_support::{Numbers, OwnScenario, put, succeeds_by_own_calls};

// The end of a walk that is asked.
#[derive(Clone, Copy)]
enum End {
    First,
    Last,
}

// How many keys from 1 on are stored, each with ten times itself, the ends that are asked, and the
// keys that come.
type Row = (u64, &'static [(End, Option<u64>)]);

static ROWS: [Row; 6] = [
    (0, &[(End::First, None), (End::Last, None)]),
    (
        1,
        &[(End::First, Some(1)), (End::First, None), (End::Last, None)],
    ),
    (1, &[(End::Last, Some(1)), (End::First, None)]),
    (
        3,
        &[
            (End::First, Some(1)),
            (End::Last, Some(3)),
            (End::First, Some(2)),
            (End::Last, None),
            (End::First, None),
        ],
    ),
    (
        7,
        &[
            (End::Last, Some(7)),
            (End::First, Some(1)),
            (End::Last, Some(6)),
        ],
    ),
    (
        16,
        &[
            (End::Last, Some(16)),
            (End::Last, Some(15)),
            (End::First, Some(1)),
        ],
    ),
];

// Stores the keys from 1 to the last, each with ten times itself.
fn store(index: &mut impl Numbers, last: u64) -> Result<(), AllocError> {
    for key in 1..=last {
        put(index, key, key.saturating_mul(10))?;
    }
    Ok(())
}

// Asks an end of a walk.
fn ask<'t, I: DoubleEndedIterator<Item = &'t u64>>(walk: &mut I, end: End) -> Option<u64>
    requires first { I.can_next walk.old }
    requires last { I.can_next_back walk.old }
{
    match end {
        End::First => walk.next().copied(),
        End::Last => walk.next_back().copied(),
    }
}

// Asks the ends of a walk, which gives the wanted keys times a factor.
fn expect_steps<'t, I: DoubleEndedIterator<Item = &'t u64>>(
    rt: &impl Abort,
    walk: I,
    steps: &[(End, Option<u64>)],
    factor: u64,
)
    requires first { (s : I) → I.can_next s }
    requires last { (s : I) → I.can_next_back s }
{
    let mut walk = walk;
    for (end, wanted) in steps {
        let given = ask(&mut walk, *end);
        assert!(rt; given == wanted.map(|key| key.saturating_mul(factor)));
    }
}

// An index of numbers whose keys and values are walked over. It is implemented at each size, since
// code for any size would owe a proof of the size of each walk.
trait Listed: Numbers {
    // Asks the ends of a walk over the keys, and of one over the values.
    fn expect_ends<R: Abort>(&self, rt: &R, steps: &[(End, Option<u64>)]);

    // Takes all keys up to the last, and all values.
    fn expect_whole<R: Abort>(&self, rt: &R, last: u64);
}

impl Listed for TreeIndex<u64, u64> {
    fn expect_ends<R: Abort>(&self, rt: &R, steps: &[(End, Option<u64>)]) {
        expect_steps(rt, self.keys(), steps, 1);
        expect_steps(rt, self.values(), steps, 10);
    }

    fn expect_whole<R: Abort>(&self, rt: &R, last: u64) {
        expect_all(rt, self.keys(), last, 1);
        expect_all(rt, self.values(), last, 10);
    }
}

impl Listed for SmallTreeIndex<u64, u64> {
    fn expect_ends<R: Abort>(&self, rt: &R, steps: &[(End, Option<u64>)]) {
        expect_steps(rt, self.keys(), steps, 1);
        expect_steps(rt, self.values(), steps, 10);
    }

    fn expect_whole<R: Abort>(&self, rt: &R, last: u64) {
        expect_all(rt, self.keys(), last, 1);
        expect_all(rt, self.values(), last, 10);
    }
}

// Asks the ends of walks as a row says.
#[derive(Drop)]
struct Asking<'r, R> {
    rt: &'r R,
    row: Row,
}

impl<R: Abort, I: Listed> OwnScenario<I> for Asking<'_, R> {
    fn play(&self, index: &mut I) -> Result<(), AllocError> {
        let (last, steps) = self.row;
        store(index, last)?;
        index.expect_ends(self.rt, steps);
        Ok(())
    }
}

#[test]
fn both_ends_give_keys_and_values(rt: HostRuntime) {
    for row in &ROWS {
        let scenario = Asking { rt: &rt, row: *row };
        assert!(rt; succeeds_by_own_calls(rt.alloc(), &scenario));
    }
}

// Takes all that a walk gives, which is the keys up to the last times a factor.
fn expect_all<'t, I: Iterator<Item = &'t u64>>(rt: &impl Abort, walk: I, last: u64, factor: u64)
    requires can { I.can_next walk }
    requires ends { IsFinite (I.remaining walk) }
{
    let mut given: u64 = 0;
    for number in walk {
        given = given.saturating_add(1);
        assert!(rt; *number == given.saturating_mul(factor));
    }
    assert!(rt; given == last);
}

// Takes all keys and values of three levels.
#[derive(Drop)]
struct Taking<'r, R> {
    rt: &'r R,
}

impl<R: Abort, I: Listed> OwnScenario<I> for Taking<'_, R> {
    fn play(&self, index: &mut I) -> Result<(), AllocError> {
        let last = if index.pairs_a_leaf() == 7 { 100 } else { 300 };
        store(index, last)?;
        index.expect_whole(self.rt, last);
        Ok(())
    }
}

#[test]
fn gives_all_of_three_levels(rt: HostRuntime) {
    let scenario = Taking { rt: &rt };
    assert!(rt; succeeds_by_own_calls(rt.alloc(), &scenario));
}
