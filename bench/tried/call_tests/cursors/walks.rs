//! Worked walks of cursors.
use crate::cursors::said::{Said, make, numbers, said_by};
use std::alloc::{AllocError, Global};
use std::ops::Bound;
use std::process::Abort;
use test_support::refusals::{begins, ends, is_granted_again, succeeds};
use tree_index::{
    Cursor, IterOf, Move, ProximityOf, Range, RangeOf, TreeIndex, TreeIndexOf, run_moves,
};
use tree_support::{
    MoreCalls, Numbers, OwnScenario, Scenario, ascend, put, succeeds_at_both_sizes,
    succeeds_by_own_calls,
};

// Pairs in the order in which they come, the bounds of a range over them, its moves with their
// answers, and then those of the cursor over all pairs that is made of it.
struct Row {
    pairs: &'static [(u64, u64)],
    bounds: (Bound<u64>, Bound<u64>),
    moves: &'static [Move],
    answers: &'static [Said],
    opened_moves: &'static [Move],
    opened_answers: &'static [Said],
}

static ROWS: [Row; 11] = [
    Row {
        pairs: &[(1, 2), (3, 4)],
        bounds: (Bound::Unbounded, Bound::Unbounded),
        moves: &[Move::Next, Move::NextBack, Move::Next, Move::NextBack],
        answers: &[
            Said::Pair(Some((1, 2))),
            Said::Pair(Some((3, 4))),
            Said::Pair(None),
            Said::Pair(None),
        ],
        opened_moves: &[],
        opened_answers: &[],
    },
    Row {
        pairs: &[(1, 2), (2, 2), (3, 2)],
        bounds: (Bound::Unbounded, Bound::Unbounded),
        moves: &[
            Move::NextBack,
            Move::NextBack,
            Move::Flip,
            Move::Next,
            Move::Flip,
            Move::NextBack,
            Move::Next,
            Move::Next,
            Move::Flip,
        ],
        answers: &[
            Said::Pair(Some((3, 2))),
            Said::Pair(Some((2, 2))),
            Said::Flag(true),
            Said::Pair(Some((3, 2))),
            Said::Flag(true),
            Said::Pair(Some((2, 2))),
            Said::Pair(Some((1, 2))),
            Said::Pair(None),
            Said::Flag(false),
        ],
        opened_moves: &[],
        opened_answers: &[],
    },
    Row {
        pairs: &[(1, 2), (2, 2), (3, 2), (4, 2)],
        bounds: (Bound::Included(1), Bound::Excluded(4)),
        moves: &[
            Move::NextBack,
            Move::NextBack,
            Move::Flip,
            Move::Next,
            Move::Flip,
            Move::NextBack,
            Move::Next,
            Move::Next,
            Move::Flip,
        ],
        answers: &[
            Said::Pair(Some((3, 2))),
            Said::Pair(Some((2, 2))),
            Said::Flag(true),
            Said::Pair(Some((3, 2))),
            Said::Flag(true),
            Said::Pair(Some((2, 2))),
            Said::Pair(Some((1, 2))),
            Said::Pair(None),
            Said::Flag(false),
        ],
        opened_moves: &[],
        opened_answers: &[],
    },
    Row {
        pairs: &[(1, 2), (2, 3), (4, 6), (8, 12)],
        bounds: (Bound::Included(3), Bound::Included(4)),
        moves: &[Move::Next, Move::Get, Move::Next, Move::Get],
        answers: &[
            Said::Pair(Some((4, 6))),
            Said::Pair(Some((4, 6))),
            Said::Pair(None),
            Said::Pair(None),
        ],
        opened_moves: &[],
        opened_answers: &[],
    },
    Row {
        pairs: &[(1, 2)],
        bounds: (Bound::Unbounded, Bound::Unbounded),
        moves: &[Move::Flip, Move::Next, Move::Next, Move::Next, Move::Flip],
        answers: &[
            Said::Flag(true),
            Said::Pair(Some((1, 2))),
            Said::Pair(None),
            Said::Pair(None),
            Said::Flag(false),
        ],
        opened_moves: &[],
        opened_answers: &[],
    },
    Row {
        pairs: &[],
        bounds: (Bound::Unbounded, Bound::Unbounded),
        moves: &[Move::Flip, Move::Next, Move::Flip, Move::NextBack],
        answers: &[
            Said::Flag(true),
            Said::Pair(None),
            Said::Flag(false),
            Said::Pair(None),
        ],
        opened_moves: &[],
        opened_answers: &[],
    },
    Row {
        pairs: &[(1, 1), (2, 2), (3, 3), (4, 4)],
        bounds: (Bound::Included(2), Bound::Excluded(3)),
        moves: &[Move::Next],
        answers: &[Said::Pair(Some((2, 2)))],
        opened_moves: &[Move::Next, Move::Next, Move::Next],
        opened_answers: &[
            Said::Pair(Some((3, 3))),
            Said::Pair(Some((4, 4))),
            Said::Pair(None),
        ],
    },
    Row {
        pairs: &[(1, 2), (3, 4)],
        bounds: (Bound::Unbounded, Bound::Unbounded),
        moves: &[
            Move::Next,
            Move::Next,
            Move::Next,
            Move::NextBack,
            Move::GetBack,
        ],
        answers: &[
            Said::Pair(Some((1, 2))),
            Said::Pair(Some((3, 4))),
            Said::Pair(None),
            Said::Pair(None),
            Said::Pair(Some((3, 4))),
        ],
        opened_moves: &[],
        opened_answers: &[],
    },
    Row {
        pairs: &[(1, 2), (3, 4)],
        bounds: (Bound::Unbounded, Bound::Unbounded),
        moves: &[
            Move::NextBack,
            Move::Next,
            Move::Next,
            Move::Get,
            Move::Next,
            Move::Get,
            Move::NextBack,
            Move::GetBack,
        ],
        answers: &[
            Said::Pair(Some((3, 4))),
            Said::Pair(Some((1, 2))),
            Said::Pair(None),
            Said::Pair(Some((3, 4))),
            Said::Pair(None),
            Said::Pair(None),
            Said::Pair(None),
            Said::Pair(Some((1, 2))),
        ],
        opened_moves: &[],
        opened_answers: &[],
    },
    Row {
        pairs: &[(1, 2)],
        bounds: (Bound::Included(5), Bound::Unbounded),
        moves: &[Move::Next, Move::Flip],
        answers: &[Said::Pair(None), Said::Flag(false)],
        opened_moves: &[Move::Next, Move::NextBack, Move::GetBack, Move::Flip],
        opened_answers: &[
            Said::Pair(None),
            Said::Pair(None),
            Said::Pair(Some((1, 2))),
            Said::Flag(false),
        ],
    },
    Row {
        pairs: &[(1, 1), (2, 2), (3, 3), (4, 4)],
        bounds: (Bound::Included(4), Bound::Excluded(2)),
        moves: &[Move::Next, Move::NextBack],
        answers: &[Said::Pair(None), Said::Pair(None)],
        opened_moves: &[],
        opened_answers: &[],
    },
];

// Stores pairs in an index.
fn fill(index: &mut impl Numbers, pairs: &[(u64, u64)]) -> Result<(), AllocError> {
    for (key, value) in pairs {
        put(index, *key, *value)?;
    }
    Ok(())
}

// Makes the moves, which answer so.
fn expect<'t, C: Cursor<'t, u64, u64>>(
    rt: &impl Abort,
    cursor: &mut C,
    moves: &[Move],
    answers: &[Said],
) {
    for (step, answer) in moves.iter().zip(answers) {
        assert!(rt; make(cursor, *step) == *answer);
    }
}

// Makes the moves at once, which answer so, also the second time if an allocation fails.
fn expect_at_once<'t, C: Cursor<'t, u64, u64>>(
    rt: &impl Abort,
    alloc: Global,
    cursor: &mut C,
    moves: &[Move],
    answers: &[Said],
) -> Result<(), AllocError> {
    if makes_at_once(rt, alloc, cursor, moves, answers) {
        return Ok(());
    }
    let is_made = makes_at_once(rt, alloc, cursor, moves, answers);
    assert!(rt; is_granted_again(alloc, RUN_MOVES, is_made)?);
    Ok(())
}

const RUN_MOVES: &str = "run_moves";

// Makes the moves at once, which answer so. Returns `false` if an allocation fails; nothing is
// moved then.
fn makes_at_once<'t, C: Cursor<'t, u64, u64>>(
    rt: &impl Abort,
    alloc: Global,
    cursor: &mut C,
    moves: &[Move],
    answers: &[Said],
) -> bool {
    let stood = (make(cursor, Move::Get), make(cursor, Move::GetBack));
    begins(alloc, RUN_MOVES);
    let given = run_moves(alloc, cursor, moves);
    ends(alloc);
    let Ok(given) = given else {
        assert!(rt; (make(cursor, Move::Get), make(cursor, Move::GetBack)) == stood);
        return false;
    };
    assert!(rt; given.len() == answers.len());
    for (one, answer) in given.iter().zip(answers) {
        assert!(rt; said_by(one) == *answer);
    }
    true
}

// Makes the moves of a row by a range, and those of the cursor that is made of it.
fn expect_stepped<const LEN: usize>(rt: &impl Abort, range: RangeOf<'_, u64, u64, LEN>, row: &Row) {
    let mut range = range;
    expect(rt, &mut range, row.moves, row.answers);
    let mut opened = IterOf::from(range);
    expect(rt, &mut opened, row.opened_moves, row.opened_answers);
}

// Makes the same moves, each list at once.
fn expect_range_at_once<const LEN: usize>(
    rt: &impl Abort,
    alloc: Global,
    range: RangeOf<'_, u64, u64, LEN>,
    row: &Row,
) -> Result<(), AllocError> {
    let mut range = range;
    expect_at_once(rt, alloc, &mut range, row.moves, row.answers)?;
    let mut opened = IterOf::from(range);
    expect_at_once(rt, alloc, &mut opened, row.opened_moves, row.opened_answers)
}

// Makes the moves of a row over all pairs by a cursor.
fn expect_iter<const LEN: usize>(rt: &impl Abort, iter: IterOf<'_, u64, u64, LEN>, row: &Row) {
    let mut iter = iter;
    expect(rt, &mut iter, row.moves, row.answers);
}

// Makes the same moves at once.
fn expect_iter_at_once<const LEN: usize>(
    rt: &impl Abort,
    alloc: Global,
    iter: IterOf<'_, u64, u64, LEN>,
    row: &Row,
) -> Result<(), AllocError> {
    let mut iter = iter;
    expect_at_once(rt, alloc, &mut iter, row.moves, row.answers)
}

impl Row {
    // The bounds of the range.
    fn bounds(&self) -> (Bound<&u64>, Bound<&u64>) {
        (self.bounds.0.as_ref(), self.bounds.1.as_ref())
    }
}

// Makes the moves of a row by a range over an index.
fn step_range<const LEN: usize>(rt: &impl Abort, index: &TreeIndexOf<u64, u64, LEN>, row: &Row) {
    expect_stepped(rt, index.range(row.bounds()), row);
}

// Makes the same moves at once.
fn run_range<const LEN: usize>(
    rt: &impl Abort,
    alloc: Global,
    index: &TreeIndexOf<u64, u64, LEN>,
    row: &Row,
) -> Result<(), AllocError> {
    expect_range_at_once(rt, alloc, index.range(row.bounds()), row)
}

// Makes the moves of a row by a cursor over all pairs of an index.
fn step_iter<const LEN: usize>(rt: &impl Abort, index: &TreeIndexOf<u64, u64, LEN>, row: &Row) {
    expect_iter(rt, index.iter(), row);
}

// Makes the same moves at once.
fn run_iter<const LEN: usize>(
    rt: &impl Abort,
    alloc: Global,
    index: &TreeIndexOf<u64, u64, LEN>,
    row: &Row,
) -> Result<(), AllocError> {
    expect_iter_at_once(rt, alloc, index.iter(), row)
}

// Makes the moves of a row one by one, by a range and, if its bounds are open, by a cursor over
// all pairs.
fn expect_steps<const LEN: usize>(rt: &impl Abort, index: &TreeIndexOf<u64, u64, LEN>, row: &Row) {
    step_range(rt, index, row);
    if row.bounds == (Bound::Unbounded, Bound::Unbounded) {
        step_iter(rt, index, row);
    }
}

// Makes the same moves at once.
fn expect_runs<const LEN: usize>(
    rt: &impl Abort,
    alloc: Global,
    index: &TreeIndexOf<u64, u64, LEN>,
    row: &Row,
) -> Result<(), AllocError> {
    run_range(rt, alloc, index, row)?;
    if row.bounds == (Bound::Unbounded, Bound::Unbounded) {
        run_iter(rt, alloc, index, row)?;
    }
    Ok(())
}

// Walks as a row says.
#[derive(Drop)]
struct Walking<'r, R> {
    rt: &'r R,
    alloc: Global,
    row: &'static Row,
}

impl<R: Abort, const LEN: usize> OwnScenario<TreeIndexOf<u64, u64, LEN>> for Walking<'_, R> {
    fn play(&self, index: &mut TreeIndexOf<u64, u64, LEN>) -> Result<(), AllocError> {
        fill(index, self.row.pairs)?;
        expect_steps(self.rt, index, self.row);
        expect_runs(self.rt, self.alloc, index, self.row)
    }
}

#[test]
fn walks_as_the_rows_say(rt: HostRuntime) {
    for row in &ROWS {
        let scenario = Walking {
            rt: &rt,
            alloc: rt.alloc(),
            row,
        };
        assert!(rt; succeeds_by_own_calls(rt.alloc(), &scenario));
    }
}

// Bounds, and how many of the keys from 1 to 9 are within them.
static COUNTS: [(Bound<u64>, Bound<u64>, usize); 3] = [
    (Bound::Included(1), Bound::Excluded(1), 0),
    (Bound::Included(4), Bound::Excluded(8), 4),
    (Bound::Included(4), Bound::Included(8), 5),
];

// How many pairs a loop over a range gives.
fn count<const LEN: usize>(range: RangeOf<'_, u64, u64, LEN>) -> usize {
    let mut counted: usize = 0;
    for _pair in range {
        counted = counted.saturating_add(1);
    }
    counted
}

// The sum of the keys and values that a loop over an index gives.
fn sum<const LEN: usize>(index: &TreeIndexOf<u64, u64, LEN>) -> u64 {
    let mut sum: u64 = 0;
    for (key, value) in index {
        sum = sum.saturating_add(*key).saturating_add(*value);
    }
    sum
}

// How many pairs of an index are within bounds.
fn count_within<const LEN: usize>(
    index: &TreeIndexOf<u64, u64, LEN>,
    low: Bound<&u64>,
    high: Bound<&u64>,
) -> usize {
    count(index.range((low, high)))
}

// Counts the keys from 1 to 9 within bounds.
#[derive(Drop)]
struct Counting<'r, R> {
    rt: &'r R,
}

impl<R: Abort, const LEN: usize> OwnScenario<TreeIndexOf<u64, u64, LEN>> for Counting<'_, R> {
    fn play(&self, index: &mut TreeIndexOf<u64, u64, LEN>) -> Result<(), AllocError> {
        let rt = self.rt;
        ascend(index, 1, 9, 1)?;
        for (low, high, wanted) in &COUNTS {
            assert!(rt; count_within(index, low.as_ref(), high.as_ref()) == *wanted);
        }
        assert!(rt; sum(index) == 90);
        Ok(())
    }
}

#[test]
fn counts_what_is_within_the_bounds(rt: HostRuntime) {
    let scenario = Counting { rt: &rt };
    assert!(rt; succeeds_by_own_calls(rt.alloc(), &scenario));
}

// Whether a range over two keys in two leaves gives them and ends, and a clone of it moves alone.
fn gives_two_keys(range: Range<'_, u64, u64>) -> Result<bool, AllocError> {
    let mut other = range.clone()?;
    let mut range = range;
    let moved = [
        numbers(range.next()),
        numbers(range.next()),
        numbers(range.next()),
        numbers(other.next_back()),
    ];
    Ok(moved == [Some((15, 15)), Some((16, 16)), None, Some((16, 16))])
}

// Moves such a range over an index.
fn expect_clone(rt: &impl Abort, index: &TreeIndex<u64, u64>) -> Result<(), AllocError> {
    let range = index.range((Bound::Excluded(&14), Bound::Excluded(&17)));
    assert!(rt; gives_two_keys(range)?);
    Ok(())
}

fn meets_at_a_leaf_steps(rt: &impl Abort, alloc: Global) -> Result<(), AllocError> {
    let mut index: TreeIndex<u64, u64> = TreeIndex::new(alloc);
    ascend(&mut index, 1, 40, 1)?;
    expect_clone(rt, &index)
}

#[test]
fn a_clone_moves_alone(rt: HostRuntime) {
    assert!(rt; succeeds(rt.alloc(), || meets_at_a_leaf_steps(&rt, rt.alloc())));
}

// Fills a leaf and puts a key into a new one, removes it, and then stores a larger one.
#[derive(Drop)]
struct Emptying<'r, R> {
    rt: &'r R,
}

impl<R: Abort> Scenario for Emptying<'_, R> {
    fn play<I: MoreCalls>(&self, index: &mut I) -> Result<(), AllocError> {
        let rt = self.rt;
        let key = index.pairs_a_leaf() as u64;
        let (before, behind) = (key.saturating_sub(1), key.saturating_add(1));
        ascend(index, 0, key, 1)?;
        assert!(rt; index.remove(key));
        assert!(rt; index.spare() == 0 && index.last_in_range() == Some((before, before)));
        put(index, behind, 0)?;
        assert!(rt; index.last_in_range() == Some((behind, 0)));
        Ok(())
    }
}

#[test]
fn passes_an_empty_last_leaf(rt: HostRuntime) {
    let scenario = Emptying { rt: &rt };
    assert!(rt; succeeds_at_both_sizes(rt.alloc(), &scenario));
}

// Whether a cursor between two pairs shows both, and has left the list at both ends after a move
// of each.
fn leaves_both_ends<const LEN: usize>(index: &TreeIndexOf<u64, u64, LEN>) -> bool {
    let ProximityOf::Between(ends) = index.locate(&2) else {
        return false;
    };
    let mut ends = ends;
    let told = [
        numbers(ends.get()),
        numbers(ends.get_back()),
        numbers(ends.next()),
        numbers(ends.next_back()),
    ];
    told == [Some((1, 1)), Some((3, 2)), None, None]
}

// Locates a key among four pairs.
#[derive(Drop)]
struct Locating<'r, R> {
    rt: &'r R,
}

impl<R: Abort, const LEN: usize> OwnScenario<TreeIndexOf<u64, u64, LEN>> for Locating<'_, R> {
    fn play(&self, index: &mut TreeIndexOf<u64, u64, LEN>) -> Result<(), AllocError> {
        fill(index, &[(1, 1), (3, 2), (5, 3), (7, 4)])?;
        let rt = self.rt;
        assert!(rt; leaves_both_ends(index));
        Ok(())
    }
}

#[test]
fn stands_between_two_pairs(rt: HostRuntime) {
    let scenario = Locating { rt: &rt };
    assert!(rt; succeeds_by_own_calls(rt.alloc(), &scenario));
}
