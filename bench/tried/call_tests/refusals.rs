//! Calls that store several pairs, copy or build an index, in which an allocation fails.
//! `bench/refusals` makes each fail in turn; in an ordinary run of the tests none does.
use std::alloc::{AllocError, Global};
use std::iter::Extend;
use std::process::Abort;
use test_support::refusals::{begins, ends, is_granted_again};
use tree_index::{InsertError, SmallTreeIndex, TreeIndex, TreeIndexOf};
use tree_support::{Numbers, OwnScenario, ascend, flaws, succeeds_by_own_calls};

// What is done with an index: a call that allocates, or `clear` and as many inserts as there are
// pairs, which allocate nothing.
#[derive(Clone, Copy, Debug)]
enum Call {
    Refill,
    InsertSync,
    UpsertSync,
    TryExtend,
    Extend,
    PeekOrInsert,
    TryClone,
    Clone,
    FromSorted,
    Collect,
}

impl Call {
    // The name by which the sweep of refusals knows the call.
    fn name(self) -> &'static str {
        match self {
            Call::Refill => "TreeIndex::clear",
            Call::InsertSync => "TreeIndex::insert_sync",
            Call::UpsertSync => "TreeIndex::upsert_sync",
            Call::TryExtend => "TreeIndex::try_extend",
            Call::Extend => "TreeIndex::extend",
            Call::PeekOrInsert => "TreeIndex::peek_or_insert",
            Call::TryClone => "TreeIndex::try_clone",
            Call::Clone => "TreeIndex::clone",
            Call::FromSorted => "TreeIndex::from_sorted",
            Call::Collect => "TreeIndex::collect",
        }
    }
}

// A list of pairs.
type Pairs = Vec<(u64, u64)>;

// An index of numbers, with the calls that allocate and are made again.
trait Made: Numbers + Drop {
    // Calls `try_extend`.
    fn try_extend(&mut self, pairs: Pairs) -> Result<(), (u64, u64)>;

    // Calls `extend`.
    fn extend(&mut self, pairs: Pairs) -> Result<(), AllocError>;

    // Returns the value that `peek_or_insert` lends.
    fn lent(&mut self, key: u64, value: u64) -> Option<u64>;

    // Calls `try_clone`.
    fn try_copy(&self, alloc: Global) -> Result<Self, AllocError>;

    // Calls `clone`.
    fn copy(&self) -> Result<Self, AllocError>;

    // Whether the index is whole and has these pairs.
    fn is_whole(&self, pairs: &[(u64, u64)]) -> bool;
}

impl<const LEN: usize> Made for TreeIndexOf<u64, u64, LEN> {
    fn try_extend(&mut self, pairs: Pairs) -> Result<(), (u64, u64)> {
        TreeIndexOf::try_extend(self, pairs)
    }

    fn extend(&mut self, pairs: Pairs) -> Result<(), AllocError> {
        Extend::extend(self, pairs)
    }

    fn lent(&mut self, key: u64, value: u64) -> Option<u64> {
        self.peek_or_insert(key, value).ok().copied()
    }

    fn try_copy(&self, alloc: Global) -> Result<Self, AllocError> {
        self.try_clone(alloc)
    }

    fn copy(&self) -> Result<Self, AllocError> {
        self.clone()
    }

    fn is_whole(&self, pairs: &[(u64, u64)]) -> bool {
        flaws(self, pairs).is_ok()
    }
}

// An index of a size that is built of pairs. It is implemented at each size, since a call that
// makes an index asks which.
trait Built: Made {
    // Calls `from_sorted`. Returns `None` if an allocation fails.
    fn from_sorted(alloc: Global, pairs: Pairs) -> Option<Self>;

    // Calls `collect`.
    fn collected(alloc: Global, pairs: Pairs) -> Option<Self>;
}

impl Built for TreeIndex<u64, u64> {
    fn from_sorted(alloc: Global, pairs: Pairs) -> Option<Self> {
        TreeIndexOf::from_sorted(alloc, pairs).ok()
    }

    fn collected(alloc: Global, pairs: Pairs) -> Option<Self> {
        pairs.into_iter().collect(alloc).ok()
    }
}

impl Built for SmallTreeIndex<u64, u64> {
    fn from_sorted(alloc: Global, pairs: Pairs) -> Option<Self> {
        TreeIndexOf::from_sorted(alloc, pairs).ok()
    }

    fn collected(alloc: Global, pairs: Pairs) -> Option<Self> {
        pairs.into_iter().collect(alloc).ok()
    }
}

// Pairs in key order, how many of them an index has, and a call on it that stores the others, or
// copies or builds it.
#[derive(Drop)]
struct Making<'r> {
    alloc: Global,
    call: Call,
    pairs: &'r [(u64, u64)],
    count: usize,
}

// Whether a call could allocate, and whether what it returned and left is right.
type Outcome = (bool, bool);

impl<'r> Making<'r> {
    // The pairs of the index.
    fn before(&self) -> &'r [(u64, u64)] {
        match self.pairs.get(..self.count) {
            Some(pairs) => pairs,
            None => self.pairs,
        }
    }

    // The pairs up to a key, which is how many they are.
    fn up_to(&self, key: u64) -> &'r [(u64, u64)] {
        match self.pairs.get(..key as usize) {
            Some(pairs) => pairs,
            None => self.pairs,
        }
    }

    // A list of the pairs that the call stores.
    fn others(&self) -> Result<Pairs, AllocError> {
        self.pairs
            .get(self.count..)
            .unwrap_or(&[])
            .to_vec(self.alloc)
    }

    // Clears the index and stores its pairs again. The arenas keep their memory, so nothing is
    // allocated, and no allocation can fail.
    fn refill(&self, index: &mut impl Made) -> Outcome {
        index.clear();
        let is_stored = ascend(index, 1, self.count as u64, 1).is_ok();
        (true, is_stored && index.is_whole(self.before()))
    }

    // The key of the next pair, which is its value too.
    fn next(&self) -> u64 {
        (self.count as u64).saturating_add(1)
    }

    // Stores the next pair by `insert_sync` or `upsert_sync`. A pair that is refused comes back.
    fn store(&self, index: &mut impl Made) -> Outcome {
        let key = self.next();
        begins(self.alloc, self.call.name());
        let answer = match self.call {
            Call::UpsertSync => index.upsert(key, key),
            _ => pair_of(index.insert(key, key)),
        };
        ends(self.alloc);
        match answer {
            Ok(()) => (true, index.is_whole(self.up_to(key))),
            Err(back) => (false, back == (key, key) && index.is_whole(self.before())),
        }
    }

    // Stores the other pairs by `try_extend`. A pair that is refused comes back, and those before
    // it are stored.
    fn try_extend(&self, index: &mut impl Made) -> Result<Outcome, AllocError> {
        let others = self.others()?;
        begins(self.alloc, self.call.name());
        let answer = index.try_extend(others);
        ends(self.alloc);
        match answer {
            Ok(()) => Ok((true, index.is_whole(self.pairs))),
            Err((key, value)) => {
                let stored = self.up_to(key.saturating_sub(1));
                Ok((false, key == value && index.is_whole(stored)))
            }
        }
    }

    // Stores the other pairs by `extend`. If one is refused, those before it are stored.
    fn extend(&self, index: &mut impl Made) -> Result<Outcome, AllocError> {
        let others = self.others()?;
        begins(self.alloc, self.call.name());
        let answer = index.extend(others);
        ends(self.alloc);
        let stored = index.len();
        let is_whole = stored >= self.count && index.is_whole(self.up_to(stored as u64));
        Ok((
            answer.is_ok(),
            is_whole && (answer.is_err() || stored == self.pairs.len()),
        ))
    }

    // Stores the next pair by `peek_or_insert`.
    fn peek_or_insert(&self, index: &mut impl Made) -> Outcome {
        let key = self.next();
        begins(self.alloc, self.call.name());
        let lent = index.lent(key, key);
        ends(self.alloc);
        match lent {
            Some(value) => (true, value == key && index.is_whole(self.up_to(key))),
            None => (false, index.is_whole(self.before())),
        }
    }

    // Copies the index by `try_clone` or `clone`.
    fn copy<I: Made>(&self, index: &I) -> Outcome {
        begins(self.alloc, self.call.name());
        let copy = match self.call {
            Call::Clone => index.copy(),
            _ => index.try_copy(self.alloc),
        };
        ends(self.alloc);
        let (is_granted, is_copy) = self.is_made(copy.ok());
        (is_granted, is_copy && index.is_whole(self.before()))
    }

    // Builds an index of the same pairs by `from_sorted` or `collect`.
    fn build<I: Built>(&self) -> Result<Outcome, AllocError> {
        let pairs = self.before().to_vec(self.alloc)?;
        begins(self.alloc, self.call.name());
        let built: Option<I> = match self.call {
            Call::Collect => I::collected(self.alloc, pairs),
            _ => I::from_sorted(self.alloc, pairs),
        };
        ends(self.alloc);
        Ok(self.is_made(built))
    }

    // Whether an index was made, and if so whether it has the pairs.
    fn is_made<I: Made>(&self, made: Option<I>) -> Outcome {
        match made {
            Some(made) => (true, made.is_whole(self.before())),
            None => (false, true),
        }
    }

    // Makes the call once.
    fn make<I: Built>(&self, index: &mut I) -> Result<Outcome, AllocError> {
        match self.call {
            Call::Refill => Ok(self.refill(index)),
            Call::InsertSync | Call::UpsertSync => Ok(self.store(index)),
            Call::TryExtend => self.try_extend(index),
            Call::Extend => self.extend(index),
            Call::PeekOrInsert => Ok(self.peek_or_insert(index)),
            Call::TryClone | Call::Clone => Ok(self.copy(index)),
            Call::FromSorted | Call::Collect => self.build::<I>(),
        }
    }

    // Makes the call at once or the second time. `Err` if nothing can be allocated any more.
    fn make_twice<I: Built>(&self, rt: &impl Abort, index: &mut I) -> Result<(), AllocError> {
        if self.is_granted(rt, index)? {
            return Ok(());
        }
        let is_granted = self.is_granted(rt, index)?;
        assert!(rt; is_granted_again(self.alloc, self.call.name(), is_granted)?);
        Ok(())
    }

    // Makes the call once. Returns whether it could allocate.
    fn is_granted<I: Built>(&self, rt: &impl Abort, index: &mut I) -> Result<bool, AllocError> {
        let (is_granted, is_right) = self.make(index)?;
        assert!(rt; is_right, "{:?} after {}", self.call, self.count);
        Ok(is_granted)
    }
}

// The pair of an insert that was refused.
fn pair_of(answer: Result<(), InsertError<u64, u64>>) -> Result<(), (u64, u64)> {
    match answer {
        Ok(()) => Ok(()),
        Err(InsertError::Duplicate(key, value) | InsertError::OutOfMemory(key, value)) => {
            Err((key, value))
        }
    }
}

// How many pairs an index has at a call, at fifteen pairs a leaf and at seven, and whether they
// are removed first: a new index, a retired root, full leaves where the arena of leaves is full
// too, a full node over leaves, one below a root where the arena of nodes is full too, and a full
// node over nodes.
type Shape = (usize, usize, bool);

static SHAPES: [Shape; 6] = [
    (0, 0, false),
    (1, 1, true),
    (60, 28, false),
    (240, 56, false),
    (690, 154, false),
    (3615, 399, false),
];

// Makes a call at a shape.
#[derive(Drop)]
struct Calling<'r, R> {
    rt: &'r R,
    alloc: Global,
    call: Call,
    shape: Shape,
}

// Stores so many pairs, and removes them if the shape is that of a retired root. Returns how many
// are left.
fn grow(index: &mut impl Numbers, shape: Shape) -> Result<usize, AllocError> {
    let (at_fifteen, at_seven, is_emptied) = shape;
    let is_small = index.pairs_a_leaf() == 7;
    let count = if is_small { at_seven } else { at_fifteen };
    ascend(index, 1, count as u64, 1)?;
    if !is_emptied {
        return Ok(count);
    }
    for key in 1..=count as u64 {
        index.remove(key);
    }
    Ok(0)
}

// The pairs of the keys from 1 on, so many.
fn ascending(alloc: Global, count: usize) -> Result<Pairs, AllocError> {
    let mut pairs = Vec::with_capacity(alloc, count)?;
    for key in 1..=count as u64 {
        pairs.push((key, key))?;
    }
    Ok(pairs)
}

impl<R: Abort, I: Built> OwnScenario<I> for Calling<'_, R> {
    fn play(&self, index: &mut I) -> Result<(), AllocError> {
        let count = grow(index, self.shape)?;
        let pairs = ascending(self.alloc, count.saturating_add(2))?;
        let making = Making {
            alloc: self.alloc,
            call: self.call,
            pairs: &pairs,
            count,
        };
        making.make_twice(self.rt, index)
    }
}

// Makes a call at each shape. One function for all, since what passes a scenario pays for a proof
// of each call of an index.
fn make_at_each_shape(rt: &impl Abort, alloc: Global, call: Call) {
    for shape in &SHAPES {
        let scenario = Calling {
            rt,
            alloc,
            call,
            shape: *shape,
        };
        assert!(rt; succeeds_by_own_calls(alloc, &scenario));
    }
}

#[test]
fn refills_without_memory(rt: HostRuntime) {
    make_at_each_shape(&rt, rt.alloc(), Call::Refill);
}

#[test]
fn inserts_again(rt: HostRuntime) {
    make_at_each_shape(&rt, rt.alloc(), Call::InsertSync);
}

#[test]
fn upserts_again(rt: HostRuntime) {
    make_at_each_shape(&rt, rt.alloc(), Call::UpsertSync);
}

#[test]
fn extends_again(rt: HostRuntime) {
    make_at_each_shape(&rt, rt.alloc(), Call::Extend);
}

#[test]
fn tries_to_extend_again(rt: HostRuntime) {
    make_at_each_shape(&rt, rt.alloc(), Call::TryExtend);
}

#[test]
fn lends_again(rt: HostRuntime) {
    make_at_each_shape(&rt, rt.alloc(), Call::PeekOrInsert);
}

#[test]
fn copies_again(rt: HostRuntime) {
    make_at_each_shape(&rt, rt.alloc(), Call::TryClone);
}

#[test]
fn clones_again(rt: HostRuntime) {
    make_at_each_shape(&rt, rt.alloc(), Call::Clone);
}

#[test]
fn builds_again(rt: HostRuntime) {
    make_at_each_shape(&rt, rt.alloc(), Call::FromSorted);
}

#[test]
fn collects_again(rt: HostRuntime) {
    make_at_each_shape(&rt, rt.alloc(), Call::Collect);
}
