//! Writes at each shape of a tree at which an allocation may fail, and the calls that allocate
//! nothing.
use crate::refusals::keys::Named;
use crate::refusals::writes::{Call, NamedKeys, Names, stands, store, write_twice, written};
use std::alloc::{AllocError, Global};
use std::process::Abort;
use test_support::refusals::succeeds;
use tree_index::{InsertError, TreeIndexOf};

// How many ascending keys are stored, and the distance of one to the next, which is the first one
// too. Then the keys that are removed, from the first to the last, none if the last one is
// smaller. Then the absent key of a write, and the depth after it.
type Shape = (u64, u64, (u64, u64), u64, usize);

const NONE: (u64, u64) = (1, 0);

// With fifteen slots: a new index and a retired root; a full leaf, at its end and within, and a
// leaf that is rebuilt; a full node over leaves that is the root, at its end and within, and
// one below a root, where the arena of nodes is full too.
static LARGE: [Shape; 9] = [
    (0, 1, NONE, 1, 1),
    (1, 1, (1, 1), 8, 1),
    (15, 1, NONE, 16, 1),
    (15, 2, NONE, 15, 1),
    (15, 1, (1, 5), 16, 1),
    (240, 1, NONE, 241, 2),
    (240, 2, NONE, 241, 2),
    (465, 1, NONE, 466, 2),
    (690, 1, NONE, 691, 2),
];

// A full root over nodes over leaves; and with three levels a full leaf and a full node over
// leaves.
static DEEP: [Shape; 3] = [
    (3615, 1, NONE, 3616, 3),
    (3630, 1, NONE, 3631, 3),
    (3840, 1, NONE, 3841, 3),
];

// The same as both with seven slots.
static SMALL: [Shape; 12] = [
    (0, 1, NONE, 1, 1),
    (1, 1, (1, 1), 8, 1),
    (7, 1, NONE, 8, 1),
    (7, 2, NONE, 7, 1),
    (7, 1, (1, 3), 8, 1),
    (56, 1, NONE, 57, 2),
    (56, 2, NONE, 57, 2),
    (105, 1, NONE, 106, 2),
    (154, 1, NONE, 155, 2),
    (399, 1, NONE, 400, 3),
    (406, 1, NONE, 407, 3),
    (448, 1, NONE, 449, 3),
];

// The pairs of a shape, before its write or after it. The value at each key is its number, and 0
// at the one that is written.
fn pairs_of(alloc: Global, shape: &Shape, is_after: bool) -> Result<Vec<(u64, u64)>, AllocError> {
    let (count, step, (first, last), key, _) = *shape;
    let greatest = count.saturating_mul(step);
    let mut pairs = Vec::with_capacity(alloc, count.saturating_add(1) as usize)?;
    for number in 1..=greatest.max(key) {
        let is_stored = number <= greatest && number.checked_rem(step) == Some(0);
        if number == key && is_after {
            pairs.push((number, 0))?;
        } else if is_stored && (number < first || last < number) {
            pairs.push((number, number))?;
        }
    }
    Ok(pairs)
}

// Stores the pairs of a shape in an empty index. The keys near that of the write allocate where
// they are cloned, as a split does with one of them.
fn grow(alloc: Global, index: &mut impl NamedKeys, shape: &Shape) -> Result<(), AllocError> {
    let (count, step, _, key, _) = *shape;
    for place in 1..=count {
        let number = place.saturating_mul(step);
        let mut at = Named::bare(alloc, number);
        at.names_clones = number.abs_diff(key) < 40;
        store(index, Call::Insert, at, number).map_err(|_| AllocError)?;
    }
    Ok(())
}

// Removes the keys of a shape.
fn shrink(alloc: Global, index: &mut impl NamedKeys, shape: &Shape) {
    let (first, last) = shape.2;
    for number in first..=last {
        let _ = index.remove(&Named::bare(alloc, number));
    }
}

// Whether a second key that is equal to the one that was written comes back, and no memory is
// asked for.
fn refuses_a_duplicate(alloc: Global, index: &mut impl NamedKeys, number: u64) -> bool {
    match index.insert(Named::bare(alloc, number), 7) {
        Err(InsertError::Duplicate(key, value)) => {
            key.number == number && key.name.is_empty() && value == 7
        }
        _ => false,
    }
}

// Whether the key that was written is found, with both ends of a range too.
fn looks_up(index: &impl NamedKeys, key: &Named) -> bool {
    index.peek(key) == Some(0) && index.contains(key) && index.is_alone(key)
}

// Whether the pair that was written is removed, but not where its condition forbids it.
fn removes(index: &mut impl NamedKeys, key: &Named) -> bool {
    !index.remove_positive(key) && index.remove(key)
}

// Removes the pairs up to a key. Returns whether those of the rest stay.
fn cuts(index: &mut impl NamedKeys, pairs: &[(u64, u64)], key: &Named) -> bool {
    index.remove_up_to(key);
    let first = pairs.iter().position(|pair| pair.0 > key.number);
    let rest = pairs.get(first.unwrap_or(pairs.len())..).unwrap_or(&[]);
    stands(index, rest, 0)
}

// Whether calls that allocate nothing answer, whatever allocation fails. At last the index is
// empty.
fn answers_without_memory(
    alloc: Global,
    index: &mut impl NamedKeys,
    pairs: &[(u64, u64)],
    number: u64,
) -> bool {
    let key = Named::bare(alloc, number);
    let is_found = refuses_a_duplicate(alloc, index, number) && looks_up(index, &key);
    let is_cut = is_found
        && removes(index, &key)
        && stands(index, pairs, 0)
        && cuts(index, pairs, &key);
    index.clear();
    is_cut && index.is_empty() && index.depth() == 0
}

// Writes the pair of a shape into an index of these pairs, and makes the calls that allocate
// nothing.
fn write(
    rt: &impl Abort,
    alloc: Global,
    index: &mut impl NamedKeys,
    shape: &Shape,
    by: Call,
    (before, after): (&[(u64, u64)], &[(u64, u64)]),
) -> Result<(), AllocError> {
    let (_, _, _, number, depth) = *shape;
    write_twice(rt, alloc, index, before, by, written(alloc, number)?)?;
    let is_written = stands(index, after, number) && index.depth() == depth;
    assert!(rt; is_written && answers_without_memory(alloc, index, before, number));
    Ok(())
}

// Grows an empty index to a shape, and writes.
fn write_at(
    rt: &impl Abort,
    alloc: Global,
    index: &mut impl NamedKeys,
    shape: &Shape,
    by: Call,
) -> Result<(), AllocError> {
    let before = pairs_of(alloc, shape, false)?;
    let after = pairs_of(alloc, shape, true)?;
    grow(alloc, index, shape)?;
    shrink(alloc, index, shape);
    write(rt, alloc, index, shape, by, (&before, &after))
}

fn writes_steps(rt: &impl Abort, alloc: Global, shape: &Shape, by: Call) -> Result<(), AllocError> {
    let mut index: Names<15> = TreeIndexOf::new(alloc);
    write_at(rt, alloc, &mut index, shape, by)
}

fn small_writes_steps(
    rt: &impl Abort,
    alloc: Global,
    shape: &Shape,
    by: Call,
) -> Result<(), AllocError> {
    let mut index: Names<7> = TreeIndexOf::new(alloc);
    write_at(rt, alloc, &mut index, shape, by)
}

// Writes at each of these shapes, with fifteen slots.
fn write_at_each(rt: &impl Abort, alloc: Global, shapes: &[Shape], by: Call) {
    for shape in shapes {
        assert!(rt;
            succeeds(alloc, || writes_steps(rt, alloc, shape, by)),
            "at {shape:?}"
        );
    }
}

// Writes at each shape, with seven slots.
fn write_at_each_small(rt: &impl Abort, alloc: Global, by: Call) {
    for shape in &SMALL {
        assert!(rt;
            succeeds(alloc, || small_writes_steps(rt, alloc, shape, by)),
            "at {shape:?}"
        );
    }
}

#[test]
fn inserts_at_each_shape(rt: HostRuntime) {
    write_at_each(&rt, rt.alloc(), &LARGE, Call::Insert);
}

#[test]
fn upserts_at_each_shape(rt: HostRuntime) {
    write_at_each(&rt, rt.alloc(), &LARGE, Call::Upsert);
}

#[test]
fn inserts_at_each_deep_shape(rt: HostRuntime) {
    write_at_each(&rt, rt.alloc(), &DEEP, Call::Insert);
}

#[test]
fn upserts_at_each_deep_shape(rt: HostRuntime) {
    write_at_each(&rt, rt.alloc(), &DEEP, Call::Upsert);
}

#[test]
fn inserts_at_each_small_shape(rt: HostRuntime) {
    write_at_each_small(&rt, rt.alloc(), Call::Insert);
}

#[test]
fn upserts_at_each_small_shape(rt: HostRuntime) {
    write_at_each_small(&rt, rt.alloc(), Call::Upsert);
}
