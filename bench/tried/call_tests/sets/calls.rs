//! The calls of one set, over sets of each fill, beside a vector of the same elements.
use crate::{Fill, fills};
use std::alloc::{AllocError, Global};
use std::ops::{Bound, RangeBounds};
use std::process::Abort;
use test_support::refusals::succeeds;
use tree_index::ProximityOf;
use tree_set::{SmallTreeSet, TreeSet, TreeSetOf};

// The elements of a fill: 0, 2, 4 and so on.
fn elements_of(alloc: Global, (count, is_emptied): Fill) -> Result<Vec<u64>, AllocError> {
    let mut elements = Vec::new(alloc);
    for number in 0..count.saturating_sub(u64::from(is_emptied)) {
        elements.push(number.wrapping_mul(2))?;
    }
    Ok(elements)
}

// Makes the set one of the elements of a fill.
fn refill<const LEN: usize>(
    set: &mut TreeSetOf<u64, LEN>,
    (count, is_emptied): Fill,
) -> Result<(), AllocError> {
    set.clear();
    for number in 0..count {
        if set.insert(number.wrapping_mul(2)).is_err() {
            return Err(AllocError);
        }
    }
    if is_emptied {
        set.remove(&count.wrapping_sub(1).wrapping_mul(2));
    }
    Ok(())
}

// Whether a set has these elements alone.
fn has_all<const LEN: usize>(set: &TreeSetOf<u64, LEN>, elements: &[u64]) -> bool {
    let mut walk = set.iter();
    for element in elements {
        if walk.next() != Some(element) {
            return false;
        }
    }
    walk.next().is_none() && set.len() == elements.len()
}

// Whether both ends give these elements in turn, and then nothing.
fn pops_all<const LEN: usize>(set: &mut TreeSetOf<u64, LEN>, elements: &[u64]) -> bool {
    let mut left = elements;
    while let [first, rest @ ..] = left {
        if set.pop_first() != Some(*first) {
            return false;
        }
        left = rest;
        if let [others @ .., last] = rest {
            if set.pop_last() != Some(*last) {
                return false;
            }
            left = others;
        }
    }
    (set.pop_first(), set.pop_last(), set.is_empty()) == (None, None, true)
}

// Whether each element is taken once, the last one first, and none between two.
fn takes_all<const LEN: usize>(set: &mut TreeSetOf<u64, LEN>, elements: &[u64]) -> bool {
    for element in elements.iter().rev() {
        let answers = [
            set.take(&element.wrapping_add(1)),
            set.take(element),
            set.take(element),
        ];
        if answers != [None, Some(*element), None] {
            return false;
        }
    }
    set.is_empty()
}

// Whether both ends give each element by value.
fn gives_by_value<const LEN: usize>(set: TreeSetOf<u64, LEN>, elements: &[u64]) -> bool {
    let mut given = set.into_iter();
    let mut left = elements;
    while let [first, rest @ ..] = left {
        if given.next() != Some(*first) {
            return false;
        }
        left = rest;
        if let [others @ .., last] = rest {
            if given.next_back() != Some(*last) {
                return false;
            }
            left = others;
        }
    }
    given.next().is_none() && given.next_back().is_none()
}

// Takes elements out of the set in each way.
fn removes_rows<const LEN: usize>(
    rt: &impl Abort,
    alloc: Global,
    set: &mut TreeSetOf<u64, LEN>,
) -> Result<(), AllocError> {
    for fill in fills(LEN) {
        let elements = elements_of(alloc, *fill)?;
        refill(set, *fill)?;
        assert!(rt; pops_all(set, elements.as_slice()));
        refill(set, *fill)?;
        assert!(rt; takes_all(set, elements.as_slice()));
        refill(set, *fill)?;
        assert!(rt; gives_by_value(set.clone()?, elements.as_slice()));
    }
    Ok(())
}

fn removes_steps(rt: &impl Abort, alloc: Global) -> Result<(), AllocError> {
    let mut set: TreeSet<u64> = TreeSetOf::new(alloc);
    removes_rows(rt, alloc, &mut set)
}

fn small_removes_steps(rt: &impl Abort, alloc: Global) -> Result<(), AllocError> {
    let mut set: SmallTreeSet<u64> = TreeSetOf::new(alloc);
    removes_rows(rt, alloc, &mut set)
}

#[test]
fn takes_elements_out(rt: HostRuntime) {
    assert!(rt; succeeds(rt.alloc(), || removes_steps(&rt, rt.alloc())));
    assert!(rt; succeeds(rt.alloc(), || small_removes_steps(&rt, rt.alloc())));
}

// The elements that a located place is between, if the number isn't an element.
fn neighbours<const LEN: usize>(
    set: &TreeSetOf<u64, LEN>,
    number: u64,
) -> (Option<u64>, Option<u64>) {
    match set.locate(&number) {
        ProximityOf::Exact(at) => (element_of(at.get()), element_of(at.get())),
        ProximityOf::Between(at) => (element_of(at.get()), element_of(at.get_back())),
        ProximityOf::Smaller(at) => (element_of(at.get_back()), None),
        ProximityOf::Larger(at) => (None, element_of(at.get())),
        ProximityOf::Empty => (None, None),
    }
}

fn element_of(pair: Option<(&u64, &())>) -> Option<u64> {
    let (element, _) = pair?;
    Some(*element)
}

// Whether the nearest elements are those of the vector, for a number up to one behind the last.
fn is_near<const LEN: usize>(set: &TreeSetOf<u64, LEN>, elements: &[u64], number: u64) -> bool {
    let below = elements.iter().filter(|it| **it <= number).last().copied();
    let above = elements.iter().filter(|it| **it >= number).next().copied();
    let below_found = set.at_or_below(&number).copied();
    let above_found = set.at_or_above(&number).copied();
    (below_found, above_found) == (below, above) && neighbours(set, number) == (below, above)
}

// Whether a range gives the same elements from both ends as the vector.
fn is_range<const LEN: usize, R: RangeBounds<u64> + Copy>(
    set: &TreeSetOf<u64, LEN>,
    elements: &[u64],
    range: R,
) -> bool {
    let within = elements.iter().filter(|it| range.contains(*it)).count();
    let first = elements.iter().filter(|it| range.contains(*it)).next().copied();
    let last = elements.iter().filter(|it| range.contains(*it)).last().copied();
    let ends = (
        set.range(range).next().copied(),
        set.range(range).next_back().copied(),
    );
    ends == (first, last) && set.range(range).count() == within
}

// Whether a range removes its elements alone from a copy of the set.
fn is_cut<const LEN: usize, R: RangeBounds<u64> + Copy>(
    set: &TreeSetOf<u64, LEN>,
    elements: &[u64],
    range: R,
) -> Result<bool, AllocError> {
    let within = elements.iter().filter(|it| range.contains(*it)).count();
    let mut rest = set.clone()?;
    rest.remove_range(range);
    Ok(rest.len() == elements.len().wrapping_sub(within)
        && rest.iter().all(|it| !range.contains(it)))
}

// Whether ranges of each type are those of the vector.
fn are_ranges<const LEN: usize>(
    set: &TreeSetOf<u64, LEN>,
    elements: &[u64],
    (low, high): (u64, u64),
) -> Result<bool, AllocError> {
    let after = (Bound::Excluded(low), Bound::Included(high));
    let lent = (Bound::Excluded(&low), Bound::Excluded(&high));
    Ok(is_range(set, elements, after)
        && is_range(set, elements, lent)
        && is_range(set, elements, (Bound::Included(low), Bound::Excluded(high)))
        && is_range(set, elements, (Bound::Unbounded, Bound::Excluded(high)))
        && is_range(set, elements, (Bound::Included(low), Bound::Unbounded))
        && is_cut(set, elements, after)?
        && is_cut(set, elements, lent)?)
}

// Whether the ranges that a program writes give as many elements as the vector.
fn are_written_ranges<const LEN: usize>(set: &TreeSetOf<u64, LEN>, elements: &[u64]) -> bool {
    let counts = [
        set.range(3..9).count(),
        set.range(4..=8).count(),
        set.range(..5).count(),
        set.range(..=6).count(),
        set.range(7..).count(),
        set.range(..).count(),
        set.range((Bound::Excluded(&2), Bound::Unbounded)).count(),
        set.range(9..3).count(),
    ];
    let counted = [
        elements.iter().filter(|it| (3..9).contains(*it)).count(),
        elements.iter().filter(|it| (4..=8).contains(*it)).count(),
        elements.iter().filter(|it| **it < 5).count(),
        elements.iter().filter(|it| **it <= 6).count(),
        elements.iter().filter(|it| **it >= 7).count(),
        elements.len(),
        elements.iter().filter(|it| **it > 2).count(),
        0,
    ];
    counts == counted
}

// Bounds that are elements or not, before all, among them, behind all, and the wrong way round.
static ENDS: [(u64, u64); 7] = [(0, 0), (1, 3), (2, 10), (3, 28), (14, 9000), (9, 4), (8000, 9000)];

// Looks for elements of the set in each way.
fn finds_rows<const LEN: usize>(
    rt: &impl Abort,
    alloc: Global,
    set: &mut TreeSetOf<u64, LEN>,
) -> Result<(), AllocError> {
    for fill in fills(LEN) {
        let elements = elements_of(alloc, *fill)?;
        refill(set, *fill)?;
        assert!(rt; has_all(set, elements.as_slice()));
        for number in [0, 1, 2, 13, 14, 15, 28, 30, 33, 7228, 7230, 7231] {
            assert!(rt; is_near(set, elements.as_slice(), number));
        }
        assert!(rt; are_written_ranges(set, elements.as_slice()));
        // Two of them do for three levels.
        let ends = if elements.len() > 500 { &ENDS[3..5] } else { &ENDS[..] };
        for ends in ends {
            assert!(rt; are_ranges(set, elements.as_slice(), *ends)?);
        }
    }
    Ok(())
}

fn finds_steps(rt: &impl Abort, alloc: Global) -> Result<(), AllocError> {
    let mut set: TreeSet<u64> = TreeSetOf::new(alloc);
    finds_rows(rt, alloc, &mut set)
}

fn small_finds_steps(rt: &impl Abort, alloc: Global) -> Result<(), AllocError> {
    let mut set: SmallTreeSet<u64> = TreeSetOf::new(alloc);
    finds_rows(rt, alloc, &mut set)
}

#[test]
fn finds_elements(rt: HostRuntime) {
    assert!(rt; succeeds(rt.alloc(), || finds_steps(&rt, rt.alloc())));
    assert!(rt; succeeds(rt.alloc(), || small_finds_steps(&rt, rt.alloc())));
}

// The first element of a range whose bounds end with the call.
fn first_from<const LEN: usize>(set: &TreeSetOf<u64, LEN>, number: u64) -> Option<&u64> {
    set.range((Bound::Included(&number), Bound::Unbounded)).next()
}

fn outlives_steps(rt: &impl Abort, alloc: Global) -> Result<(), AllocError> {
    let mut set: TreeSet<u64> = TreeSetOf::new(alloc);
    refill(&mut set, (15, false))?;
    assert!(rt; first_from(&set, 5) == Some(&6) && first_from(&set, 29).is_none());
    Ok(())
}

#[test]
fn gives_elements_that_outlive_bounds(rt: HostRuntime) {
    assert!(rt; succeeds(rt.alloc(), || outlives_steps(&rt, rt.alloc())));
}
