//! Two sets side by side, equality and copies.
use std::alloc::{AllocError, Global};
use std::process::Abort;
use test_support::refusals::succeeds;
use tree_set::{TreeSet, TreeSetOf};

// Inserts elements in this order.
fn insert_all(set: &mut TreeSet<u64>, elements: &[u64]) -> Result<(), AllocError> {
    for element in elements {
        if set.insert(*element).is_err() {
            return Err(AllocError);
        }
    }
    Ok(())
}

// Returns the digits that the union gives, as one number.
fn of_either(first: &TreeSet<u64>, second: &TreeSet<u64>) -> u64 {
    let mut digits = 0u64;
    for digit in first.union(second) {
        digits = digits.wrapping_mul(10).wrapping_add(*digit);
    }
    digits
}

// Returns those that the intersection gives.
fn of_both(first: &TreeSet<u64>, second: &TreeSet<u64>) -> u64 {
    let mut digits = 0u64;
    for digit in first.intersection(second) {
        digits = digits.wrapping_mul(10).wrapping_add(*digit);
    }
    digits
}

// Returns those that the difference gives.
fn of_first(first: &TreeSet<u64>, second: &TreeSet<u64>) -> u64 {
    let mut digits = 0u64;
    for digit in first.difference(second) {
        digits = digits.wrapping_mul(10).wrapping_add(*digit);
    }
    digits
}

// Returns those that the symmetric difference gives.
fn of_one(first: &TreeSet<u64>, second: &TreeSet<u64>) -> u64 {
    let mut digits = 0u64;
    for digit in first.symmetric_difference(second) {
        digits = digits.wrapping_mul(10).wrapping_add(*digit);
    }
    digits
}

// Digits of a second set, and what is of either, of both, of the first alone and of one alone,
// beside 1, 3 and 5.
static ROWS: [(&[u64], u64, u64, u64, u64); 4] = [
    (&[], 135, 0, 135, 135),
    (&[3, 4], 1345, 3, 15, 145),
    (&[5, 3, 1], 135, 135, 0, 0),
    (&[9, 2], 12359, 0, 135, 12359),
];

// Fills the second set with the digits of each row.
fn compares(
    rt: &impl Abort,
    first: &TreeSet<u64>,
    second: &mut TreeSet<u64>,
) -> Result<(), AllocError> {
    for (digits, either, both, alone, apart) in &ROWS {
        second.clear();
        insert_all(second, *digits)?;
        assert!(rt; of_either(first, second) == *either && of_both(first, second) == *both);
        assert!(rt; of_one(first, second) == *apart);
        assert!(rt; of_first(first, second) == *alone && (first == second) == (*alone == 0));
    }
    Ok(())
}

// Returns whether a clone equals the set.
fn is_cloned(set: &TreeSet<u64>) -> Result<bool, AllocError> {
    let copy = set.clone()?;
    Ok(copy == *set)
}

// Compares with a set that is a copy at first.
fn compares_with_another(
    rt: &impl Abort,
    alloc: Global,
    first: &TreeSet<u64>,
) -> Result<(), AllocError> {
    let mut second = first.try_clone(alloc)?;
    assert!(rt; *first == second && is_cloned(first)?);
    compares(rt, first, &mut second)
}

fn compares_steps(rt: &impl Abort, alloc: Global) -> Result<(), AllocError> {
    let mut first: TreeSet<u64> = TreeSetOf::new(alloc);
    insert_all(&mut first, &[5, 1, 3])?;
    compares_with_another(rt, alloc, &first)
}

#[test]
fn compares_two_sets(rt: HostRuntime) {
    assert!(rt; succeeds(rt.alloc(), || compares_steps(&rt, rt.alloc())));
}
