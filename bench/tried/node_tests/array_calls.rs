//! What the calls of an array answer, on arrays that are filled, emptied and divided.
use crate::arrays::array::calls::{AtKey, expect_found, of};
use crate::arrays::expect::expect_eq;
use std::process::Abort;
use tree_array::array::{Array, InsertResult, RemoveResult};

// Whether the marks are these: no entry, no slot to spare, retired.
fn marks(array: &Array<u64, u64>) -> (bool, bool, bool) {
    (array.is_empty(), array.is_full(), array.is_retired())
}

// The array in which one key arrived fifteen times.
fn of_one_key(rt: &impl Abort) -> Array<u64, u64> {
    let mut array = Array::new();
    for val in 0..15 {
        assert!(rt; !array.is_full());
        expect_eq(rt, array.insert::<true>(7, val), InsertResult::Success);
    }
    array
}

static OF_ONE_KEY: [AtKey; 1] = [(7, (Some((7, 14)), Some(14), Some(14)))];

#[test]
fn one_key_many_times(rt: HostRuntime) {
    let mut array = of_one_key(&rt);
    expect_eq(&rt, marks(&array), (false, true, false));
    expect_eq(
        &rt,
        (array.free(), array.optimal_boundary()),
        (0, (15, 1, false)),
    );
    expect_eq(&rt, array.insert::<true>(7, 70), InsertResult::Full(7, 70));
    expect_eq(
        &rt,
        array.insert::<false>(7, 71),
        InsertResult::Duplicate(7, 71),
    );
    expect_eq(&rt, array.insert::<false>(8, 80), InsertResult::Full(8, 80));
    expect_found(&rt, &array, &OF_ONE_KEY);
}

#[test]
fn retires(rt: HostRuntime) {
    let mut array = of(&[5]);
    expect_eq(&rt, array.remove_if(&5, |_| false), RemoveResult::Fail);
    expect_eq(&rt, marks(&array), (false, false, false));
    expect_eq(&rt, array.remove_if(&5, |_| true), RemoveResult::Retired);
    expect_eq(&rt, array.remove_if(&5, |_| true), RemoveResult::Fail);
    expect_eq(&rt, marks(&array), (true, true, true));
    expect_eq(&rt, (array.free(), array.len()), (14, 0));
    expect_eq(&rt, array.insert::<false>(6, 6), InsertResult::Full(6, 6));
}

static OF_THE_LEAST: [AtKey; 1] = [(3, (Some((3, 3)), Some(3), Some(0)))];

static OF_THE_OTHERS: [AtKey; 2] = [
    (5, (Some((5, 5)), Some(5), Some(0))),
    (9, (Some((9, 9)), Some(9), Some(1))),
];

#[test]
fn distributes(rt: HostRuntime) {
    let mut array = of(&[5, 3, 9]);
    let (mut low, mut high) = (Array::new(), Array::new());
    array.distribute(1, &mut low, &mut high);
    expect_eq(&rt, marks(&array), (true, true, true));
    expect_eq(&rt, (low.free(), high.free()), (14, 13));
    expect_found(&rt, &low, &OF_THE_LEAST);
    expect_found(&rt, &high, &OF_THE_OTHERS);
}

static OF_THE_GREATEST: [AtKey; 1] = [(9, (Some((9, 9)), Some(9), Some(0)))];

#[test]
fn distributes_apart(rt: HostRuntime) {
    let mut array = of(&[5, 3, 9]);
    let (mut low, mut high) = (Array::new(), Array::new());
    let apart = array.distribute_apart(1, &mut low, &mut high);
    expect_eq(&rt, apart, Some((5, 5)));
    expect_eq(&rt, marks(&array), (true, true, true));
    expect_eq(&rt, (low.free(), high.free()), (14, 14));
    expect_found(&rt, &low, &OF_THE_LEAST);
    expect_found(&rt, &high, &OF_THE_GREATEST);
}
