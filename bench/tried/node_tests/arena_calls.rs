//! Arenas: each call with ample memory.
use crate::arrays::expect::expect_eq;
use std::alloc::{AllocError, Global};
use std::process::Abort;
use test_support::refusals::succeeds;
use tree_leaf::arena::Slots;
use tree_leaf::leaf::Leaf;

// How many leaves and nodes there are.
fn counts(arenas: &Slots<u64, u64, u8>) -> (usize, usize) {
    (arenas.leaf_count(), arenas.node_count())
}

fn leaves_come_and_go(rt: &impl Abort, arenas: &mut Slots<u64, u64, u8>) -> Result<(), AllocError> {
    let Ok(first) = arenas.add_leaf(Leaf::new()) else {
        return Err(AllocError);
    };
    let Ok(second) = arenas.add_leaf(Leaf::new()) else {
        return Err(AllocError);
    };
    assert!(rt; first != second && counts(arenas) == (2, 0));
    let _ = arenas.leaf_mut(first).array_mut().insert::<false>(1, 10);
    assert!(rt; arenas.leaf(second).array().is_empty());
    expect_eq(rt, arenas.remove_leaf(first).array().free(), 14);
    expect_eq(rt, arenas.remove_leaf(second).array().free(), 15);
    expect_eq(rt, counts(arenas), (0, 0));
    Ok(())
}

fn nodes_come_and_go(rt: &impl Abort, arenas: &mut Slots<u64, u64, u8>) -> Result<(), AllocError> {
    let Ok(node) = arenas.add_node(7) else {
        return Err(AllocError);
    };
    expect_eq(rt, (counts(arenas), *arenas.node(node)), ((0, 1), 7));
    *arenas.node_mut(node) = 8;
    expect_eq(rt, arenas.remove_node(node), 8);
    expect_eq(rt, counts(arenas), (0, 0));
    Ok(())
}

fn come_and_go(rt: &impl Abort, alloc: Global) -> Result<(), AllocError> {
    let mut arenas = Slots::new(alloc);
    leaves_come_and_go(rt, &mut arenas)?;
    nodes_come_and_go(rt, &mut arenas)
}

// Where places are reserved, no more memory is asked for.
fn reserved_places_serve(rt: &impl Abort, alloc: Global) -> Result<(), AllocError> {
    let mut arenas: Slots<u64, u64, u8> = Slots::new(alloc);
    arenas.reserve(1, 1)?;
    expect_eq(rt, counts(&arenas), (0, 0));
    let Ok(_) = arenas.add_leaf(Leaf::new()) else {
        unreachable!()
    };
    let Ok(_) = arenas.add_node(7) else {
        unreachable!()
    };
    expect_eq(rt, counts(&arenas), (1, 1));
    Ok(())
}

#[test]
fn numbers_come_and_go(rt: HostRuntime) {
    assert!(rt;
        succeeds(rt.alloc(), || {
            come_and_go(&rt, rt.alloc())?;
            reserved_places_serve(&rt, rt.alloc())
        })
    );
}
