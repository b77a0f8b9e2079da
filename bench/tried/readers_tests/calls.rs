//! What readers see of each call of a writer.
use crate::support::{has, kept};
use std::alloc::{AllocError, Global};
use std::collections::VecDeque;
use std::ops::Bound;
use std::process::Abort;
use std::sync::Wait;
use test_support::refusals::succeeds;
use tree_index::Command;
use tree_readers::{SmallWriter, Writer};

// Whether each call of one command does what its name says.
fn does_each<R: Wait + Drop>(writer: &mut Writer<u64, u64, R>) -> Result<bool, AllocError> {
    kept(writer.insert(1, 10))?;
    kept(writer.insert(1, 11))?;
    kept(writer.upsert(3, 30))?;
    kept(writer.remove(3))?;
    kept(writer.upsert(5, 50))?;
    kept(writer.upsert(9, 90))?;
    kept(writer.remove_range(Bound::Included(5), Bound::Excluded(9)))?;
    let was_empty = writer.published().is_empty();
    writer.publish()?;
    Ok(was_empty && has(writer.published(), &[(1, 10), (9, 90)]))
}

// Whether a batch is shown whole, and is empty afterwards.
fn shows_a_batch<R: Wait + Drop>(
    writer: &mut Writer<u64, u64, R>,
    alloc: Global,
) -> Result<bool, AllocError> {
    let mut batch = VecDeque::new(alloc);
    batch.push_back(Command::Upsert(2, 20))?;
    batch.push_back(Command::Remove(1))?;
    writer.append_all(&mut batch)?;
    writer.flush()?;
    Ok(batch.is_empty() && has(writer.published(), &[(2, 20), (9, 90)]))
}

// Whether a writer that ends leaves what was published last.
fn leaves_the_last<R: Wait + Drop>(mut writer: Writer<u64, u64, R>) -> Result<bool, AllocError> {
    kept(writer.clear())?;
    kept(writer.append(Command::Insert(4, 40)))?;
    writer.publish()?;
    kept(writer.remove(4))?;
    let index = writer.close();
    Ok(has(&index, &[(4, 40)]))
}

fn does_each_steps<R: Wait + Abort>(rt: &R, alloc: Global) -> Result<(), AllocError> {
    let mut writer: Writer<u64, u64, &R> = Writer::new(alloc, rt, 1)?;
    assert!(rt; does_each(&mut writer)?);
    assert!(rt; shows_a_batch(&mut writer, alloc)?);
    assert!(rt; leaves_the_last(writer)?);
    Ok(())
}

#[test]
fn each_call_does_what_its_name_says(rt: HostRuntime) {
    assert!(rt; succeeds(rt.alloc(), || does_each_steps(&rt, rt.alloc())));
}

// The number of pairs and the depth of what readers see.
fn shape<R: Wait + Drop>(writer: &SmallWriter<u64, u64, R>) -> (usize, usize) {
    let index = writer.published();
    (index.len(), index.depth())
}

// Stores so many ascending keys in an index of seven pairs a leaf, and looks at both copies.
fn fills_both_copies_steps<R: Wait + Abort>(
    rt: &R,
    alloc: Global,
    count: u64,
) -> Result<(), AllocError> {
    let mut writer: SmallWriter<u64, u64, &R> = SmallWriter::new(alloc, rt, 1)?;
    for key in 0..count {
        kept(writer.insert(key, key))?;
    }
    writer.publish()?;
    assert!(rt; shape(&writer) == (57, 2));
    writer.publish()?;
    assert!(rt; shape(&writer) == (57, 2));
    Ok(())
}

#[test]
fn both_small_copies_have_each_pair(rt: HostRuntime) {
    assert!(rt; succeeds(rt.alloc(), || fills_both_copies_steps(&rt, rt.alloc(), 57)));
}
