//! What a reader from before a publish sees of it.
use std::alloc::{AllocError, Global};
use std::process::Abort;
use std::sync::Wait;
use test_support::refusals::succeeds;
use tree_readers::{Reader, Writer};

// Whether a reader inside sees nothing of what is published meanwhile, and all of it once it has
// left and entered again.
fn sees_it_later<R: Wait + Drop>(
    writer: &mut Writer<u64, u64, R>,
    reader: Reader<u64, u64>,
) -> Result<bool, AllocError> {
    let Ok(reading) = reader.enter() else {
        return Ok(false);
    };
    writer.upsert(1, 10).map_err(|_| AllocError)?;
    writer.publish()?;
    let was_empty = reading.index().is_empty();
    let Ok(reading) = reading.leave().enter() else {
        return Ok(false);
    };
    Ok(was_empty && reading.index().peek(&1).copied() == Some(10))
}

fn sees_it_later_steps<R: Wait + Abort>(rt: &R, alloc: Global) -> Result<(), AllocError> {
    let mut writer: Writer<u64, u64, &R> = Writer::new(alloc, rt, 1)?;
    let reader = writer.reader().map_err(|_| AllocError)?;
    assert!(rt; sees_it_later(&mut writer, reader)?);
    Ok(())
}

#[test]
fn a_reader_from_before_sees_a_publish(rt: HostRuntime) {
    assert!(rt; succeeds(rt.alloc(), || sees_it_later_steps(&rt, rt.alloc())));
}
