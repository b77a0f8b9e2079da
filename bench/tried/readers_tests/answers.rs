//! The errors by which a reader or a handle is turned away, and what is printed.
use crate::support::kept;
use std::alloc::{AllocError, Global};
use std::process::Abort;
use std::sync::Wait;
use test_support::refusals::succeeds;
use tree_readers::{EnterError, Handle, NoPlace, Reader, Writer};

// Whether a second reader finds the only place in use, and free again once the first is dropped.
fn has_one_place<R: Wait + Drop>(writer: &mut Writer<u64, u64, R>) -> bool {
    let Ok(first) = writer.reader() else {
        return false;
    };
    let is_in_use = is_refused(writer);
    drop(first);
    is_in_use && !is_refused(writer)
}

// Whether there is no place for a reader.
fn is_refused<R: Wait + Drop>(writer: &mut Writer<u64, u64, R>) -> bool {
    match writer.reader() {
        Ok(_) => false,
        Err(NoPlace) => true,
    }
}

// Whether a handle lends the pair that was published, twice.
fn lends_twice(handle: &mut Handle<u64, u64>) -> bool {
    lends(handle) && lends(handle)
}

fn lends(handle: &mut Handle<u64, u64>) -> bool {
    match handle.enter() {
        Ok(guard) => guard.len() == 1 && guard.peek(&1).copied() == Some(10),
        Err(_) => false,
    }
}

// Why a handle doesn't lend its index, if it doesn't.
fn refusal(handle: &mut Handle<u64, u64>) -> Option<EnterError> {
    match handle.enter() {
        Ok(_) => None,
        Err(error) => Some(error),
    }
}

// Whether a handle reports that its writer was closed and keeps its reader, and reports that it has
// none once that is gone, as if a guard had been forgotten. A guard that is forgotten stays inside
// and its writer would never end, so no test forgets one.
fn is_turned_away(handle: &mut Handle<u64, u64>) -> bool {
    let first = refusal(handle);
    let is_closed = match handle.reader.take() {
        Some(reader) => reader.enter().is_err(),
        None => false,
    };
    is_closed && first == Some(EnterError::Closed) && refusal(handle) == Some(EnterError::Forgotten)
}

// A handle of a writer that published one pair and ended, after the handle lent the pair twice.
fn ended<R: Wait + Drop>(mut writer: Writer<u64, u64, R>) -> Result<Handle<u64, u64>, AllocError> {
    let reader = writer.reader().map_err(|_| AllocError)?;
    let mut handle = reader.into_handle();
    kept(writer.upsert(1, 10))?;
    writer.publish()?;
    let is_lent = lends_twice(&mut handle);
    drop(writer.close());
    if is_lent { Ok(handle) } else { Err(AllocError) }
}

fn is_turned_away_steps<R: Wait + Abort>(rt: &R, alloc: Global) -> Result<(), AllocError> {
    let mut writer: Writer<u64, u64, &R> = Writer::new(alloc, rt, 1)?;
    assert!(rt; has_one_place(&mut writer));
    let mut handle = ended(writer)?;
    assert!(rt; is_turned_away(&mut handle));
    Ok(())
}

// Whether readers are turned away by a writer that was dropped.
fn is_dropped_steps<R: Wait + Abort>(rt: &R, alloc: Global) -> Result<(), AllocError> {
    let mut writer: Writer<u64, u64, &R> = Writer::new(alloc, rt, 2)?;
    let reader = writer.reader().map_err(|_| AllocError)?;
    let mut handle = writer.reader().map_err(|_| AllocError)?.into_handle();
    drop(writer);
    assert!(rt; reader.enter().is_err());
    assert!(rt; refusal(&mut handle) == Some(EnterError::Closed));
    Ok(())
}

#[test]
fn a_dropped_writer_turns_readers_away(rt: HostRuntime) {
    assert!(rt; succeeds(rt.alloc(), || is_dropped_steps(&rt, rt.alloc())));
}

#[test]
fn who_is_turned_away_learns_why(rt: HostRuntime) {
    assert!(rt; succeeds(rt.alloc(), || is_turned_away_steps(&rt, rt.alloc())));
}

// Whether a reader prints as it should, outside and inside, and then its handle and a guard.
fn prints(alloc: Global, reader: Reader<u64, u64>) -> Result<bool, AllocError> {
    let outside = format!(in alloc; "{reader:?}")?;
    let Ok(reading) = reader.enter() else {
        return Ok(false);
    };
    let inside = format!(in alloc; "{reading:?}")?;
    let mut handle = reading.leave().into_handle();
    let kept = format!(in alloc; "{handle:?}")?;
    let Ok(guard) = handle.enter() else {
        return Ok(false);
    };
    let lent = format!(in alloc; "{guard:?}")?;
    Ok(outside.as_str() == "Reader { .. }"
        && inside.as_str() == "Reading { .. }"
        && kept.as_str() == "Handle { .. }"
        && lent.as_str() == "Reading { .. }")
}

// Whether a writer and the errors print as they should.
fn prints_outside<R: Wait + Drop>(
    writer: &Writer<u64, u64, R>,
    alloc: Global,
) -> Result<bool, AllocError> {
    let shown = format!(in alloc; "{writer:?}")?;
    let full = format!(in alloc; "{}", NoPlace)?;
    let closed = format!(in alloc; "{}", EnterError::Closed)?;
    let forgotten = format!(in alloc; "{}", EnterError::Forgotten)?;
    Ok(shown.as_str() == "Writer { .. }"
        && full.as_str() == "each place for a reader is in use"
        && closed.as_str() == "the writer was closed"
        && forgotten.as_str() == "an earlier guard was forgotten")
}

fn prints_steps<R: Wait + Abort>(rt: &R, alloc: Global) -> Result<(), AllocError> {
    let mut writer: Writer<u64, u64, &R> = Writer::new(alloc, rt, 1)?;
    assert!(rt; prints_outside(&writer, alloc)?);
    let reader = writer.reader().map_err(|_| AllocError)?;
    assert!(rt; prints(alloc, reader)?);
    Ok(())
}

#[test]
fn prints_what_is_there(rt: HostRuntime) {
    assert!(rt; succeeds(rt.alloc(), || prints_steps(&rt, rt.alloc())));
}
