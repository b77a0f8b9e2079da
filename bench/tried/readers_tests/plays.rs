//! Random batches, compared with a row of places, at both leaf sizes.
use std::alloc::{AllocError, Global};
use std::collections::VecDeque;
use std::ops::Bound;
use std::process::Abort;
use std::sync::Wait;
use test_support::chance::Chance;
use test_support::refusals::succeeds;
use tree_index::{Command, TreeIndexOf};
use tree_readers::{ReaderOf, SmallWriter, Writer, WriterOf};

// The value at each key below 60.
type Places = [Option<u64>; 60];

// Carries out a command on the places.
fn answer(places: &mut Places, command: &Command<u64, u64>) {
    for (place, value) in places.iter_mut().enumerate() {
        let key = place as u64;
        match command {
            Command::Insert(at, new) if *at == key => *value = value.or(Some(*new)),
            Command::Upsert(at, new) if *at == key => *value = Some(*new),
            Command::Remove(at) if *at == key => *value = None,
            Command::RemoveRange(Bound::Included(low), Bound::Excluded(high))
                if *low <= key && key < *high =>
            {
                *value = None;
            }
            Command::Clear => *value = None,
            _ => {}
        }
    }
}

// A random command.
fn drawn(chance: &mut Chance) -> Command<u64, u64> {
    let (key, value) = (chance.below(60), chance.draw());
    match chance.below(20) {
        0 => Command::Clear,
        1 => Command::Peek(key),
        2 => Command::RemoveRange(Bound::Included(key), Bound::Excluded(key.saturating_add(9))),
        3 | 4 | 5 => Command::Remove(key),
        6 | 7 | 8 => Command::Upsert(key, value),
        _ => Command::Insert(key, value),
    }
}

// Whether an index has the pairs of the places, and no others.
fn has_places<const LEN: usize>(index: &TreeIndexOf<u64, u64, LEN>, places: &Places) -> bool {
    let mut count = 0;
    for (place, value) in places.iter().enumerate() {
        if index.peek(&(place as u64)).copied() != *value {
            return false;
        }
        if value.is_some() {
            count += 1;
        }
    }
    index.len() == count
}

// Publishes a random batch, and carries it out on the places.
fn publish_batch<R: Wait + Drop, const LEN: usize>(
    writer: &mut WriterOf<u64, u64, R, LEN>,
    alloc: Global,
    chance: &mut Chance,
    places: &mut Places,
) -> Result<(), AllocError> {
    let mut batch = VecDeque::new(alloc);
    for _ in 0..chance.below(24) {
        let command = drawn(chance);
        answer(places, &command);
        batch.push_back(command)?;
    }
    writer.append_all(&mut batch)?;
    writer.publish()
}

// Whether a reader sees the pairs of the places after each of sixteen random batches.
fn sees_each_batch<R: Wait + Drop, const LEN: usize>(
    writer: &mut WriterOf<u64, u64, R, LEN>,
    mut reader: ReaderOf<u64, u64, LEN>,
    alloc: Global,
) -> Result<bool, AllocError> {
    let mut chance = Chance::new(5);
    let mut places = [None; 60];
    for _ in 0..16 {
        publish_batch(writer, alloc, &mut chance, &mut places)?;
        let Ok(reading) = reader.enter() else {
            return Ok(false);
        };
        if !has_places(reading.index(), &places) {
            return Ok(false);
        }
        reader = reading.leave();
    }
    writer.flush()?;
    Ok(has_places(writer.published(), &places))
}

fn plays_steps<R: Wait + Abort>(rt: &R, alloc: Global) -> Result<(), AllocError> {
    let mut writer: Writer<u64, u64, &R> = Writer::new(alloc, rt, 1)?;
    let reader = writer.reader().map_err(|_| AllocError)?;
    assert!(rt; sees_each_batch(&mut writer, reader, alloc)?);
    Ok(())
}

#[test]
fn a_reader_sees_each_random_batch(rt: HostRuntime) {
    assert!(rt; succeeds(rt.alloc(), || plays_steps(&rt, rt.alloc())));
}

fn plays_small_steps<R: Wait + Abort>(rt: &R, alloc: Global) -> Result<(), AllocError> {
    let mut writer: SmallWriter<u64, u64, &R> = SmallWriter::new(alloc, rt, 1)?;
    let reader = writer.reader().map_err(|_| AllocError)?;
    assert!(rt; sees_each_batch(&mut writer, reader, alloc)?);
    Ok(())
}

#[test]
fn a_small_reader_sees_each_random_batch(rt: HostRuntime) {
    assert!(rt; succeeds(rt.alloc(), || plays_small_steps(&rt, rt.alloc())));
}
