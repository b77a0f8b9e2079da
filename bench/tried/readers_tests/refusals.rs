//! Calls of a writer in which an allocation fails. `bench/refusals` makes each fail in turn; in an
//! ordinary run of the tests none does.
use crate::support::has;
use std::alloc::{AllocError, Global};
use std::collections::VecDeque;
use std::ops::Bound;
use std::process::Abort;
use std::sync::Wait;
use test_support::refusals::{begins, ends, is_granted_again, succeeds};
use tree_index::Command;
use tree_readers::{Reader, Writer};

const NEW: &str = "Writer::new";

const APPEND: &str = "Writer::append";

const APPEND_ALL: &str = "Writer::append_all";

const PUBLISH: &str = "Writer::publish";

const FLUSH: &str = "Writer::flush";

// Makes a writer for one reader, at once or the second time.
fn made<'r, R: Wait>(
    rt: &'r R,
    alloc: Global,
) -> Result<Writer<u64, u64, &'r R>, AllocError> {
    begins(alloc, NEW);
    let first = Writer::new(alloc, rt, 1);
    ends(alloc);
    if let Ok(writer) = first {
        return Ok(writer);
    }
    begins(alloc, NEW);
    let second = Writer::new(alloc, rt, 1);
    ends(alloc);
    is_granted_again(alloc, NEW, second.is_ok())?;
    second
}

// Appends a command, at once or the second time. One that is refused comes back.
fn append_twice<R: Wait + Drop>(
    rt: &impl Abort,
    alloc: Global,
    writer: &mut Writer<u64, u64, R>,
    command: Command<u64, u64>,
) -> Result<(), AllocError> {
    begins(alloc, APPEND);
    let first = writer.append(command);
    ends(alloc);
    let Err(back) = first else {
        return Ok(());
    };
    assert!(rt; back == command);
    begins(alloc, APPEND);
    let second = writer.append(back);
    ends(alloc);
    assert!(rt; is_granted_again(alloc, APPEND, second.is_ok())?);
    Ok(())
}

// Appends a batch, at once or the second time. One that is refused stays whole, and nothing of it
// is pending.
fn append_all_twice<R: Wait + Drop>(
    rt: &impl Abort,
    alloc: Global,
    writer: &mut Writer<u64, u64, R>,
    batch: &mut VecDeque<Command<u64, u64>>,
) -> Result<(), AllocError> {
    let count = batch.len();
    begins(alloc, APPEND_ALL);
    let first = writer.append_all(batch);
    ends(alloc);
    if first.is_ok() {
        return Ok(());
    }
    assert!(rt; batch.len() == count);
    begins(alloc, APPEND_ALL);
    let second = writer.append_all(batch);
    ends(alloc);
    assert!(rt; is_granted_again(alloc, APPEND_ALL, second.is_ok())?);
    Ok(())
}

// Publishes or flushes once, by the name of the call.
fn publish_once<R: Wait + Drop>(
    alloc: Global,
    writer: &mut Writer<u64, u64, R>,
    call: &str,
) -> Result<(), AllocError> {
    begins(alloc, call);
    let answer = if call == FLUSH {
        writer.flush()
    } else {
        writer.publish()
    };
    ends(alloc);
    answer
}

// Publishes or flushes, at once or the second time. After a refusal readers see what they saw, or
// all, and the second call goes on.
fn publish_twice<R: Wait + Drop>(
    rt: &impl Abort,
    alloc: Global,
    writer: &mut Writer<u64, u64, R>,
    call: &str,
    before: &[(u64, u64)],
    after: &[(u64, u64)],
) -> Result<(), AllocError> {
    if publish_once(alloc, writer, call).is_ok() {
        assert!(rt; has(writer.published(), after));
        return Ok(());
    }
    let is_as_before = has(writer.published(), before);
    assert!(rt; is_as_before || call == FLUSH && has(writer.published(), after));
    let second = publish_once(alloc, writer, call);
    assert!(rt; is_granted_again(alloc, call, second.is_ok())?);
    assert!(rt; has(writer.published(), after));
    Ok(())
}

// The pairs that a reader sees are these. Returns the reader.
fn sees(
    rt: &impl Abort,
    reader: Reader<u64, u64>,
    pairs: &[(u64, u64)],
) -> Result<Reader<u64, u64>, AllocError> {
    let reading = reader.enter().map_err(|_| AllocError)?;
    assert!(rt; has(reading.index(), pairs));
    Ok(reading.leave())
}

// What is left of the first batch, of what is stored then, and of the edits.
static BATCHED: [(u64, u64); 2] = [(40, 40), (41, 41)];

static FILLED: [(u64, u64); 20] = [
    (0, 0), (1, 1), (2, 2), (3, 3), (4, 4), (5, 5), (6, 6), (7, 7), (8, 8), (9, 9),
    (10, 10), (11, 11), (12, 12), (13, 13), (14, 14), (15, 15), (16, 16), (17, 17), (18, 18), (19, 19),
];

static EDITED: [(u64, u64); 3] = [(0, 7), (1, 1), (30, 30)];

// The edits, one of which stores nothing, since its key is present.
static EDITS: [Command<u64, u64>; 4] = [
    Command::RemoveRange(Bound::Included(2), Bound::Unbounded),
    Command::Upsert(0, 7),
    Command::Insert(1, 7),
    Command::Insert(30, 30),
];

// Flushes a batch, which is the first to need room in the queue and in both copies.
fn publish_batch<R: Wait + Drop>(
    rt: &impl Abort,
    alloc: Global,
    writer: &mut Writer<u64, u64, R>,
) -> Result<(), AllocError> {
    let mut batch = VecDeque::new(alloc);
    batch.push_back(Command::Upsert(40, 40))?;
    batch.push_back(Command::Upsert(41, 41))?;
    batch.push_back(Command::Remove(99))?;
    append_all_twice(rt, alloc, writer, &mut batch)?;
    publish_twice(rt, alloc, writer, FLUSH, &[], &BATCHED)
}

// Publishes a batch, replaces its pairs, and edits these. At each step the reader sees all of it.
fn changes_twice<R: Wait + Drop>(
    rt: &impl Abort,
    alloc: Global,
    writer: &mut Writer<u64, u64, R>,
    reader: Reader<u64, u64>,
) -> Result<(), AllocError> {
    publish_batch(rt, alloc, writer)?;
    let reader = sees(rt, reader, &BATCHED)?;
    append_twice(rt, alloc, writer, Command::Clear)?;
    for (key, value) in &FILLED {
        append_twice(rt, alloc, writer, Command::Insert(*key, *value))?;
    }
    publish_twice(rt, alloc, writer, PUBLISH, &BATCHED, &FILLED)?;
    let reader = sees(rt, reader, &FILLED)?;
    for command in &EDITS {
        append_twice(rt, alloc, writer, *command)?;
    }
    publish_twice(rt, alloc, writer, FLUSH, &FILLED, &EDITED)?;
    let reader = sees(rt, reader, &EDITED)?;
    writer.publish()?;
    drop(sees(rt, reader, &EDITED)?);
    Ok(())
}

fn loses_nothing_steps<R: Wait + Abort>(rt: &R, alloc: Global) -> Result<(), AllocError> {
    let mut writer = made(rt, alloc)?;
    let reader = writer.reader().map_err(|_| AllocError)?;
    changes_twice(rt, alloc, &mut writer, reader)
}

#[test]
fn a_refused_call_loses_nothing(rt: HostRuntime) {
    assert!(rt; succeeds(rt.alloc(), || loses_nothing_steps(&rt, rt.alloc())));
}

// Publishes, at once or the second time. Readers see none of three texts after a refusal, and then
// all.
fn publish_texts<R: Wait + Drop>(
    rt: &impl Abort,
    alloc: Global,
    writer: &mut Writer<String, String, R>,
    before: usize,
) -> Result<(), AllocError> {
    begins(alloc, PUBLISH);
    let first = writer.publish();
    ends(alloc);
    if first.is_err() {
        assert!(rt; writer.published().len() == before);
        begins(alloc, PUBLISH);
        let second = writer.publish();
        ends(alloc);
        assert!(rt; is_granted_again(alloc, PUBLISH, second.is_ok())?);
    }
    assert!(rt; writer.published().len() == 3);
    Ok(())
}

// Publishes texts, whose clones allocate too, on both copies.
fn publishes_texts_steps<R: Wait + Abort>(rt: &R, alloc: Global) -> Result<(), AllocError> {
    let mut writer: Writer<String, String, &R> = Writer::new(alloc, rt, 1)?;
    for word in ["one", "two", "three"] {
        let (key, value) = (String::from_str(alloc, word)?, String::from_str(alloc, word)?);
        writer.upsert(key, value).map_err(|_| AllocError)?;
    }
    publish_texts(rt, alloc, &mut writer, 0)?;
    publish_texts(rt, alloc, &mut writer, 3)
}

#[test]
fn texts_are_published_whole(rt: HostRuntime) {
    assert!(rt; succeeds(rt.alloc(), || publishes_texts_steps(&rt, rt.alloc())));
}
