//! The six calls of a shared index over texts, each made again if an allocation fails in it.
use crate::numbers::Row;
use crate::texts::{Texts, command_of, is_command, is_reply};
use std::alloc::{AllocError, Global};
use std::sync::Wait;
use test_support::refusals::{answers_again, begins, ends, is_out_of_memory};
use tree_index::{Command, InsertError, Reply};
use tree_shared::{Books, PassOf, SharedOver};

// What came of calls, each made again if an allocation failed in it.
#[derive(Clone, Copy, PartialEq, Eq)]
pub(crate) enum Outcome {
    // Each was answered at once, as it should be.
    Answered,
    // Each was answered as it should be, one of them the second time.
    AnsweredAgain,
    // One was refused both times, and so is each request of the test's own.
    OutOfMemory,
    // One was answered otherwise, or refused though it could allocate, or it didn't return what it
    // was passed or was counted though it was refused.
    Wrong,
}

// The name of a call, as `bench/refusals` lists it.
fn name_of(command: &Command<u64, u64>) -> &'static str {
    match command {
        Command::Insert(_, _) => "SharedTreeIndex::insert",
        Command::Upsert(_, _) => "SharedTreeIndex::upsert",
        Command::Remove(_) => "SharedTreeIndex::remove",
        Command::RemoveRange(_, _) => "SharedTreeIndex::remove_range",
        Command::Clear => "SharedTreeIndex::clear",
        Command::Peek(_) => "SharedTreeIndex::peek",
    }
}

// Returns what a call is answered. Returns `Err` with its command if it is refused.
fn reply_to<B: Books, R: Wait, const LEN: usize>(
    rt: &R,
    shared: &SharedOver<String, String, B, LEN>,
    pass: &mut PassOf<B>,
    command: Texts,
) -> Result<Reply<String>, Texts> {
    if pass.tally().calls > 10_000 {
        return Err(command);
    }
    match command {
        Command::Insert(key, value) => match shared.insert(rt, pass, key, value) {
            Ok(()) => Ok(Reply::Stored),
            Err(InsertError::Duplicate(_, _)) => Ok(Reply::Duplicate),
            Err(InsertError::OutOfMemory(key, value)) => Err(Command::Insert(key, value)),
        },
        Command::Upsert(key, value) => match shared.upsert(rt, pass, key, value) {
            Ok(()) => Ok(Reply::Stored),
            Err((key, value)) => Err(Command::Upsert(key, value)),
        },
        Command::Remove(key) => match shared.remove(rt, pass, &key) {
            Ok(removed) => Ok(Reply::Removed(removed)),
            Err(_) => Err(Command::Remove(key)),
        },
        Command::RemoveRange(low, high) => {
            match shared.remove_range(rt, pass, (low.as_ref(), high.as_ref())) {
                Ok(()) => Ok(Reply::Done),
                Err(_) => Err(Command::RemoveRange(low, high)),
            }
        }
        Command::Clear => match shared.clear(rt, pass) {
            Ok(()) => Ok(Reply::Done),
            Err(_) => Err(Command::Clear),
        },
        Command::Peek(key) => match shared.peek(rt, pass, &key) {
            Ok(found) => Ok(Reply::Found(found)),
            Err(_) => Err(Command::Peek(key)),
        },
    }
}

// Makes a call of this row. Returns whether it was answered as it should be, or `Err` with its
// command if it was refused: `None` if it didn't come back, or the call was counted.
fn call_once<B: Books, R: Wait, const LEN: usize>(
    rt: &R,
    alloc: Global,
    shared: &SharedOver<String, String, B, LEN>,
    pass: &mut PassOf<B>,
    command: Texts,
    row: &Row,
) -> Result<bool, Option<Texts>> {
    let before = pass.tally();
    begins(alloc, name_of(&row.0));
    let told = reply_to(rt, shared, pass, command);
    ends(alloc);
    match told {
        Ok(reply) => Ok(is_reply(&reply, &row.1)),
        Err(back) if pass.tally() == before && is_command(&back, &row.0) => Err(Some(back)),
        Err(_) => Err(None),
    }
}

// Makes a call, a second time if it is refused. Returns `Err` if a request of the test's own is.
fn call_twice<B: Books, R: Wait, const LEN: usize>(
    rt: &R,
    alloc: Global,
    shared: &SharedOver<String, String, B, LEN>,
    pass: &mut PassOf<B>,
    row: &Row,
) -> Result<Outcome, AllocError> {
    let command = command_of(alloc, &row.0)?;
    let back = match call_once(rt, alloc, shared, pass, command, row) {
        Ok(true) => return Ok(Outcome::Answered),
        Err(Some(back)) => back,
        Ok(false) | Err(None) => return Ok(Outcome::Wrong),
    };
    Ok(match call_once(rt, alloc, shared, pass, back, row) {
        Ok(true) => {
            answers_again(alloc, name_of(&row.0));
            Outcome::AnsweredAgain
        }
        Err(Some(_)) if is_out_of_memory(alloc) => Outcome::OutOfMemory,
        Ok(false) | Err(_) => Outcome::Wrong,
    })
}

// Makes these calls, each a second time if it is refused, up to one that is refused both times or
// goes wrong. Returns `Err` if a request of the test's own is refused.
pub(crate) fn make_calls<B: Books, R: Wait, const LEN: usize>(
    rt: &R,
    alloc: Global,
    shared: &SharedOver<String, String, B, LEN>,
    pass: &mut PassOf<B>,
    rows: &[Row],
) -> Result<Outcome, AllocError> {
    let mut outcome = Outcome::Answered;
    for row in rows {
        match call_twice(rt, alloc, shared, pass, row)? {
            Outcome::Answered => {}
            Outcome::AnsweredAgain => outcome = Outcome::AnsweredAgain,
            ended => return Ok(ended),
        }
    }
    Ok(outcome)
}
