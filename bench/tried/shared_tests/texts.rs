//! Texts that tests make of numbers below 10, and commands and replies over them.
use std::alloc::{AllocError, Global};
use std::ops::Bound;
use tree_index::{Command, Record, Reply};

/// A command over texts. Their clones allocate.
pub(crate) type Texts = Command<String, String>;

// The text of a number.
fn digit(number: u64) -> &'static str {
    match number {
        0 => "0",
        1 => "1",
        2 => "2",
        3 => "3",
        4 => "4",
        5 => "5",
        6 => "6",
        7 => "7",
        8 => "8",
        _ => "9",
    }
}

fn text_of(alloc: Global, number: u64) -> Result<String, AllocError> {
    String::from_str(alloc, digit(number))
}

// Returns whether a text is that of a number.
pub(crate) fn is_text(text: &String, number: u64) -> bool {
    text.as_str() == digit(number)
}

fn bound_of(alloc: Global, bound: &Bound<u64>) -> Result<Bound<String>, AllocError> {
    Ok(match bound {
        Bound::Included(number) => Bound::Included(text_of(alloc, *number)?),
        Bound::Excluded(number) => Bound::Excluded(text_of(alloc, *number)?),
        Bound::Unbounded => Bound::Unbounded,
    })
}

fn is_bound(bound: &Bound<String>, wanted: &Bound<u64>) -> bool {
    match (bound, wanted) {
        (Bound::Included(key), Bound::Included(number)) => is_text(key, *number),
        (Bound::Excluded(key), Bound::Excluded(number)) => is_text(key, *number),
        (Bound::Unbounded, Bound::Unbounded) => true,
        _ => false,
    }
}

// Makes a command of one over numbers.
pub(crate) fn command_of(alloc: Global, command: &Command<u64, u64>) -> Result<Texts, AllocError> {
    Ok(match command {
        Command::Insert(key, value) => {
            Command::Insert(text_of(alloc, *key)?, text_of(alloc, *value)?)
        }
        Command::Upsert(key, value) => {
            Command::Upsert(text_of(alloc, *key)?, text_of(alloc, *value)?)
        }
        Command::Remove(key) => Command::Remove(text_of(alloc, *key)?),
        Command::RemoveRange(low, high) => {
            Command::RemoveRange(bound_of(alloc, low)?, bound_of(alloc, high)?)
        }
        Command::Clear => Command::Clear,
        Command::Peek(key) => Command::Peek(text_of(alloc, *key)?),
    })
}

// Returns whether a command is that of one over numbers.
pub(crate) fn is_command(command: &Texts, wanted: &Command<u64, u64>) -> bool {
    match (command, wanted) {
        (Command::Insert(key, value), Command::Insert(number, other)) => {
            is_text(key, *number) && is_text(value, *other)
        }
        (Command::Upsert(key, value), Command::Upsert(number, other)) => {
            is_text(key, *number) && is_text(value, *other)
        }
        (Command::Remove(key), Command::Remove(number)) => is_text(key, *number),
        (Command::RemoveRange(low, high), Command::RemoveRange(first, last)) => {
            is_bound(low, first) && is_bound(high, last)
        }
        (Command::Clear, Command::Clear) => true,
        (Command::Peek(key), Command::Peek(number)) => is_text(key, *number),
        _ => false,
    }
}

// Returns whether a reply is that of one over numbers.
pub(crate) fn is_reply(reply: &Reply<String>, wanted: &Reply<u64>) -> bool {
    match (reply, wanted) {
        (Reply::Stored, Reply::Stored) => true,
        (Reply::Duplicate, Reply::Duplicate) => true,
        (Reply::Removed(removed), Reply::Removed(was)) => *removed == *was,
        (Reply::Done, Reply::Done) => true,
        (Reply::Found(Some(value)), Reply::Found(Some(number))) => is_text(value, *number),
        (Reply::Found(None), Reply::Found(None)) => true,
        _ => false,
    }
}

// Returns whether a history has these calls and no others.
pub(crate) fn has_calls(
    history: &[Record<String, String>],
    rows: &[(Command<u64, u64>, Reply<u64>)],
) -> bool {
    for (record, (command, reply)) in history.iter().zip(rows) {
        if !is_command(&record.command, command) || !is_reply(&record.reply, reply) {
            return false;
        }
    }
    history.len() == rows.len()
}
