//! The answers of cursors over numbers, as values that can be compared.
use tree_index::{Answer, Cursor, Move};

// A pair of numbers, if there is one.
pub(crate) type Entry = Option<(u64, u64)>;

/// What a cursor over numbers answered.
#[derive(Clone, Copy, Debug, PartialEq, Eq)]
pub enum Said {
    Pair(Entry),
    Flag(bool),
}

// The numbers that a cursor lends.
pub(crate) fn numbers(pair: Option<(&u64, &u64)>) -> Entry {
    let (key, value) = pair?;
    Some((*key, *value))
}

// What an answer of a cursor says.
pub(crate) fn said_by(answer: &Answer<'_, u64, u64>) -> Said {
    match answer {
        Answer::Pair(pair) => Said::Pair(numbers(*pair)),
        Answer::Flag(flag) => Said::Flag(*flag),
    }
}

// Makes a move of a cursor.
pub(crate) fn make<'t, C: Cursor<'t, u64, u64>>(cursor: &mut C, step: Move) -> Said {
    match step {
        Move::Next => Said::Pair(numbers(cursor.next())),
        Move::NextBack => Said::Pair(numbers(cursor.next_back())),
        Move::Get => Said::Pair(numbers(cursor.get())),
        Move::GetBack => Said::Pair(numbers(cursor.get_back())),
        Move::Flip => Said::Flag(cursor.flip()),
    }
}
