//! Commands over texts, whose clones allocate, and what a state and an index answer if that fails.
use crate::refusals::histories::{INSERT, name_of};
use std::alloc::{AllocError, Global};
use std::ops::Bound;
use std::process::Abort;
use test_support::refusals::{begins, ends, is_granted_again, succeeds};
use tree_index::{Command, InsertError, Reply, TreeIndex};
use tree_state::{State, run};

// A command over texts.
type Texts = Command<String, String>;

// A pair of texts.
type Pair = (String, String);

// The way in which a state takes an insert.
#[derive(Clone, Copy)]
enum Way {
    Apply,
    Insert,
}

// Passes a command to a state.
fn pass(
    state: &mut State<String, String>,
    way: Way,
    command: Texts,
) -> Result<Reply<String>, Texts> {
    match (way, command) {
        (Way::Insert, Command::Insert(key, value)) => match state.insert(key, value) {
            Ok(()) => Ok(Reply::Stored),
            Err(InsertError::Duplicate(_, _)) => Ok(Reply::Duplicate),
            Err(InsertError::OutOfMemory(key, value)) => Err(Command::Insert(key, value)),
        },
        (_, command) => state.apply(command),
    }
}

// The name by which the sweep of refusals knows the call that takes a command.
fn name(way: Way, command: &Texts) -> &'static str {
    match way {
        Way::Apply => name_of(command),
        Way::Insert => INSERT,
    }
}

// Whether an index has these pairs.
fn has(index: &TreeIndex<String, String>, pairs: &[Pair]) -> bool {
    let mut walk = index.iter();
    for pair in pairs {
        if walk.next() != Some((&pair.0, &pair.1)) {
            return false;
        }
    }
    walk.next().is_none()
}

// Whether so many calls are in the history, and the index has these pairs.
fn stands(state: &State<String, String>, calls: usize, pairs: &[Pair]) -> bool {
    state.history().len() == calls && has(state.index(), pairs)
}

// Passes a clone of a command to a state of these pairs. Returns `None` if an allocation fails in
// the call: the command came back then, and the state stood.
fn passed(
    rt: &impl Abort,
    alloc: Global,
    state: &mut State<String, String>,
    way: Way,
    command: &Texts,
    pairs: &[Pair],
) -> Result<Option<Reply<String>>, AllocError> {
    let calls = state.history().len();
    let same = command.clone()?;
    begins(alloc, name(way, command));
    let answer = pass(state, way, same);
    ends(alloc);
    match answer {
        Ok(reply) => Ok(Some(reply)),
        Err(back) => {
            assert!(rt; back == *command && stands(state, calls, pairs));
            Ok(None)
        }
    }
}

// Passes a command, at once or the second time. `Err` if nothing can be allocated any more.
fn pass_twice(
    rt: &impl Abort,
    alloc: Global,
    state: &mut State<String, String>,
    way: Way,
    command: &Texts,
    pairs: &[Pair],
) -> Result<Reply<String>, AllocError> {
    if let Some(reply) = passed(rt, alloc, state, way, command, pairs)? {
        return Ok(reply);
    }
    let reply = passed(rt, alloc, state, way, command, pairs)?;
    assert!(rt; is_granted_again(alloc, name(way, command), reply.is_some())?);
    reply.ok_or(AllocError)
}

// Ascending texts, one more than a leaf has room for, each with itself.
fn ascending(alloc: Global) -> Result<Vec<Pair>, AllocError> {
    let mut pairs = Vec::with_capacity(alloc, 16)?;
    for number in 10..26u64 {
        let key = format!(in alloc; "{number}")?;
        let value = format!(in alloc; "{number}")?;
        pairs.push((key, value))?;
    }
    Ok(pairs)
}

// Inserts pairs in key order into an empty state. The last one splits the leaf, which clones a
// separator.
fn fill(
    rt: &impl Abort,
    alloc: Global,
    state: &mut State<String, String>,
    way: Way,
    pairs: &[Pair],
) -> Result<(), AllocError> {
    for (place, pair) in pairs.iter().enumerate() {
        let before = pairs.get(..place).unwrap_or(&[]);
        let command = Command::Insert(pair.0.clone()?, pair.1.clone()?);
        let told = pass_twice(rt, alloc, state, way, &command, before)?;
        assert!(rt; told == Reply::Stored);
    }
    assert!(rt; stands(state, pairs.len(), pairs));
    Ok(())
}

fn fills(rt: &impl Abort, alloc: Global, way: Way) -> Result<(), AllocError> {
    let pairs = ascending(alloc)?;
    let mut state: State<String, String> = State::new(alloc);
    fill(rt, alloc, &mut state, way, &pairs)
}

// Keys and values that allocate where they are cloned, for the history and as a separator.
#[test]
fn hands_back_inserts_of_texts(rt: HostRuntime) {
    for way in [Way::Apply, Way::Insert] {
        assert!(rt; succeeds(rt.alloc(), || fills(&rt, rt.alloc(), way)));
    }
}

// A command over texts, and its reply.
type Row = (
    Command<&'static str, &'static str>,
    Reply<&'static str>,
    &'static [(&'static str, &'static str)],
);

// Commands of each kind, over the texts that the one before leaves.
static COMMANDS: [Row; 7] = [
    (Command::Insert("a", "1"), Reply::Stored, &[("a", "1")]),
    (Command::Upsert("a", "2"), Reply::Stored, &[("a", "2")]),
    (Command::Peek("a"), Reply::Found(Some("2")), &[("a", "2")]),
    (Command::Remove("a"), Reply::Removed(true), &[]),
    (Command::Upsert("b", "3"), Reply::Stored, &[("b", "3")]),
    (
        Command::RemoveRange(Bound::Included("a"), Bound::Excluded("c")),
        Reply::Done,
        &[],
    ),
    (Command::Clear, Reply::Done, &[]),
];

fn owned(alloc: Global, text: &str) -> Result<String, AllocError> {
    String::from_str(alloc, text)
}

// The bound of an owned text.
fn owned_bound(alloc: Global, bound: &Bound<&'static str>) -> Result<Bound<String>, AllocError> {
    match bound {
        Bound::Included(text) => Ok(Bound::Included(owned(alloc, *text)?)),
        Bound::Excluded(text) => Ok(Bound::Excluded(owned(alloc, *text)?)),
        Bound::Unbounded => Ok(Bound::Unbounded),
    }
}

// The command over owned texts.
fn owned_command(
    alloc: Global,
    command: &Command<&'static str, &'static str>,
) -> Result<Texts, AllocError> {
    match command {
        Command::Insert(key, value) => {
            Ok(Command::Insert(owned(alloc, *key)?, owned(alloc, *value)?))
        }
        Command::Upsert(key, value) => {
            Ok(Command::Upsert(owned(alloc, *key)?, owned(alloc, *value)?))
        }
        Command::Remove(key) => Ok(Command::Remove(owned(alloc, *key)?)),
        Command::RemoveRange(low, high) => {
            let low = owned_bound(alloc, low)?;
            Ok(Command::RemoveRange(low, owned_bound(alloc, high)?))
        }
        Command::Clear => Ok(Command::Clear),
        Command::Peek(key) => Ok(Command::Peek(owned(alloc, *key)?)),
    }
}

// The pairs of owned texts.
fn owned_pairs(
    alloc: Global,
    texts: &[(&'static str, &'static str)],
) -> Result<Vec<Pair>, AllocError> {
    let mut pairs = Vec::new(alloc);
    for (key, value) in texts {
        pairs.push((owned(alloc, *key)?, owned(alloc, *value)?))?;
    }
    Ok(pairs)
}

// Whether a reply is this one.
fn is_reply(told: &Reply<String>, wanted: Reply<&'static str>) -> bool {
    match (told, wanted) {
        (Reply::Found(Some(text)), Reply::Found(Some(wanted))) => text.as_str() == wanted,
        (Reply::Stored, Reply::Stored) | (Reply::Done, Reply::Done) => true,
        (Reply::Removed(was), Reply::Removed(wanted)) => *was == wanted,
        _ => false,
    }
}

// Applies the command of a row to a state of these pairs, and returns those that it leaves.
fn apply_row(
    rt: &impl Abort,
    alloc: Global,
    state: &mut State<String, String>,
    pairs: &[Pair],
    row: &Row,
) -> Result<Vec<Pair>, AllocError> {
    let command = owned_command(alloc, &row.0)?;
    let after = owned_pairs(alloc, row.2)?;
    let calls = state.history().len();
    let told = pass_twice(rt, alloc, state, Way::Apply, &command, pairs)?;
    assert!(rt; is_reply(&told, row.1) && stands(state, calls.wrapping_add(1), &after));
    Ok(after)
}

fn applies_each_steps(rt: &impl Abort, alloc: Global) -> Result<(), AllocError> {
    let mut state: State<String, String> = State::new(alloc);
    let mut pairs = Vec::new(alloc);
    for row in &COMMANDS {
        pairs = apply_row(rt, alloc, &mut state, &pairs, row)?;
    }
    Ok(())
}

#[test]
fn hands_back_commands_over_texts(rt: HostRuntime) {
    assert!(rt; succeeds(rt.alloc(), || applies_each_steps(&rt, rt.alloc())));
}

const RUN: &str = "run";

// Whether an insert and a look-up of a pair were both answered, or one of both was refused. With a
// second run the pair may be stored already. `None` if the replies are wrong.
fn are_answered(replies: &[Reply<String>], value: &str) -> Option<bool> {
    let [stored, found] = replies else {
        return None;
    };
    let is_stored = match stored {
        Reply::Stored | Reply::Duplicate => true,
        Reply::Refused => false,
        _ => return None,
    };
    match found {
        Reply::Found(Some(text)) if is_stored && text.as_str() == value => Some(true),
        Reply::Found(None) if !is_stored => Some(false),
        Reply::Refused if is_stored => Some(false),
        _ => None,
    }
}

// Runs an insert and a look-up of the last pair over an index of the others, or of all. Returns
// whether both were answered.
fn run_once(
    rt: &impl Abort,
    alloc: Global,
    index: &mut TreeIndex<String, String>,
    pairs: &[Pair],
) -> Result<bool, AllocError> {
    let Some((key, value)) = pairs.last() else {
        return Ok(false);
    };
    let insert = Command::Insert(key.clone()?, value.clone()?);
    let commands = vec![in alloc; insert, Command::Peek(key.clone()?)]?;
    begins(alloc, RUN);
    let answer = run(index, commands);
    ends(alloc);
    let is_answered = match answer {
        Ok(replies) => are_answered(&replies, value.as_str()),
        Err(_) => Some(false),
    };
    let stored = pairs.get(..index.len()).unwrap_or(&[]);
    let is_whole = has(index, stored) && (is_answered != Some(true) || stored.len() == pairs.len());
    assert!(rt; is_answered.is_some() && is_whole);
    Ok(is_answered == Some(true))
}

fn run_twice(
    rt: &impl Abort,
    alloc: Global,
    index: &mut TreeIndex<String, String>,
    pairs: &[Pair],
) -> Result<(), AllocError> {
    if run_once(rt, alloc, index, pairs)? {
        return Ok(());
    }
    let is_answered = run_once(rt, alloc, index, pairs)?;
    assert!(rt; is_granted_again(alloc, RUN, is_answered)?);
    Ok(())
}

// Stores clones of all pairs but the last.
fn store_all_but_last(
    index: &mut TreeIndex<String, String>,
    pairs: &[Pair],
) -> Result<(), AllocError> {
    let before = pairs.get(..pairs.len().saturating_sub(1)).unwrap_or(&[]);
    for (key, value) in before {
        if index.upsert_sync(key.clone()?, value.clone()?).is_err() {
            return Err(AllocError);
        }
    }
    Ok(())
}

fn runs_steps(rt: &impl Abort, alloc: Global) -> Result<(), AllocError> {
    let pairs = ascending(alloc)?;
    let mut index: TreeIndex<String, String> = TreeIndex::new(alloc);
    store_all_but_last(&mut index, &pairs)?;
    run_twice(rt, alloc, &mut index, &pairs)
}

// The insert clones a separator, and the look-up its value.
#[test]
fn runs_again_over_texts(rt: HostRuntime) {
    assert!(rt; succeeds(rt.alloc(), || runs_steps(&rt, rt.alloc())));
}
