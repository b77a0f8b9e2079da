//! Commands that a state refuses because an allocation fails.
use crate::refusals::writes::ascending;
use std::alloc::{AllocError, Global};
use std::ops::Bound;
use std::process::Abort;
use test_support::refusals::{begins, ends, is_granted_again, succeeds};
use tree_index::{Command, InsertError, Reply};
use tree_state::StateOf;
use tree_support::flaws;

// A state of numbers, as its tests call it.
trait Recorded {
    // Calls `apply`.
    fn apply(&mut self, command: Command<u64, u64>) -> Result<Reply<u64>, Command<u64, u64>>;

    // Calls `insert`.
    fn insert(&mut self, key: u64, value: u64) -> Result<(), InsertError<u64, u64>>;

    // Returns how many calls are in the history.
    fn calls(&self) -> usize;

    // Whether the index is whole and has these pairs.
    fn is_whole(&self, pairs: &[(u64, u64)]) -> bool;
}

impl<const LEN: usize> Recorded for StateOf<u64, u64, LEN> {
    fn apply(&mut self, command: Command<u64, u64>) -> Result<Reply<u64>, Command<u64, u64>> {
        StateOf::apply(self, command)
    }

    fn insert(&mut self, key: u64, value: u64) -> Result<(), InsertError<u64, u64>> {
        StateOf::insert(self, key, value)
    }

    fn calls(&self) -> usize {
        self.history().len()
    }

    fn is_whole(&self, pairs: &[(u64, u64)]) -> bool {
        is_whole(self, pairs)
    }
}

// Whether the index of a state is whole and has these pairs.
fn is_whole<const LEN: usize>(state: &StateOf<u64, u64, LEN>, pairs: &[(u64, u64)]) -> bool {
    flaws(state.index(), pairs).is_ok()
}

// Whether so many calls are in the history, and the index is whole and has these pairs.
fn stands(state: &impl Recorded, calls: usize, pairs: &[(u64, u64)]) -> bool {
    state.calls() == calls && state.is_whole(pairs)
}

// The name by which the sweep of refusals knows the call that applies a command.
pub(crate) fn name_of<K, V>(command: &Command<K, V>) -> &'static str {
    match command {
        Command::Insert(_, _) => "State::apply Insert",
        Command::Upsert(_, _) => "State::apply Upsert",
        Command::Remove(_) => "State::apply Remove",
        Command::RemoveRange(_, _) => "State::apply RemoveRange",
        Command::Clear => "State::apply Clear",
        Command::Peek(_) => "State::apply Peek",
    }
}

pub(crate) const INSERT: &str = "State::insert";

// Applies a command to a state of these pairs. Returns `None` if an allocation fails: the command
// came back then, and the state stood.
fn applied(
    rt: &impl Abort,
    alloc: Global,
    state: &mut impl Recorded,
    pairs: &[(u64, u64)],
    command: Command<u64, u64>,
) -> Option<Reply<u64>> {
    let calls = state.calls();
    begins(alloc, name_of(&command));
    let answer = state.apply(command);
    ends(alloc);
    match answer {
        Ok(reply) => Some(reply),
        Err(back) => {
            assert!(rt; back == command && stands(state, calls, pairs));
            None
        }
    }
}

// Applies a command, at once or the second time. `Err` if nothing can be allocated any more.
fn apply_twice(
    rt: &impl Abort,
    alloc: Global,
    state: &mut impl Recorded,
    pairs: &[(u64, u64)],
    command: Command<u64, u64>,
) -> Result<Reply<u64>, AllocError> {
    if let Some(reply) = applied(rt, alloc, state, pairs, command) {
        return Ok(reply);
    }
    let reply = applied(rt, alloc, state, pairs, command);
    assert!(rt; is_granted_again(alloc, name_of(&command), reply.is_some())?);
    reply.ok_or(AllocError)
}

// Inserts the pair of 1 and 1 into an empty state. Returns whether an allocation failed: the pair
// came back then, and the state stood.
fn is_refused_a_pair(rt: &impl Abort, state: &mut impl Recorded) -> bool {
    let calls = state.calls();
    let Err(back) = state.insert(1, 1) else {
        return false;
    };
    assert!(rt; back == InsertError::OutOfMemory(1, 1) && stands(state, calls, &[]));
    true
}

// Does what [`is_refused_a_pair`] does, and tells the sweep of refusals.
fn is_refused_once(rt: &impl Abort, alloc: Global, state: &mut impl Recorded) -> bool {
    begins(alloc, INSERT);
    let is_refused = is_refused_a_pair(rt, state);
    ends(alloc);
    is_refused
}

// Inserts the pair of 1 and 1 into an empty state, at once or the second time. `Err` if nothing
// can be allocated any more.
fn insert_twice(
    rt: &impl Abort,
    alloc: Global,
    state: &mut impl Recorded,
) -> Result<(), AllocError> {
    if !is_refused_once(rt, alloc, state) {
        return Ok(());
    }
    let is_granted = !is_refused_once(rt, alloc, state);
    assert!(rt; is_granted_again(alloc, INSERT, is_granted)?);
    Ok(())
}

// A command, its reply, and the pairs after it.
type Row = (Command<u64, u64>, Reply<u64>, &'static [(u64, u64)]);

// Commands of each kind, over a state of the pair of 1 and 1.
static COMMANDS: [Row; 8] = [
    (Command::Insert(1, 3), Reply::Duplicate, &[(1, 1)]),
    (Command::Peek(1), Reply::Found(Some(1)), &[(1, 1)]),
    (Command::Upsert(1, 2), Reply::Stored, &[(1, 2)]),
    (Command::Remove(1), Reply::Removed(true), &[]),
    (Command::Insert(1, 1), Reply::Stored, &[(1, 1)]),
    (
        Command::RemoveRange(Bound::Included(1), Bound::Unbounded),
        Reply::Done,
        &[],
    ),
    (Command::Upsert(1, 2), Reply::Stored, &[(1, 2)]),
    (Command::Clear, Reply::Done, &[]),
];

// Applies the command of a row to a state of these pairs.
fn expect_row(
    rt: &impl Abort,
    alloc: Global,
    state: &mut impl Recorded,
    pairs: &[(u64, u64)],
    (command, reply, after): Row,
) -> Result<(), AllocError> {
    let calls = state.calls();
    let told = apply_twice(rt, alloc, state, pairs, command)?;
    assert!(rt; told == reply && stands(state, calls.wrapping_add(1), after));
    Ok(())
}

// Makes the calls of an empty state again and again, so that the history allocates as it grows.
fn apply_each(rt: &impl Abort, alloc: Global, state: &mut impl Recorded) -> Result<(), AllocError> {
    for _ in 0..20 {
        insert_twice(rt, alloc, state)?;
        let mut pairs: &[(u64, u64)] = &[(1, 1)];
        for row in &COMMANDS {
            expect_row(rt, alloc, state, pairs, *row)?;
            pairs = row.2;
        }
    }
    Ok(())
}

fn applies_steps(rt: &impl Abort, alloc: Global) -> Result<(), AllocError> {
    let mut state: StateOf<u64, u64, 15> = StateOf::new(alloc);
    apply_each(rt, alloc, &mut state)
}

fn small_applies_steps(rt: &impl Abort, alloc: Global) -> Result<(), AllocError> {
    let mut state: StateOf<u64, u64, 7> = StateOf::new(alloc);
    apply_each(rt, alloc, &mut state)
}

#[test]
fn hands_back_each_command(rt: HostRuntime) {
    assert!(rt;
        succeeds(rt.alloc(), || {
            applies_steps(&rt, rt.alloc())?;
            small_applies_steps(&rt, rt.alloc())
        })
    );
}

// How many records a history has room for after its first call, as a vector grows. So a call
// behind these allocates.
const ROOM: usize = 4;

// The pairs before a command that finds the history full, and its row.
static AT_A_FULL_HISTORY: [(&[(u64, u64)], Row); 8] = [
    (&[], (Command::Insert(1, 1), Reply::Stored, &[(1, 1)])),
    (&[], (Command::Upsert(1, 2), Reply::Stored, &[(1, 2)])),
    (
        &[(1, 1)],
        (Command::Insert(1, 3), Reply::Duplicate, &[(1, 1)]),
    ),
    (&[(1, 1)], (Command::Upsert(1, 2), Reply::Stored, &[(1, 2)])),
    (
        &[(1, 1)],
        (Command::Peek(1), Reply::Found(Some(1)), &[(1, 1)]),
    ),
    (&[(1, 1)], (Command::Remove(1), Reply::Removed(true), &[])),
    (
        &[(1, 1)],
        (
            Command::RemoveRange(Bound::Included(1), Bound::Unbounded),
            Reply::Done,
            &[],
        ),
    ),
    (&[(1, 1)], (Command::Clear, Reply::Done, &[])),
];

// Applies a command before those that are looked at.
fn prepare(state: &mut impl Recorded, command: Command<u64, u64>) -> Result<(), AllocError> {
    match state.apply(command) {
        Ok(_) => Ok(()),
        Err(_) => Err(AllocError),
    }
}

// Stores pairs in a new state, and looks a key up until the history is full.
fn fill_history(state: &mut impl Recorded, pairs: &[(u64, u64)]) -> Result<(), AllocError> {
    for (key, value) in pairs {
        prepare(state, Command::Insert(*key, *value))?;
    }
    for _ in pairs.len()..ROOM {
        prepare(state, Command::Peek(1))?;
    }
    Ok(())
}

fn full_history_steps(
    rt: &impl Abort,
    alloc: Global,
    (pairs, row): (&[(u64, u64)], Row),
) -> Result<(), AllocError> {
    let mut state: StateOf<u64, u64, 15> = StateOf::new(alloc);
    fill_history(&mut state, pairs)?;
    expect_row(rt, alloc, &mut state, pairs, row)
}

// Each kind of command behind a history without room.
#[test]
fn hands_back_each_command_at_a_full_history(rt: HostRuntime) {
    for row in &AT_A_FULL_HISTORY {
        assert!(rt; succeeds(rt.alloc(), || full_history_steps(&rt, rt.alloc(), *row)));
    }
}

fn insert_at_a_full_history_steps(rt: &impl Abort, alloc: Global) -> Result<(), AllocError> {
    let mut state: StateOf<u64, u64, 7> = StateOf::new(alloc);
    fill_history(&mut state, &[])?;
    insert_twice(rt, alloc, &mut state)?;
    assert!(rt; stands(&state, ROOM + 1, &[(1, 1)]));
    Ok(())
}

#[test]
fn hands_back_a_pair_at_a_full_history(rt: HostRuntime) {
    assert!(rt;
        succeeds(
            rt.alloc(),
            || insert_at_a_full_history_steps(&rt, rt.alloc())
        )
    );
}

// Inserts pairs in key order: the first one into an empty state, and later ones where a leaf is
// full, a node over leaves and a node over nodes.
fn fill(
    rt: &impl Abort,
    alloc: Global,
    state: &mut impl Recorded,
    pairs: &[(u64, u64)],
) -> Result<(), AllocError> {
    for (place, (key, value)) in pairs.iter().enumerate() {
        let before = pairs.get(..place).unwrap_or(&[]);
        apply_twice(rt, alloc, state, before, Command::Insert(*key, *value))?;
    }
    assert!(rt; stands(state, pairs.len(), pairs));
    Ok(())
}

fn fills(rt: &impl Abort, alloc: Global, pairs: &[(u64, u64)]) -> Result<(), AllocError> {
    let mut state: StateOf<u64, u64, 15> = StateOf::new(alloc);
    fill(rt, alloc, &mut state, pairs)
}

fn small_fills(rt: &impl Abort, alloc: Global, pairs: &[(u64, u64)]) -> Result<(), AllocError> {
    let mut state: StateOf<u64, u64, 7> = StateOf::new(alloc);
    fill(rt, alloc, &mut state, pairs)
}

// The last pair makes a third level.
#[test]
fn hands_back_inserts_into_a_growing_tree(rt: HostRuntime) {
    assert!(rt;
        succeeds(rt.alloc(), || {
            fills(&rt, rt.alloc(), &ascending(rt.alloc(), 3616)?)?;
            small_fills(&rt, rt.alloc(), &ascending(rt.alloc(), 400)?)
        })
    );
}
