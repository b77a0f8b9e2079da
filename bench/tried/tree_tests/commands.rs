//! Lists of commands that an index answers.
use std::alloc::{AllocError, Global};
use std::ops::Bound;
use std::process::Abort;
use tree_index::{Command, Reply, TreeIndexOf};
use tree_state::run;
use tree_support::{OwnScenario, succeeds_by_own_calls};

// Commands of every kind, and the reply to each by an index that was empty.
static COMMANDS: [(Command<u64, u64>, Reply<u64>); 10] = [
    (Command::Insert(1, 10), Reply::Stored),
    (Command::Insert(1, 11), Reply::Duplicate),
    (Command::Upsert(1, 12), Reply::Stored),
    (Command::Peek(1), Reply::Found(Some(12))),
    (Command::Remove(2), Reply::Removed(false)),
    (Command::Insert(3, 30), Reply::Stored),
    (
        Command::RemoveRange(Bound::Included(2), Bound::Unbounded),
        Reply::Done,
    ),
    (Command::Remove(1), Reply::Removed(true)),
    (Command::Peek(1), Reply::Found(None)),
    (Command::Clear, Reply::Done),
];

// An index of numbers that runs commands.
trait Runs {
    // Calls `run`.
    fn run(&mut self, commands: Vec<Command<u64, u64>>) -> Result<Vec<Reply<u64>>, AllocError>;
}

impl<const LEN: usize> Runs for TreeIndexOf<u64, u64, LEN> {
    fn run(&mut self, commands: Vec<Command<u64, u64>>) -> Result<Vec<Reply<u64>>, AllocError> {
        run(self, commands)
    }
}

// Returns the commands.
fn commands(alloc: Global) -> Result<Vec<Command<u64, u64>>, AllocError> {
    let mut commands = Vec::new(alloc);
    for (command, _) in &COMMANDS {
        commands.push(*command)?;
    }
    Ok(commands)
}

// Whether the replies are the wanted ones. Returns `Err` if memory was refused for one.
fn are_wanted(replies: &[Reply<u64>]) -> Result<bool, AllocError> {
    if replies.len() != COMMANDS.len() {
        return Ok(false);
    }
    for (reply, (_, wanted)) in replies.iter().zip(&COMMANDS) {
        if *reply == Reply::Refused {
            return Err(AllocError);
        }
        if *reply != *wanted {
            return Ok(false);
        }
    }
    Ok(true)
}

// Runs the commands over a new index.
#[derive(Drop)]
struct Running<'r, R> {
    rt: &'r R,
    alloc: Global,
}

impl<R: Abort, I: Runs> OwnScenario<I> for Running<'_, R> {
    fn play(&self, index: &mut I) -> Result<(), AllocError> {
        let list = commands(self.alloc)?;
        let replies = index.run(list)?;
        assert!(self.rt; are_wanted(&replies)?);
        Ok(())
    }
}

#[test]
fn runs_every_command(rt: HostRuntime) {
    let scenario = Running {
        rt: &rt,
        alloc: rt.alloc(),
    };
    assert!(rt; succeeds_by_own_calls(rt.alloc(), &scenario));
}
