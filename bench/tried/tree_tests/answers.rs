//! The answers to requests, in whatever pieces the lines come and the answers go.
use crate::lines::engine::Answers;
use crate::lines::streams::{Failing, Sink, Source};
use std::alloc::{AllocError, Global};
use std::process::Abort;
use test_support::refusals::{begins, ends, is_granted_again, succeeds};
use tree_index::TreeIndex;
use tree_support::ascend;

// Lines, and the answers to them over a new index.
static ROWS: [(&str, &str); 12] = [
    ("insert 1 10\npeek 1\n", "ok\n10\n"),
    (
        "insert 1 10\ninsert 1 11\npeek 1\npeek 2\n\n",
        "ok\nduplicate\n10\nnone\n?\n",
    ),
    ("", ""),
    ("\n", "?\n"),
    ("insert 1 10\npeek 1", "ok\n10\n"),
    ("peek 1\ninsert 1 ", "none\n?\n"),
    (
        "insert 2 20\ninsert 1 10\ninsert 3 30\npeek 1\npeek 2\npeek 3\n",
        "ok\nok\nok\n10\n20\n30\n",
    ),
    (
        "insert 0 18446744073709551615\npeek 0\n",
        "ok\n18446744073709551615\n",
    ),
    (
        "insert 1 10\ninsert 1 11\nupsert 2 20\npeek 1\ncontains 3\nremove_if 2 21\nremove 2\nlen\ndepth\nspare\n",
        "ok\nduplicate\nok\n10\nfalse\nfalse\ntrue\n1\n1\n13\n",
    ),
    (
        "insert 2 2\ninsert 1 1\niter\nback\nrange (1 -\nrange [2 (2\n",
        "ok\nok\n1=1 2=2\n2=2 1=1\n2=2\n\n",
    ),
    (
        "insert 1 10\ninsert 1 11\nrange [0 (1\ninsert 01 5\nlocate 9\nremove_range (1 -\nlen\nclear\nlocate 9\ndepth\n",
        "ok\nduplicate\n\n?\nsmaller 1=10\nok\n1\nok\nempty\n0\n",
    ),
    (
        "insert 18446744073709551615 0\npeek 18446744073709551616\nback",
        "ok\n?\n18446744073709551615=0\n",
    ),
];

// The answers to these lines are these, where so many bytes are read and written at a time.
// Returns `Err` if not, as where memory was refused.
fn are_answered(
    index: &mut impl Answers,
    (lines, wanted): (&str, &str),
    (read, written): (usize, usize),
) -> Result<(), AllocError> {
    let mut input = Source::new(lines.as_bytes(), read, Failing::never());
    let mut output = Sink::new(written, Failing::never());
    let outcome = index.run(&mut input, &mut output);
    if outcome == Ok(()) && output.taken() == wanted.as_bytes() {
        Ok(())
    } else {
        Err(AllocError)
    }
}

// A new index answers these lines so.
fn expect_answers(
    alloc: Global,
    row: (&str, &str),
    pieces: (usize, usize),
) -> Result<(), AllocError> {
    let mut index: TreeIndex<u64, u64> = TreeIndex::new(alloc);
    are_answered(&mut index, row, pieces)
}

#[test]
fn answers_lines(rt: HostRuntime) {
    for row in &ROWS {
        for pieces in [(256, 256), (1, 256), (256, 1), (7, 2)] {
            assert!(rt;
                succeeds(rt.alloc(), || expect_answers(rt.alloc(), *row, pieces)),
                "at {row:?}"
            );
        }
    }
}

// Answers the lines, and returns what goes out.
fn answers_to(rt: &impl Abort, alloc: Global, index: &mut impl Answers, lines: &str) -> Sink {
    let mut input = lines.as_bytes();
    let mut output = Sink::new(256, Failing::never());
    begins(alloc, RUN_LINES);
    let outcome = index.run(&mut input, &mut output);
    ends(alloc);
    assert!(rt; outcome == Ok(()));
    output
}

const RUN_LINES: &str = "run_lines";

// Whether a write and a look-up are answered. Else the write was refused, and the look-up found
// none.
fn is_stored(rt: &impl Abort, alloc: Global, index: &mut impl Answers, lines: &str) -> bool {
    let output = answers_to(rt, alloc, index, lines);
    let answers = output.taken();
    assert!(rt; answers == b"ok\n10\n".as_slice() || answers == b"refused\nnone\n".as_slice());
    answers.starts_with(b"ok")
}

// Stores and looks up at once or the second time. `Err` if nothing can be allocated any more.
fn store_twice(
    rt: &impl Abort,
    alloc: Global,
    index: &mut impl Answers,
    lines: &str,
) -> Result<(), AllocError> {
    if is_stored(rt, alloc, index, lines) {
        return Ok(());
    }
    let is_granted = is_stored(rt, alloc, index, lines);
    assert!(rt; is_granted_again(alloc, RUN_LINES, is_granted)?);
    Ok(())
}

// How many ascending keys are stored, and lines that then store the next one: in a new index, and
// where a leaf and the arena of leaves are full, and the arena of nodes too.
static STORE_AND_PEEK: [(u64, &str); 6] = [
    (0, "insert 1 10\npeek 1\n"),
    (0, "upsert 1 10\npeek 1\n"),
    (60, "insert 61 10\npeek 61\n"),
    (60, "upsert 61 10\npeek 61\n"),
    (690, "insert 691 10\npeek 691\n"),
    (690, "upsert 691 10\npeek 691\n"),
];

fn stores_steps(
    rt: &impl Abort,
    alloc: Global,
    (count, lines): (u64, &str),
) -> Result<(), AllocError> {
    let mut index: TreeIndex<u64, u64> = TreeIndex::new(alloc);
    ascend(&mut index, 1, count, 1)?;
    store_twice(rt, alloc, &mut index, lines)
}

// A write that can't allocate is answered `refused` and its key stays absent. The same line is
// then answered.
#[test]
fn answers_that_memory_is_refused(rt: HostRuntime) {
    for row in &STORE_AND_PEEK {
        assert!(rt; succeeds(rt.alloc(), || stores_steps(&rt, rt.alloc(), *row)));
    }
}

// An insert and a look-up, and both again; the answers if no allocation fails, and if one does in
// the first insert.
static TWICE: (&str, &str, &str) = (
    "insert 1 10\npeek 1\ninsert 1 10\npeek 1\n",
    "ok\n10\nduplicate\n10\n",
    "refused\nnone\nok\n10\n",
);

// Answers the lines. If the second insert is refused too, nothing can be allocated any more.
fn insert_in_both_lines(
    rt: &impl Abort,
    alloc: Global,
    index: &mut impl Answers,
) -> Result<(), AllocError> {
    let (lines, answers, again) = TWICE;
    let output = answers_to(rt, alloc, index, lines);
    if output.taken() == answers.as_bytes() {
        return Ok(());
    }
    assert!(rt; output.taken().starts_with(b"refused\nnone\n"));
    assert!(rt; is_granted_again(alloc, RUN_LINES, output.taken() == again.as_bytes())?);
    Ok(())
}

fn insert_in_both_lines_steps(rt: &impl Abort, alloc: Global) -> Result<(), AllocError> {
    let mut index: TreeIndex<u64, u64> = TreeIndex::new(alloc);
    insert_in_both_lines(rt, alloc, &mut index)
}

#[test]
fn answers_again_what_was_refused(rt: HostRuntime) {
    assert!(rt; succeeds(rt.alloc(), || insert_in_both_lines_steps(&rt, rt.alloc())));
}
