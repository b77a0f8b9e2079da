//! Damage of the file that counts: each byte changed, pieces set to zero, and the file cut at each
//! length.
use std::alloc::{AllocError, Global};
use std::test::Fail;
use store_log::OpenError as LogRefusal;
use store_support::script::{after, open_or_make, write_batch};
use store_support::torn::{Machine, Torn};
use store_support::writes::{Map, Store, has_pairs};
use tree_store::{Files, OpenError, TreeStore};

/// How many batches are committed.
const BATCHES: u64 = 12;

/// How many bytes of a frame come before its batch.
const HEADER: usize = 11;

// The files of a store, where each frame of the one that counts begins and the last ends, and the
// pairs after each number of frames behind the head, which is the first.
#[derive(Drop)]
struct Whole {
    bytes: Vec<u8>,
    other: Vec<u8>,
    is_second: bool,
    begins: Vec<usize>,
    fronts: Vec<Map>,
}

impl Whole {
    // How many frames are behind the head.
    fn frames(&self) -> usize {
        self.fronts.len() - 1
    }

    // Where the last frame ends.
    fn end(&self) -> usize {
        self.begins[self.frames() + 1]
    }

    // The files, with these bytes in the one that counts.
    fn files<'m>(
        &self,
        alloc: Global,
        machine: &'m Machine,
        bytes: &[u8],
    ) -> Result<Files<Torn<'m>>, AllocError> {
        let counts = Torn::of(alloc, machine, bytes)?;
        let other = Torn::of(alloc, machine, &self.other)?;
        Ok(if self.is_second {
            Files { first: other, second: counts }
        } else {
            Files { first: counts, second: other }
        })
    }

    // Whether the files are as they were, with these bytes in the one that counts.
    fn are_as_before(&self, files: &Files<Torn<'_>>, bytes: &[u8]) -> bool {
        if self.is_second {
            *files.first.bytes == *self.other && *files.second.bytes == *bytes
        } else {
            *files.first.bytes == *bytes && *files.second.bytes == *self.other
        }
    }
}

// What is made of files: they open as so many frames, or are refused with no byte changed.
#[derive(Clone, Copy, Debug, PartialEq, Eq)]
enum Told {
    Opens(usize),
    Blank,
    NoHead,
    Damaged(usize),
    Otherwise,
}

// Makes such files, with few of the zeros behind the frames. If they are compacted, the second
// counts, and its first frame has no record.
fn whole(alloc: Global, is_compacted: bool) -> Result<Whole, AllocError> {
    let machine = Machine::new(true);
    let made = open_or_make(alloc, machine.files(alloc, 5));
    let mut store = made.map_err(|_| AllocError)?;
    let mut begins = vec![in alloc; 0]?;
    begins.push(store.size())?;
    let mut fronts = Vec::new(alloc);
    fronts.push(after(alloc, 0)?)?;
    if is_compacted {
        store.compact(alloc).map_err(|_| AllocError)?;
        begins.push(store.size())?;
        fronts.push(after(alloc, 0)?)?;
    }
    for batch in 0..BATCHES {
        write_batch(&mut store, batch)?;
        store.commit().map_err(|_| AllocError)?;
        begins.push(store.size())?;
        fronts.push(after(alloc, batch + 1)?)?;
    }
    let length = store.size() + 4;
    let Files { first, second } = store.into_files();
    let (counts, other) = if is_compacted { (second, first) } else { (first, second) };
    Ok(Whole {
        bytes: counts.bytes[..length].to_vec(alloc)?,
        other: other.bytes.clone()?,
        is_second: is_compacted,
        begins,
        fronts,
    })
}

// Opens the files, with these bytes in the one that counts.
fn told(alloc: Global, whole: &Whole, bytes: &[u8]) -> Result<Told, AllocError> {
    let machine = Machine::new(true);
    let files = whole.files(alloc, &machine, bytes)?;
    let opened: Result<Store<Torn<'_>>, (OpenError, Files<Torn<'_>>)> =
        TreeStore::open(alloc, files);
    let (error, files) = match opened {
        Ok(store) => return Ok(frames_in(whole, &store)),
        Err(refused) => refused,
    };
    if !whole.are_as_before(&files, bytes) {
        return Ok(Told::Otherwise);
    }
    Ok(match error {
        OpenError::Log(LogRefusal::Blank) => Told::Blank,
        OpenError::Log(LogRefusal::NoHead) => Told::NoHead,
        OpenError::Log(LogRefusal::Damaged(at)) => Told::Damaged(at),
        _ => Told::Otherwise,
    })
}

// How many frames a store has by where they end, if its pairs are those after so many.
fn frames_in(whole: &Whole, store: &Store<Torn<'_>>) -> Told {
    for frames in 0..=whole.frames() {
        let is_end = whole.begins[frames + 1] == store.size();
        if is_end && has_pairs(store.index(), &whole.fronts[frames]) {
            return Told::Opens(frames);
        }
    }
    Told::Otherwise
}

// The frame that has a byte: 0 is the head.
fn frame_at(whole: &Whole, at: usize) -> usize {
    let mut frame = 0;
    while whole.begins[frame + 1] <= at {
        frame += 1;
    }
    frame
}

// Whether a file with one byte changed is told as it should. In a batch each change is damage that
// is reported, if as many bytes are zero as before. Else the frames end there, or that is reported.
fn is_told(alloc: Global, whole: &Whole, at: usize, new: u8) -> Result<bool, AllocError> {
    let old = whole.bytes[at];
    let frame = frame_at(whole, at);
    let mut changed = whole.bytes.clone()?;
    changed[at] = new;
    let told = told(alloc, whole, &changed)?;
    let begin = whole.begins[frame];
    let is_in_batch = at >= begin + HEADER;
    if old == new {
        return Ok(told == Told::Opens(whole.frames()));
    }
    if frame == 0 {
        return Ok(told == Told::NoHead || told == Told::Damaged(0));
    }
    if is_in_batch && (old == 0) == (new == 0) {
        return Ok(told == Told::Damaged(begin));
    }
    Ok(told == Told::Opens(frame - 1) || !is_in_batch && told == Told::Damaged(begin))
}

#[test]
fn each_changed_byte_is_told(rt: HostRuntime) -> Result<(), Fail> {
    for is_compacted in [false, true] {
        let whole = whole(rt.alloc(), is_compacted)?;
        for at in 0..whole.end() {
            let old = whole.bytes[at];
            for new in [0, 255, old ^ 1 << (at % 8)] {
                assert!(rt; is_told(rt.alloc(), &whole, at, new)?);
            }
        }
    }
    Ok(())
}

// Whether zeros over frames end them at the first that they change, since it has more zeros then.
fn is_ended(alloc: Global, whole: &Whole, from: usize, to: usize) -> Result<bool, AllocError> {
    let mut changed = whole.bytes.clone()?;
    changed[from..to].fill(0);
    let first = (from..to).find(|at| whole.bytes[*at] != 0);
    let wanted = match first.map(|at| frame_at(whole, at)) {
        None => Told::Opens(whole.frames()),
        Some(0) => Told::NoHead,
        Some(frame) => Told::Opens(frame - 1),
    };
    Ok(told(alloc, whole, &changed)? == wanted)
}

#[test]
fn a_piece_of_zeros_ends_the_frames(rt: HostRuntime) -> Result<(), Fail> {
    for is_compacted in [false, true] {
        let whole = whole(rt.alloc(), is_compacted)?;
        for length in [1, 16, 64, 512] {
            for at in (0..whole.end()).step_by(8) {
                let to = (at + length).min(whole.bytes.len());
                assert!(rt; is_ended(rt.alloc(), &whole, at, to)?);
            }
        }
    }
    Ok(())
}

// What is told of a file that was cut.
fn told_of_cut(whole: &Whole, length: usize) -> Told {
    match length {
        0 | 1 => Told::Blank,
        2..55 => Told::NoHead,
        _ if length == whole.end() => Told::Opens(whole.frames()),
        _ => Told::Opens(frame_at(whole, length) - 1),
    }
}

#[test]
fn a_cut_file_has_the_batches_before(rt: HostRuntime) -> Result<(), Fail> {
    for is_compacted in [false, true] {
        let whole = whole(rt.alloc(), is_compacted)?;
        for length in 0..=whole.end() {
            let told = told(rt.alloc(), &whole, &whole.bytes[..length])?;
            assert!(rt; told == told_of_cut(&whole, length));
        }
    }
    Ok(())
}
