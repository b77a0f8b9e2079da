//! What each call answers, beside the ordered map of the standard library, and what it costs.
use sqlite_disk::Disk;
use std::alloc::{AllocError, Global};
use std::collections::BTreeMap;
use std::test::Fail;
use store_codec::Encode;
use store_log::{Head, Log, OpenError as LogRefusal};
use store_support::script::open_or_make;
use store_support::torn::{Machine, Torn};
use store_support::writes::{Answer, Map, Store, Write, has_pairs, to_map, to_store};
use test_support::chance::Chance;
use tree_store::TreeStore;

/// How many bytes the head takes, and how many more than its text a frame.
const HEAD: usize = 55;

const FRAME: usize = 19;

// A random write of keys below 60.
fn draw(chance: &mut Chance) -> Write {
    let key = chance.below(60);
    let value = chance.below(1000);
    match chance.below(40) {
        0 => Write::RemoveRange(key, key + value % 20),
        1 => Write::RemoveRange(key + 1, key),
        2 if value < 200 => Write::Clear,
        3..10 => Write::Remove(key),
        10..16 => Write::Take(key),
        16..28 => Write::Insert(key, value),
        _ => Write::Upsert(key, value),
    }
}

// How many bytes the record of a write takes that gave this answer.
fn record_length(write: Write, answer: Answer) -> usize {
    match (write, answer) {
        (_, Answer::Duplicate(..) | Answer::Removed(false) | Answer::Taken(None)) => 0,
        (Write::Insert(..) | Write::Upsert(..), _) => 17,
        (Write::Remove(_) | Write::Take(_), _) => 9,
        (Write::RemoveRange(..), _) => 19,
        (Write::Clear, _) => 1,
    }
}

// A store, a map of its pairs and one of those of the last commit, how long the file is that counts,
// how many bytes of records were noted since, and how many compactions there were.
#[derive(Drop)]
struct Play<'m> {
    alloc: Global,
    store: Store<Torn<'m>>,
    map: Map,
    committed: Map,
    size: usize,
    noted: usize,
    compactions: u64,
}

impl<'m> Play<'m> {
    // Whether all that the calls which only look tell is so.
    fn is_as_the_map(&self) -> bool {
        has_pairs(self.store.index(), &self.map)
            && self.store.size() == self.size
            && self.store.pending() == self.noted
            && self.store.head().generation == self.compactions + 1
            && !self.store.is_stopped()
    }

    // Makes a write. Returns whether it is answered as by the map.
    fn write(&mut self, write: Write) -> Result<bool, AllocError> {
        let answer = to_store(&mut self.store, write)?;
        self.noted += record_length(write, answer);
        Ok(answer == to_map(&mut self.map, write)?)
    }

    // Commits, and forgets nothing. A commit without a record takes no room.
    fn commit(&mut self) -> Result<(), AllocError> {
        self.store.commit().map_err(|_| AllocError)?;
        if self.noted > 0 {
            self.size += FRAME + self.noted;
        }
        self.noted = 0;
        self.committed = copy_of(self.alloc, &self.map)?;
        Ok(())
    }

    // Writes all pairs into the other file, which has their records in one frame then.
    fn compact(&mut self) -> Result<(), AllocError> {
        self.store.compact(self.alloc).map_err(|_| AllocError)?;
        self.size = HEAD + FRAME + 17 * self.map.len();
        self.noted = 0;
        self.compactions += 1;
        self.committed = copy_of(self.alloc, &self.map)?;
        Ok(())
    }

    // Whether all that is in use is tested.
    fn is_tested(&mut self) -> bool {
        match self.store.verify() {
            Ok(bytes) => bytes == self.size,
            Err(_) => false,
        }
    }

    fn roll_back(&mut self) -> Result<(), AllocError> {
        self.store.roll_back(self.alloc).map_err(|_| AllocError)?;
        self.noted = 0;
        self.map = copy_of(self.alloc, &self.committed)?;
        Ok(())
    }

    // Opens the files again, which loses what wasn't committed.
    fn opened_again(self) -> Result<Self, AllocError> {
        let Play { alloc, store, committed, size, compactions, .. } = self;
        let store = TreeStore::open(alloc, store.into_files()).map_err(|_| AllocError)?;
        Ok(Play {
            alloc,
            store,
            map: copy_of(alloc, &committed)?,
            committed,
            size,
            noted: 0,
            compactions,
        })
    }
}

fn copy_of(alloc: Global, map: &Map) -> Result<Map, AllocError> {
    let mut copy = BTreeMap::new(alloc);
    for (key, value) in map.iter() {
        copy.insert(*key, *value).map_err(|_| AllocError)?;
    }
    Ok(copy)
}

// Whether random writes, commits, batches that are forgotten and openings go as on the map.
fn goes_as_the_map(alloc: Global, mixes: bool) -> Result<bool, AllocError> {
    let mut chance = Chance::new(11);
    let machine = Machine::new(mixes);
    let made = open_or_make(alloc, machine.files(alloc, 3));
    let mut play = Play {
        alloc,
        store: made.map_err(|_| AllocError)?,
        map: BTreeMap::new(alloc),
        committed: BTreeMap::new(alloc),
        size: HEAD,
        noted: 0,
        compactions: 0,
    };
    for _ in 0..1000 {
        if !play.write(draw(&mut chance))? {
            return Ok(false);
        }
        match chance.below(60) {
            0..12 => play.commit()?,
            12..14 => play.roll_back()?,
            14 => play = play.opened_again()?,
            15 => play.compact()?,
            16 => {
                if !play.is_tested() {
                    return Ok(false);
                }
            }
            _ => {}
        }
        if !play.is_as_the_map() {
            return Ok(false);
        }
    }
    Ok(true)
}

#[test]
fn random_calls_answer_as_the_map(rt: HostRuntime) -> Result<(), Fail> {
    assert!(rt; goes_as_the_map(rt.alloc(), true)?);
    assert!(rt; goes_as_the_map(rt.alloc(), false)?);
    Ok(())
}

#[test]
fn a_new_store_has_its_head_alone(rt: HostRuntime) -> Result<(), Fail> {
    let machine = Machine::new(true);
    let made: Result<Store<Torn<'_>>, _> =
        TreeStore::make(rt.alloc(), machine.files(rt.alloc(), 3), 7);
    let Ok(store) = made else {
        assert!(rt; false);
        return Ok(());
    };
    let head = Head {
        kind_of_keys: u64::kind(),
        kind_of_values: u64::kind(),
        generation: 1,
        key: 7,
    };
    assert!(rt; store.head() == head);
    assert!(rt; store.index().is_empty() && store.size() == HEAD && !store.is_stopped());
    let files = store.into_files();
    assert!(rt; files.first.bytes.len() == HEAD + 1 && files.first.bytes.starts_with(&[215]));
    Ok(())
}

// A commit is one write and one sync if torn writes mix, and else two of each. The first of a
// file that mixes makes room before. One of nothing makes none.
#[test]
fn a_commit_makes_few_calls(rt: HostRuntime) -> Result<(), Fail> {
    for (mixes, calls) in [(true, 101), (false, 200)] {
        let machine = Machine::new(mixes);
        let mut store = open_or_make(rt.alloc(), machine.files(rt.alloc(), 3)).map_err(|_| AllocError)?;
        for key in 0..100 {
            store.upsert(key, key).map_err(|_| AllocError)?;
            assert!(rt; store.commit().is_ok() && store.commit().is_ok());
        }
        let files = store.into_files();
        assert!(rt; files.first.writes == 3 + calls && files.first.syncs == 3 + calls);
    }
    Ok(())
}

// Appends some texts to a log, and looks at them as a caller does.
fn log_keeps_texts(alloc: Global) -> Result<bool, AllocError> {
    let head = Head {
        kind_of_keys: 2000,
        kind_of_values: 3000,
        generation: 4,
        key: 5,
    };
    let machine = Machine::new(true);
    let disk = Torn::new(alloc, &machine, 1);
    let mut log = Log::make(alloc, disk, head).map_err(|_| AllocError)?;
    let texts: [&[u8]; 3] = [b"one", b"", b"\0\0and three"];
    let mut end = HEAD;
    for text in &texts {
        log.append(text).map_err(|_| AllocError)?;
        end += FRAME + text.len();
    }
    let bytes = log.read().map_err(|_| AllocError)?;
    if log.head() != head || log.is_stopped() || log.end() != end || bytes != log.disk().bytes {
        return Ok(false);
    }
    let Err((LogRefusal::Lost(at), disk)) = Log::open(alloc, log.into_disk(), (2000, 3000), end + 1)
    else {
        return Ok(false);
    };
    let (log, bytes) = Log::open(alloc, disk, (2000, 3000), end).map_err(|_| AllocError)?;
    Ok(at == end && log.end() == end && has_texts(&bytes, &texts))
}

// Whether the frames of a file behind its head have these texts.
fn has_texts(bytes: &[u8], texts: &[&[u8]]) -> bool {
    let mut rest = &bytes[HEAD..];
    for text in texts {
        let Some((batch, behind)) = store_frames::first_frame(rest) else {
            return false;
        };
        if *store_log::text_in(batch) != **text {
            return false;
        }
        rest = behind;
    }
    store_frames::first_frame(rest).is_none()
}

#[test]
fn a_log_keeps_texts(rt: HostRuntime) -> Result<(), Fail> {
    assert!(rt; log_keeps_texts(rt.alloc())?);
    Ok(())
}
