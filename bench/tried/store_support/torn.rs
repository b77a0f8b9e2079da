//! Files in memory on a machine that stops at some call, with room for so many bytes. A crash keeps
//! a random part of what it may.
use sqlite_disk::{Crash, Disk, Tally};
use std::alloc::{AllocError, Global};
use std::cell::Cell;
use std::io;
use test_support::chance::Chance;
use tree_store::Files;

/// The machine.
#[derive(Drop)]
pub struct Machine {
    // Calls of its files before the first that fails.
    calls_left: Cell<u64>,
    // Whether that one fails alone.
    fails_once: Cell<bool>,
    // Whether a crash leaves each byte of a torn write old or new.
    mixes: bool,
}

impl Machine {
    /// Creates a machine that doesn't stop. If it mixes, a crash leaves each byte of a torn write
    /// old or new.
    pub fn new(mixes: bool) -> Self {
        Machine {
            calls_left: Cell::new(u64::MAX),
            fails_once: Cell::new(false),
            mixes,
        }
    }

    /// Lets each call behind so many fail.
    pub fn stop_after(&self, calls: u64) {
        self.calls_left.set(calls);
        self.fails_once.set(false);
    }

    /// Lets the call behind so many fail alone.
    pub fn fail_after(&self, calls: u64) {
        self.calls_left.set(calls);
        self.fails_once.set(true);
    }

    /// Lets no call fail.
    pub fn start(&self) {
        self.stop_after(u64::MAX);
    }

    /// Returns how many calls there were since it started.
    pub fn calls_made(&self) -> u64 {
        u64::MAX - self.calls_left.get()
    }

    /// Creates two empty files. What a crash leaves of them follows from the seed.
    pub fn files(&self, alloc: Global, seed: u64) -> Files<Torn<'_>> {
        Files {
            first: Torn::new(alloc, self, seed),
            second: Torn::new(alloc, self, seed + 1),
        }
    }

    /// Starts again, with what a crash leaves of the files.
    pub fn crash<'m>(&'m self, files: &mut Files<Torn<'m>>) {
        files.first.crash();
        files.second.crash();
        self.start();
    }

    // Counts a call.
    fn spend(&self) -> io::Result<()> {
        let left = self.calls_left.get();
        if left == 0 {
            if self.fails_once.get() {
                self.start();
            }
            return Err(io::Error::other("the machine has stopped"));
        }
        self.calls_left.set(left - 1);
        Ok(())
    }
}

/// A file of a machine.
#[derive(Drop)]
pub struct Torn<'m> {
    machine: &'m Machine,
    /// What a read returns.
    pub bytes: Vec<u8>,
    /// How long it may become.
    pub room: usize,
    /// How many writes it was asked for.
    pub writes: u64,
    /// How many syncs it was asked for.
    pub syncs: u64,
    synced: Vec<u8>,
    // Where each write since the last sync began, and its length.
    written: Vec<(usize, usize)>,
    // The shortest that it was since then.
    shortest: usize,
    usable: bool,
    chance: Chance,
}

impl<'m> Torn<'m> {
    /// Creates an empty file.
    pub fn new(alloc: Global, machine: &'m Machine, seed: u64) -> Self {
        Torn {
            machine,
            bytes: Vec::new(alloc),
            room: usize::MAX,
            writes: 0,
            syncs: 0,
            synced: Vec::new(alloc),
            written: Vec::new(alloc),
            shortest: 0,
            usable: true,
            chance: Chance::new(seed),
        }
    }

    /// Creates an empty file whose calls allocate nothing while it has so many bytes.
    pub fn with_capacity(
        alloc: Global,
        machine: &'m Machine,
        bytes: usize,
    ) -> Result<Self, AllocError> {
        Ok(Torn {
            bytes: Vec::with_capacity(alloc, bytes)?,
            synced: Vec::with_capacity(alloc, bytes)?,
            written: Vec::with_capacity(alloc, 8)?,
            ..Torn::new(alloc, machine, 1)
        })
    }

    /// Creates a file with these bytes on the disk.
    pub fn of(alloc: Global, machine: &'m Machine, bytes: &[u8]) -> Result<Self, AllocError> {
        let mut file = Torn::new(alloc, machine, 1);
        file.bytes.extend_from_slice(bytes)?;
        file.synced.extend_from_slice(bytes)?;
        file.shortest = bytes.len();
        Ok(file)
    }

    // What a crash leaves: each byte that was written since the last sync is old, new, or anything
    // unless torn writes mix. Where the file was cut off, and past the synced length, there may be
    // anything.
    fn left(&mut self) -> Result<Vec<u8>, AllocError> {
        let mut left = self.synced.clone()?;
        for (from, length) in &self.written {
            for at in *from..(*from + *length).min(left.len()).min(self.bytes.len()) {
                let (old, new) = (self.synced[at], self.bytes[at]);
                left[at] = left_of(&mut self.chance, old, new, self.machine.mixes);
            }
        }
        for at in self.shortest..left.len() {
            if self.chance.below(2) == 0 {
                left[at] = self.chance.below(256) as u8;
            }
        }
        let fewer = left.len().saturating_sub(self.bytes.len()) as u64;
        left.truncate(left.len() - self.chance.below(fewer + 1) as usize);
        let more = self.bytes.len().saturating_sub(self.synced.len());
        for _ in 0..self.chance.below(more as u64 + 1) {
            let chance = self.chance.draw();
            let byte = match chance % 3 {
                0 => self.bytes[left.len()],
                1 => 0,
                _ => (chance / 8 % 256) as u8,
            };
            left.push(byte)?;
        }
        Ok(left)
    }

    // Writes as much as there is room for.
    fn store(&mut self, at: usize, bytes: &[u8]) -> io::Result<()> {
        let count = bytes.len().min(self.room.saturating_sub(at));
        let end = at + count;
        if end > self.bytes.len() {
            self.bytes.resize(end, 0).map_err(no_memory)?;
        }
        self.written.push((at, count)).map_err(|_| no_memory(AllocError))?;
        self.bytes[at..end].copy_from_slice(&bytes[..count]);
        if count < bytes.len() {
            return Err(io::ErrorKind::StorageFull.into());
        }
        Ok(())
    }

    // Puts what was written on the disk.
    fn settle(&mut self) -> Result<(), AllocError> {
        let cut = self.shortest.min(self.bytes.len());
        self.synced.resize(self.bytes.len(), 0)?;
        self.synced[cut..].copy_from_slice(&self.bytes[cut..]);
        for (from, length) in &self.written {
            let end = (*from + *length).min(cut);
            let from = (*from).min(end);
            self.synced[from..end].copy_from_slice(&self.bytes[from..end]);
        }
        self.written.clear();
        self.shortest = self.bytes.len();
        Ok(())
    }
}

// The byte that a crash leaves at a place that was written.
fn left_of(chance: &mut Chance, old: u8, new: u8, mixes: bool) -> u8 {
    let drawn = chance.draw();
    match drawn % 5 {
        0 | 1 => old,
        4 if !mixes => (drawn / 8 % 256) as u8,
        _ => new,
    }
}

fn no_memory(_: AllocError) -> io::Error {
    io::ErrorKind::OutOfMemory.into()
}

impl<'m> Disk for Torn<'m> {
    ghost seen = { λ d. d.bytes.items };

    ghost may_leave = { λ d c. Unit {0} };

    ghost is_usable = { λ d. d.usable };

    ghost faults = { λ d. 0 };

    ghost tally_of = { λ d. record { caught = 0; refused = 0 } };

    ghost is_clean = { λ d. true };

    ghost key_of = { λ d. 0 };

    ghost is_fair = { λ d key. true };

    ghost is_mixing = { λ d. d.machine.now.mixes };

    ghost seen_may_stay = { λ d. tt };

    ghost fair_if_clean = { λ d key clean. refl };

    fn mixes(&self) -> bool {
        self.machine.mixes
    }

    fn key(&self) -> u64 {
        0
    }

    fn tally(&self) -> Tally {
        Tally {
            caught: 0,
            refused: 0,
        }
    }

    fn may_be_used(&self) -> bool {
        self.usable
    }

    fn len(&mut self) -> io::Result<usize> {
        self.machine.spend()?;
        Ok(self.bytes.len())
    }

    fn read_at(&mut self, at: usize, buf: &mut [u8]) -> io::Result<()> {
        self.machine.spend()?;
        if at + buf.len() > self.bytes.len() {
            return Err(io::ErrorKind::UnexpectedEof.into());
        }
        buf.copy_from_slice(&self.bytes[at..at + buf.len()]);
        Ok(())
    }

    fn read_checked(&mut self, _key: u64, _want: u64, at: usize, buf: &mut [u8]) -> io::Result<()> {
        self.read_at(at, buf)
    }

    // A write that fails has written its bytes, as far as a crash leaves them.
    fn write_at(&mut self, at: usize, bytes: &[u8]) -> io::Result<()> {
        self.writes += 1;
        let spent = self.machine.spend();
        let stored = self.store(at, bytes);
        spent.and(stored)
    }

    fn set_len(&mut self, len: usize) -> io::Result<()> {
        let spent = self.machine.spend();
        self.bytes.resize(len, 0).map_err(no_memory)?;
        self.shortest = self.shortest.min(len);
        spent
    }

    fn sync(&mut self) -> io::Result<()> {
        self.syncs += 1;
        self.usable = false;
        self.machine.spend()?;
        self.settle().map_err(no_memory)?;
        self.usable = true;
        Ok(())
    }
}

/// Becomes what is left of it after the machine stopped and started again.
impl<'m> Crash for Torn<'m> {
    fn crash(&mut self) {
        if let Ok(left) = self.left() {
            self.bytes = left;
        }
        if let Ok(copy) = self.bytes.clone() {
            self.synced = copy;
        }
        self.written.clear();
        self.shortest = self.bytes.len();
        self.usable = true;
    }
}
