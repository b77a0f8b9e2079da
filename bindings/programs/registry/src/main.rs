//! A registry of services that threads share: who serves a name, and since when.
//!
//! Reads `NAME PORT TICK` from standard input, one a line: a service says that it serves a name at a port. Four workers
//! register the lines that they take, each behind one lock. A registration that is older than the one that stands is
//! late, and is counted. A name that starts with another name and a dot is its child: the registry lists the children of
//! each name that is given as an argument, and forgets those of a name after `--drop`.
use std::io::{self, BufRead};
use std::sync::{Arc, Mutex, mpsc};
use std::thread;

use tree_index::{ByteIndex, OutOfMemory};

/// A port and the tick at which it was told, in one number.
fn told(port: u16, tick: u32) -> u64 {
    u64::from(tick) << 16 | u64::from(port)
}

#[derive(Default)]
struct Counts {
    stored: usize,
    replaced: usize,
    late: usize,
}

struct Registry {
    services: ByteIndex,
    counts: Counts,
}

impl Registry {
    fn register(&mut self, name: &str, port: u16, tick: u32) -> Result<(), OutOfMemory> {
        let told = told(port, tick);
        match self.services.peek(name) {
            Some(stands) if stands >= told => self.counts.late += 1,
            Some(_) => {
                self.services.upsert(name, told)?;
                self.counts.replaced += 1;
            }
            None => {
                self.services.upsert(name, told)?;
                self.counts.stored += 1;
            }
        }
        Ok(())
    }

    /// The children of a name: the names that begin with `NAME.`.
    fn children(&self, name: &str) -> impl Iterator<Item = (String, u64)> {
        self.services.prefix(format!("{name}.")).map(|(name, told)| (String::from_utf8_lossy(&name).into_owned(), told))
    }
}

fn main() -> Result<(), Box<dyn std::error::Error>> {
    let registry = Arc::new(Mutex::new(Registry { services: ByteIndex::new()?, counts: Counts::default() }));
    let (give, take) = mpsc::channel::<String>();
    let take = Arc::new(Mutex::new(take));
    let workers: Vec<_> = (0..4)
        .map(|_| {
            let (registry, take) = (registry.clone(), take.clone());
            thread::spawn(move || -> Result<(), OutOfMemory> {
                loop {
                    let Ok(line) = take.lock().expect("the lines").recv() else { return Ok(()) };
                    let words: Vec<_> = line.split_whitespace().collect();
                    if let [name, port, tick] = words[..] {
                        if let (Ok(port), Ok(tick)) = (port.parse(), tick.parse()) {
                            registry.lock().expect("the registry").register(name, port, tick)?;
                        }
                    }
                }
            })
        })
        .collect();
    for line in io::stdin().lock().lines() {
        give.send(line?)?;
    }
    drop(give);
    for worker in workers {
        worker.join().expect("a worker")?;
    }

    let mut registry = registry.lock().expect("the registry");
    let Counts { stored, replaced, late } = registry.counts;
    println!("{} names, {} registrations", registry.services.len(), stored + replaced + late);
    let mut words = std::env::args().skip(1);
    while let Some(word) = words.next() {
        if word == "--drop" {
            let name = words.next().ok_or("--drop wants a name")?;
            let before = registry.services.len();
            registry.services.remove_range::<String>(format!("{name}.")..format!("{name}/"))?;
            println!("dropped {} below {name}", before - registry.services.len());
            continue;
        }
        println!("{word}:");
        for (name, told) in registry.children(&word) {
            println!("  {name} at port {} since {}", told & 0xffff, told >> 16);
        }
    }
    Ok(())
}
