//! The example of the site's page on files. Those in C, C++ and Python beside it write the same lines. A store is served by the program
//! `storetool`, as a child.
use std::error::Error;
use std::io::Write;
use std::process::{Command, Stdio};

use tree_index::TreeIndex;

/// Stores pairs in a file, so that they survive a crash. They are on the disk once this returns `Ok`.
fn save(file: &str, pairs: &[(u64, u64)]) -> Result<(), Box<dyn Error>> {
    let mut store = Command::new("storetool").args([file, "load"]).stdin(Stdio::piped()).spawn()?;
    let lines: String = pairs.iter().map(|(price, quantity)| format!("{price} {quantity}\n")).collect();
    let written = store.stdin.take().map_or(Ok(()), |mut input| input.write_all(lines.as_bytes()));
    let status = store.wait()?;
    written?;
    if status.success() { Ok(()) } else { Err(format!("storetool: {status}").into()) }
}

/// Returns an index of the pairs of a file.
fn load(file: &str) -> Result<TreeIndex, Box<dyn Error>> {
    let told = Command::new("storetool").args([file, "dump"]).stderr(Stdio::inherit()).output()?;
    if !told.status.success() {
        return Err(format!("storetool: {}", told.status).into());
    }
    let mut book = TreeIndex::new()?;
    for line in String::from_utf8(told.stdout)?.lines() {
        let (price, quantity) = line.split_once(' ').ok_or("no pair")?;
        book.upsert(price.parse()?, quantity.parse()?)?;
    }
    Ok(book)
}

fn main() -> Result<(), Box<dyn Error>> {
    let file = std::env::args().nth(1).ok_or("usage: store FILE")?;
    save(&file, &[(101, 5), (104, 1)])?;
    save(&file, &[(102, 7), (104, 3)])?;
    for (price, quantity) in &load(&file)? {
        println!("{quantity} at {price}");
    }
    Ok(())
}
