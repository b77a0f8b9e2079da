//! The examples of the site's tasks. Those in C, C++ and Python beside them write the same lines.
use std::ops::RangeBounds;
use std::sync::Mutex;
use std::thread;

use tree_index::{ByteIndex, OutOfMemory, TreeIndex};

/// Returns the quantity at each price.
fn book_of(orders: &[(u64, u64)]) -> Result<TreeIndex, OutOfMemory> {
    let mut book = TreeIndex::new()?;
    for (price, quantity) in orders {
        book.upsert(*price, *quantity)?;
    }
    Ok(book)
}

/// Adds an amount to the balance of an account, 0 if it has none.
fn deposit(balances: &mut TreeIndex, account: u64, amount: u64) -> Result<(), OutOfMemory> {
    let balance = balances.peek(account).unwrap_or(0);
    balances.upsert(account, balance + amount)
}

/// Returns the first and the last price within both bounds, if there is one.
fn ends_within(prices: &TreeIndex, bounds: impl RangeBounds<u64>) -> Option<(u64, u64)> {
    let mut offers = prices.range(bounds);
    let (first, _) = offers.next()?;
    match offers.next_back() {
        Some((last, _)) => Some((first, last)),
        None => Some((first, first)),
    }
}

/// Returns the lowest ask from a price on, if there is one.
fn ask_from(asks: &TreeIndex, price: u64) -> Option<(u64, u64)> {
    asks.at_or_above(price)
}

/// Cancels every offer from one price to another, both included.
fn cancel(offers: &mut TreeIndex, low: u64, high: u64) {
    offers.remove_range(low..=high);
}

/// Removes every pair whose key is below a time.
fn forget_before(samples: &mut TreeIndex, time: u64) {
    samples.remove_range(..time);
}

/// Registers a name for an owner, under the lock. Returns whether the name was free.
fn register(owners: &Mutex<TreeIndex>, name: u64, owner: u64) -> bool {
    owners.lock().expect("no thread panics").insert(name, owner).is_ok()
}

/// Returns how often a word was counted.
fn count_of(counts: &ByteIndex, word: &str) -> u64 {
    counts.peek(word).unwrap_or(0)
}

fn share() -> Result<usize, OutOfMemory> {
    let owners = Mutex::new(TreeIndex::new()?);
    Ok(thread::scope(|scope| {
        let one = scope.spawn(|| register(&owners, 7, 1));
        let two = scope.spawn(|| register(&owners, 7, 2));
        [one, two].into_iter().filter_map(|it| it.join().ok()).filter(|it| *it).count()
    }))
}

fn main() -> Result<(), OutOfMemory> {
    let mut book = book_of(&[(104, 1), (101, 5), (107, 3), (102, 7)])?;
    deposit(&mut book, 104, 2)?;
    for (price, quantity) in &book {
        println!("{quantity} at {price}");
    }
    if let Some((first, last)) = ends_within(&book, 102..=106) {
        println!("from 102 to 106: {first} and {last}");
    }
    if let Some((price, quantity)) = ask_from(&book, 103) {
        println!("from 103 on: {quantity} at {price}");
    }
    cancel(&mut book, 102, 104);
    println!("{} offers left", book.len());
    forget_before(&mut book, 105);
    println!("{} from 105 on", book.len());
    println!("{} of 2 threads registered the name", share()?);
    let mut counts = ByteIndex::new()?;
    counts.upsert("tree", 3)?;
    println!("tree {}, leaf {}", count_of(&counts, "tree"), count_of(&counts, "leaf"));
    Ok(())
}
