// The examples of the site's tasks. Those in C, Rust and Python beside them write the same lines.
#include <iostream>
#include <mutex>
#include <thread>
#include <tree_index.hpp>

using tree_index::bound;
using prices = std::vector<std::pair<uint64_t, uint64_t>>;

// Returns the quantity at each price.
static tree_index::index book_of(const prices &orders) {
  return tree_index::index(orders.begin(), orders.end());
}

// Adds an amount to the balance of an account, 0 if it has none.
static void deposit(tree_index::index &balances, uint64_t account, uint64_t amount) {
  balances.upsert(account, balances.find(account).value_or(0) + amount);
}

// Returns the first and the last price within both bounds, if there is one.
static std::optional<std::pair<uint64_t, uint64_t>> ends_within(const tree_index::index &book, bound low, bound high) {
  auto up = book.range(low, high), down = book.reversed(low, high);
  if (up.begin() == up.end()) return std::nullopt;
  return std::pair((*up.begin()).first, (*down.begin()).first);
}

// Returns the lowest ask from a price on, if there is one.
static std::optional<std::pair<uint64_t, uint64_t>> ask_from(const tree_index::index &asks, uint64_t price) {
  return asks.at_or_above(price);
}

// Cancels every offer from one price to another, both included.
static void cancel(tree_index::index &offers, uint64_t low, uint64_t high) {
  offers.erase_range(bound::including(low), bound::including(high));
}

// Removes every pair whose key is below a time.
static void forget_before(tree_index::index &samples, uint64_t time) {
  samples.erase_range({}, bound::excluding(time));
}

// The owner of each name, which threads share.
struct registry {
  std::mutex lock;
  tree_index::index owners;

  // Registers a name for an owner. Returns whether the name was free.
  bool add(uint64_t name, uint64_t owner) {
    std::lock_guard<std::mutex> held(lock);
    return owners.insert(name, owner);
  }
};

// Returns how often a word was counted.
static uint64_t count_of(const tree_index::byte_index &counts, std::string_view word) {
  return counts.find(word).value_or(0);
}

static int share() {
  registry shared;
  bool registered[2];
  std::thread one([&] { registered[0] = shared.add(7, 1); });
  std::thread two([&] { registered[1] = shared.add(7, 2); });
  one.join();
  two.join();
  return registered[0] + registered[1];
}

int main() {
  tree_index::index book = book_of({{104, 1}, {101, 5}, {107, 3}, {102, 7}});
  deposit(book, 104, 2);
  for (auto [price, quantity] : book) std::cout << quantity << " at " << price << '\n';
  if (auto ends = ends_within(book, bound::including(102), bound::including(106))) std::cout << "from 102 to 106: " << ends->first << " and " << ends->second << '\n';
  if (auto ask = ask_from(book, 103)) std::cout << "from 103 on: " << ask->second << " at " << ask->first << '\n';
  cancel(book, 102, 104);
  std::cout << book.size() << " offers left\n";
  forget_before(book, 105);
  std::cout << book.size() << " from 105 on\n" << share() << " of 2 threads registered the name\n";
  tree_index::byte_index counts;
  counts.upsert("tree", 3);
  std::cout << "tree " << count_of(counts, "tree") << ", leaf " << count_of(counts, "leaf") << '\n';
}
