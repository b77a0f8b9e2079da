// The example of the site's page on files. Those in C, Rust and Python beside it write the same lines. A store is served by the
// program `storetool`, as a child.
#include <cinttypes>
#include <csignal>
#include <cstdlib>
#include <iostream>
#include <stdexcept>
#include <stdio.h>
#include <tree_index.hpp>

using prices = std::vector<std::pair<uint64_t, uint64_t>>;

// Starts `storetool` on a file with a pipe to it, or from it.
static FILE *start(const std::string &file, const char *task, const char *way) {
  setenv("FILE", file.c_str(), 1);
  FILE *store = popen((std::string("exec storetool \"$FILE\" ") + task).c_str(), way);
  if (store == nullptr) throw std::runtime_error("storetool doesn't start");
  return store;
}

// Waits for `storetool`, which ends with the status 0 if all is on the disk, or was read.
static void end(FILE *store) {
  if (pclose(store) != 0) throw std::runtime_error("storetool failed");
}

// Stores pairs in a file, so that they survive a crash. They are on the disk once this returns.
static void save(const std::string &file, const prices &pairs) {
  FILE *store = start(file, "load", "w");
  std::string lines;
  for (auto [price, quantity] : pairs) lines += std::to_string(price) + ' ' + std::to_string(quantity) + '\n';
  bool is_written = fwrite(lines.data(), 1, lines.size(), store) == lines.size() && fflush(store) == 0;
  end(store);
  if (!is_written) throw std::runtime_error("storetool didn't read all");
}

// Returns an index of the pairs of a file.
static tree_index::index load(const std::string &file) {
  FILE *store = start(file, "dump", "r");
  tree_index::index book;
  uint64_t price, quantity;
  while (fscanf(store, "%" SCNu64 " %" SCNu64, &price, &quantity) == 2) book.upsert(price, quantity);
  end(store);
  return book;
}

int main(int count, char **words) {
  if (count != 2) return 1;
  std::signal(SIGPIPE, SIG_IGN);
  save(words[1], {{101, 5}, {104, 1}});
  save(words[1], {{102, 7}, {104, 3}});
  for (auto [price, quantity] : load(words[1])) std::cout << quantity << " at " << price << '\n';
}
