// Times an index beside std::map, and beside absl::btree_map where its header is. Each time is the least of several
// rounds, in nanoseconds of the thread's processor time for each pair or call. Writes a line for each map, work and number of
// pairs: the map, the work, the pairs, the index's time and the map's. The last row of each has bytes a pair.
#include "tree_index.hpp"
#include <cstdio>
#include <ctime>
#include <functional>
#include <malloc.h>
#include <map>
#include <memory>
#include <numeric>
#include <random>
#if __has_include("absl/container/btree_map.h")
#include "absl/container/btree_map.h"
#define HAS_ABSL 1
#endif

using Keys = std::vector<uint64_t>;

static double now() {
  timespec at;
  clock_gettime(CLOCK_THREAD_CPUTIME_ID, &at);
  return at.tv_sec * 1e9 + at.tv_nsec;
}

static volatile uint64_t sink;

// A way to use a map: what each workload calls.
struct Index {
  tree_index::index map;
  void insert(uint64_t key) { map.insert(key, ~key); }
  void upsert(uint64_t key) { map.upsert(key, key); }
  uint64_t find(uint64_t key) const { return map.find(key).value_or(0); }
  uint64_t above(uint64_t key) const { auto at = map.at_or_above(key); return at ? at->first : 0; }
  uint64_t walk() const { uint64_t sum = 0; for (const auto &pair : map) sum += pair.first ^ pair.second; return sum; }
  uint64_t walk_from(uint64_t key, int count) const {
    tree_index::bound low = tree_index::bound::including(key);
    uint64_t sum = 0;
    for (const auto &pair : map.range(low, {})) { sum += pair.first; if (--count == 0) break; }
    return sum;
  }
  void erase(uint64_t key) { map.erase(key); }
  void cut(uint64_t low, uint64_t high) { map.erase_range(low, high); }
};

template <class Map> struct Std {
  Map map;
  void insert(uint64_t key) { map.emplace(key, ~key); }
  void upsert(uint64_t key) { map[key] = key; }
  uint64_t find(uint64_t key) const { auto at = map.find(key); return at == map.end() ? 0 : at->second; }
  uint64_t above(uint64_t key) const { auto at = map.lower_bound(key); return at == map.end() ? 0 : at->first; }
  uint64_t walk() const { uint64_t sum = 0; for (const auto &pair : map) sum += pair.first ^ pair.second; return sum; }
  uint64_t walk_from(uint64_t key, int count) const {
    uint64_t sum = 0;
    for (auto at = map.lower_bound(key); at != map.end() && count-- > 0; ++at) sum += at->first;
    return sum;
  }
  void erase(uint64_t key) { map.erase(key); }
  void cut(uint64_t low, uint64_t high) { map.erase(map.lower_bound(low), map.lower_bound(high)); }
};

// The bytes that malloc has given out, large blocks too.
static size_t held() {
  auto heap = mallinfo2();
  return heap.uordblks + heap.hblkhd;
}

static double least(int rounds, const std::function<double()> &run) {
  double best = 1e18;
  for (int round = 0; round < rounds; round++) best = std::min(best, run());
  return best;
}

template <class M> static std::vector<double> times(const Keys &keys, const Keys &order, int rounds) {
  size_t n = keys.size();
  std::vector<double> told;
  auto filled = [&] { auto m = std::make_unique<M>(); for (uint64_t key : keys) m->insert(key); return m; };
  auto timed = [&](auto &&work, size_t calls) { double at = now(); work(); return (now() - at) / calls; };
  told.push_back(least(rounds, [&] { M m; return timed([&] { for (uint64_t key = 0; key < n; key++) m.insert(key); }, n); }));
  told.push_back(least(rounds, [&] { M m; return timed([&] { for (uint64_t key : keys) m.insert(key); }, n); }));
  auto m = filled();
  told.push_back(least(rounds, [&] { return timed([&] { for (uint64_t key : order) m->upsert(key); }, n); }));
  told.push_back(least(rounds, [&] { return timed([&] { uint64_t sum = 0; for (uint64_t key : order) sum += m->find(key); sink = sum; }, n); }));
  told.push_back(least(rounds, [&] { return timed([&] { uint64_t sum = 0; for (uint64_t key : order) sum += m->above(key + 1); sink = sum; }, n); }));
  told.push_back(least(rounds, [&] { return timed([&] { sink = m->walk(); }, n); }));
  size_t walks = std::min<size_t>(n, 20000);
  told.push_back(least(rounds, [&] { return timed([&] { for (size_t at = 0; at < walks; at++) sink = m->walk_from(order[at], 100); }, walks * 100); }));
  int few = std::min(rounds, 10);
  size_t before = held();
  auto kept = filled();
  double bytes = double(held() - before) / n;
  told.push_back(least(few, [&] { auto c = filled(); return timed([&] { c->cut(UINT64_MAX / 4, UINT64_MAX / 4 * 3); }, n / 2); }));
  told.push_back(least(few, [&] { auto c = filled(); return timed([&] { for (uint64_t key : order) c->erase(key); }, n); }));
  told.push_back(bytes);
  return told;
}

int main(int count, char **words) {
  const char *names[] = {"insert ascending", "insert random", "upsert", "look up", "nearest above", "walk of all", "walks of 100", "cut of the middle half", "remove", "bytes a pair"};
  size_t most = count > 1 ? strtoull(words[1], nullptr, 10) : 1000000;
  for (size_t n : {1000, 100000, 1000000}) {
    if (n > most) break;
    std::mt19937_64 chance(n);
    Keys keys(n), order;
    for (auto &key : keys) key = chance();
    order = keys;
    std::shuffle(order.begin(), order.end(), chance);
    int rounds = n <= 1000 ? 300 : n <= 100000 ? 12 : 3;
    auto ours = times<Index>(keys, order, rounds), theirs = times<Std<std::map<uint64_t, uint64_t>>>(keys, order, rounds);
#ifdef HAS_ABSL
    auto absl = times<Std<absl::btree_map<uint64_t, uint64_t>>>(keys, order, rounds);
#endif
    auto rows = [&](const char *map, const std::vector<double> &its) {
      for (size_t at = 0; at < ours.size(); at++) printf("%s,%s,%zu,%.1f,%.1f\n", map, names[at], n, ours[at], its[at]);
    };
    rows("std::map", theirs);
#ifdef HAS_ABSL
    rows("absl::btree_map", absl);
#endif
  }
  tree_index::index empty;
  double call = least(5, [&] { double at = now(); for (int n = 0; n < 20000000; n++) sink = empty.size(); return (now() - at) / 20000000; });
  printf("none,a call that asks the length alone,0,%.1f,0\n", call);
  return 0;
}
