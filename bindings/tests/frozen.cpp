// Four threads that read one frozen index at once, each by a copy of its own.
#include "tree_index.hpp"
#include <cstdio>
#include <cstdlib>
#include <string>
#include <thread>
#include <type_traits>

#define WANT(what)                                              \
  do {                                                          \
    if (!(what)) {                                              \
      std::printf("%s:%d: not so: %s\n", __FILE__, __LINE__, #what); \
      std::exit(1);                                             \
    }                                                           \
  } while (0)

namespace {

constexpr uint64_t keys = 20000;

std::string word_of(uint64_t number) {
  std::string digits = std::to_string(number);
  return std::string(8 - digits.size(), '0') + digits;
}

// Only even keys are present, each with three times itself.
template <class Index, class Name> void read_all(const Index &index, Name name, uint64_t seed) {
  for (int turn = 0; turn < 3000; turn++) {
    seed = seed * 6364136223846793005u + 1442695040888963407u;
    uint64_t key = (seed >> 33) % keys;
    WANT(index.find(name(key)) == (key % 2 == 0 ? std::optional(3 * key) : std::nullopt));
    WANT(index.at_or_below(name(key))->second == 3 * (key - key % 2));
    uint64_t next = key + key % 2, seen = 0;
    for (auto walk = index.lower_bound(name(key)); walk != index.end() && seen < 10; ++walk, ++seen, next += 2) WANT(walk->second == 3 * next);
  }
}

template <class Index, class Name> void race(Name name) {
  Index index;
  for (uint64_t key = 0; key < keys; key += 2) index.insert(name(key), 3 * key);
  tree_index::frozen shared(std::move(index));
  static_assert(std::is_same_v<decltype(*shared), const Index &>, "a frozen index takes no writes");
  {
    std::vector<std::thread> threads;
    for (uint64_t seed = 0; seed < 4; seed++) threads.emplace_back([mine = shared, name, seed] { read_all(*mine, name, seed); });
    for (auto &thread : threads) thread.join();
  }
  {
    tree_index::frozen other = shared;
    WANT(!std::move(shared).thaw() && shared->size() == keys / 2);
    Index copy = other->copy();
    copy.clear();
    WANT(copy.empty() && other->size() == keys / 2);
  }
  std::optional<Index> again = std::move(shared).thaw();
  WANT(again && again->size() == keys / 2);
  again->clear();
  WANT(again->empty());
}

} // namespace

int main() {
  race<tree_index::index>([](uint64_t key) { return key; });
  race<tree_index::byte_index>(word_of);
  std::printf("C++: 4 threads that read one frozen index of %d pairs, each of its answers as it should be\n", static_cast<int>(keys / 2));
}
