// Random calls on both indexes, each beside std::map.
#include "tree_index.hpp"
#include <cstdio>
#include <cstdlib>
#include <map>
#include <random>
#include <stdexcept>

#define WANT(what)                                                  \
  do {                                                              \
    if (!(what)) {                                                  \
      std::printf("%s:%d: not so: %s\n", __FILE__, __LINE__, #what); \
      std::exit(1);                                                 \
    }                                                               \
  } while (0)

static std::mt19937_64 chance(20261127);
static uint64_t below(uint64_t limit) { return chance() % limit; }

template <class It> static auto pair_at(It at, It end) {
  using pair = std::pair<std::decay_t<decltype(at->first)>, uint64_t>;
  return at == end ? std::optional<pair>() : std::optional<pair>(pair(at->first, at->second));
}
template <class Map> static auto last_before(const Map &map, typename Map::const_iterator at) {
  return at == map.begin() ? pair_at(map.end(), map.end()) : pair_at(std::prev(at), map.end());
}
template <class Walk, class It> static void same(const Walk &walk, It at, It end) {
  for (const auto &pair : walk) {
    WANT(at != end && pair.first == at->first && pair.second == at->second);
    ++at;
  }
  WANT(at == end);
}

// A fill wrote as many pairs as there are and as both arrays have places for.
template <class Array, class It> static void same_arrays(std::size_t count, const Array &keys, const Array &values, It at, It end) {
  WANT(count <= keys.size() && count <= values.size());
  for (std::size_t n = 0; n < count; n++, ++at) WANT(at != end && keys[n] == at->first && values[n] == at->second);
  WANT(at == end || count == std::min(keys.size(), values.size()));
}

// What at() returns, or nothing if it throws.
template <class Index, class Key> static std::optional<uint64_t> value_at(const Index &index, const Key &key) {
  try {
    return index.at(key);
  } catch (const std::out_of_range &) {
    return std::nullopt;
  }
}

// A walk from a place gives what a map's does, for a few steps.
template <class Walk, class It> static void same_from(Walk walk, Walk end, It at, It last) {
  for (int steps = 0; steps < 80 && walk != end; steps++, at++) {
    WANT(at != last && walk->first == at->first && (*walk++).second == at->second);
  }
  WANT((walk == end) == (at == last));
}

static void numbers(uint64_t keys, int calls) {
  tree_index::index index;
  std::map<uint64_t, uint64_t> map;
  for (int call = 0; call < calls; call++) {
    uint64_t key = below(keys), value = chance();
    auto at = map.lower_bound(key);
    bool is = at != map.end() && at->first == key;
    switch (below(11)) {
    case 0: case 1: case 2: WANT(index.insert(key, value) == map.emplace(key, value).second); break;
    case 3: index.upsert(key, value); map[key] = value; break;
    case 4: WANT(index.erase(key) == map.erase(key)); break;
    case 5: WANT(index.take(key) == (is ? std::optional(at->second) : std::nullopt)); map.erase(key); break;
    case 9:
      WANT(index.replace(key, value) == (is ? std::optional(at->second) : std::nullopt));
      if (is) at->second = value;
      break;
    case 6:
      WANT(index.find(key) == (is ? std::optional(at->second) : std::nullopt) && index.contains(key) == is && index.size() == map.size());
      WANT(value_at(index, key) == index.find(key));
      {
        std::vector<uint64_t> sought(below(40));
        for (auto &one : sought) one = below(keys);
        auto told = index.find_many(sought);
        WANT(told.size() == sought.size());
        for (std::size_t n = 0; n < told.size(); n++) WANT(told[n] == index.find(sought[n]));
      }
      break;
    case 7:
      WANT(index.at_or_above(key) == pair_at(at, map.end()) && index.at_or_below(key) == last_before(map, is ? std::next(at) : at));
      WANT(index.first() == pair_at(map.begin(), map.end()) && index.last() == last_before(map, map.end()));
      break;
    case 8: {
      uint64_t high = key + below(keys / 4 + 1);
      auto end = map.lower_bound(high);
      same(index.range(key, high), at, end);
      same(index.reversed(tree_index::bound::including(key), tree_index::bound::excluding(high)), std::make_reverse_iterator(end), std::make_reverse_iterator(at));
      same_from(index.lower_bound(key), index.end(), at, map.end());
      same_from(index.upper_bound(key), index.end(), map.upper_bound(key), map.end());
      std::vector<uint64_t> into(below(40), 7), values(below(40), 7);
      tree_index::bound from = tree_index::bound::including(key), to = tree_index::bound::excluding(high);
      same_arrays(index.fill(into, values, from, to), into, values, at, end);
      same_arrays(index.fill_back(into, values, from, to), into, values, std::make_reverse_iterator(end), std::make_reverse_iterator(at));
      break;
    }
    default:
      if (below(50) == 0) {
        uint64_t high = key + below(keys / 8 + 1);
        index.erase_range(key, high);
        map.erase(at, map.lower_bound(high));
      } else if (below(3000) == 0) {
        index.clear();
        map.clear();
      }
    }
  }
  tree_index::index copy = index.copy(), moved = std::move(copy);
  same(moved, map.begin(), map.end());
  same(moved.range({}, {}), map.begin(), map.end());
  same(moved.range({}, tree_index::bound::excluding(keys / 2)), map.begin(), map.lower_bound(keys / 2));
  same(moved.range(tree_index::bound::including(keys / 2), {}), map.lower_bound(keys / 2), map.end());
  WANT(copy.empty() && copy.begin() == copy.end());
  copy.swap(moved);
  swap(copy, index);
  same(index, map.begin(), map.end());
  while (auto pair = index.pop_last()) {
    WANT(pair == last_before(map, map.end()));
    map.erase(pair->first);
    if (auto first = index.pop_first()) map.erase(first->first);
  }
  WANT(map.empty());
  std::printf("C++, numbers below %llu: %d calls, all answers as std::map's\n", (unsigned long long)keys, calls);
}

static void byte_strings(size_t longest, int calls) {
  tree_index::byte_index index;
  std::map<std::string, uint64_t> map;
  auto word = [&] { std::string key(below(longest + 1), 0); for (auto &letter : key) letter = "ab\xff"[below(3)]; return key; };
  for (int call = 0; call < calls; call++) {
    std::string key = word(), other = word();
    uint64_t value = chance();
    auto at = map.lower_bound(key);
    bool is = at != map.end() && at->first == key;
    switch (below(10)) {
    case 0: case 1: case 2: WANT(index.insert(key, value) == map.emplace(key, value).second); break;
    case 3: index.upsert(key, value); map[key] = value; break;
    case 4: WANT(index.erase(key) == map.erase(key)); break;
    case 5: WANT(index.take(key) == (is ? std::optional(at->second) : std::nullopt)); map.erase(key); break;
    case 6:
      WANT(index.find(key) == (is ? std::optional(at->second) : std::nullopt) && index.contains(key) == is && index.size() == map.size());
      WANT(value_at(index, key) == index.find(key));
      WANT(index.at_or_above(key) == pair_at(at, map.end()) && index.at_or_below(key) == last_before(map, is ? std::next(at) : at));
      break;
    case 7: {
      if (other < key) std::swap(key, other);
      auto from = map.lower_bound(key), to = map.upper_bound(other);
      same(index.range(tree_index::byte_bound::including(key), tree_index::byte_bound::including(other)), from, to);
      {
        auto walk = index.lower_bound(key);
        for (auto it = from; it != to; ++it, ++walk) WANT(walk.key() == it->first && walk.value() == it->second);
      }
      same(index.reversed(tree_index::byte_bound::including(key), tree_index::byte_bound::including(other)), std::make_reverse_iterator(to), std::make_reverse_iterator(from));
      same_from(index.lower_bound(key), index.end(), from, map.end());
      same_from(index.upper_bound(other), index.end(), to, map.end());
      break;
    }
    case 8: {
      auto to = std::find_if(at, map.end(), [&](const auto &pair) { return pair.first.compare(0, key.size(), key) != 0; });
      same(index.prefix(key), at, to);
      same(index.reversed(tree_index::byte_bound::including(key), tree_index::byte_bound::end_of(key)), std::make_reverse_iterator(to), std::make_reverse_iterator(at));
      if (below(40) == 0) {
        WANT(index.erase_prefix(key) == std::size_t(std::distance(at, to)) && index.prefix(key).begin() == index.end());
        map.erase(at, to);
      }
      break;
    }
    default:
      if (below(40) == 0) {
        if (other < key) std::swap(key, other);
        index.erase_range(tree_index::byte_bound::excluding(key), {});
        map.erase(map.upper_bound(key), map.end());
      }
    }
  }
  tree_index::byte_index copy = index.copy();
  same(copy, map.begin(), map.end());
  while (auto pair = copy.pop_last()) {
    WANT(pair == last_before(map, map.end()));
    map.erase(pair->first);
    WANT(copy.pop_first() == pair_at(map.begin(), map.end()));
    if (!map.empty()) map.erase(map.begin());
  }
  WANT(map.empty() && copy.empty());
  std::printf("C++, keys of at most %zu bytes: %d calls, all answers as std::map's\n", longest, calls);
}

int main(int count, char **words) {
  int calls = count > 1 ? std::atoi(words[1]) : 100000;
  for (uint64_t keys : {30, 3000, 300000}) numbers(keys, calls);
  byte_strings(4, calls);
  byte_strings(40, calls);
  byte_strings(5000, calls / 100);
  return 0;
}
