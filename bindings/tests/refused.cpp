// Refuses each allocation in turn: every refusal is a std::bad_alloc, the pairs stay, and the same call succeeds.
#include "tree_index.hpp"
#include <cstdio>
#include <cstdlib>

// The library's own allocations pass through malloc and realloc; these stand before those of the C library.
extern "C" void *__libc_malloc(size_t size);
extern "C" void *__libc_realloc(void *block, size_t size);

static long requests, refused_at = -1;
static bool is_refused() { return ++requests == refused_at; }
extern "C" void *malloc(size_t size) { return is_refused() ? nullptr : __libc_malloc(size); }
extern "C" void *realloc(void *block, size_t size) { return is_refused() ? nullptr : __libc_realloc(block, size); }

static void want(bool is, const char *what) {
  if (is) return;
  refused_at = -1;
  std::printf("not so: %s\n", what);
  std::exit(1);
}

template <class Call> static int twice(Call call) {
  try {
    call();
    return 0;
  } catch (const std::bad_alloc &) {
    call();
    return 1;
  }
}

static bool run(long at) {
  requests = 0;
  refused_at = at;
  int refusals = 0;
  std::optional<tree_index::index> numbers;
  std::optional<tree_index::byte_index> words;
  refusals += twice([&] { numbers.emplace(); });
  refusals += twice([&] { words.emplace(); });
  char key[24] = "a key that has no room";
  for (uint64_t n = 0; n < 300; n++) {
    std::size_t before = numbers->size();
    refusals += twice([&] { want(numbers->size() == before, "the length of a refused insert"); numbers->insert(n * 7 % 300, n); });
    key[22] = char('a' + n % 26);
    key[21] = char('a' + n / 26);
    refusals += twice([&] { words->upsert(std::string_view(key, 23), n); });
  }
  std::optional<tree_index::index> copy;
  refusals += twice([&] { copy = numbers->copy(); });
  refusals += twice([&] { std::size_t count = 0; for (const auto &pair : *words) count += pair.second < 300; want(count == 300, "a walk over words"); });
  refusals += twice([&] { std::size_t count = 0; for (const auto &pair : words->prefix("a key that has no rooa")) count += pair.second < 26; want(count == 26, "a walk over a prefix"); });
  refusals += twice([&] { want(words->erase_prefix("a key that has no rooa") == 26, "how many keys began with a prefix"); });
  refused_at = -1;
  want(copy->size() == 300 && numbers->size() == 300 && words->size() == 274, "the pairs at the end");
  return refusals > 0;
}

int main() {
  long at = 1;
  while (run(at)) at++;
  std::printf("each of %ld requests for memory refused in turn: a bad_alloc each, and the call done the second time\n", at - 1);
  return 0;
}
