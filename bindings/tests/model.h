/* What the tests in C share: random numbers, and a sorted array that answers as an index should. */
#include "tree_index.h"
#include <stdio.h>
#include <stdlib.h>
#include <string.h>

#define WANT(what)                                                     \
  do {                                                                 \
    if (!(what)) {                                                     \
      printf("%s:%d: not so: %s\n", __FILE__, __LINE__, #what);        \
      exit(1);                                                         \
    }                                                                  \
  } while (0)

static uint64_t state = 20261127;

/* A random number, by the steps of SplitMix64. */
static inline uint64_t draw(void) {
  uint64_t x = state += 0x9E3779B97F4A7C15u;
  x = (x ^ (x >> 30)) * 0xBF58476D1CE4E5B9u;
  x = (x ^ (x >> 27)) * 0x94D049BB133111EBu;
  return x ^ (x >> 31);
}

static inline uint64_t below(uint64_t limit) { return draw() % limit; }

/* A key of at most 31 bytes, in the order of memcmp, a prefix first. A number is a key of its eight bytes, the highest
 * first. */
typedef struct {
  size_t length;
  uint8_t bytes[31];
} key_of_bytes;

static inline int compare(const key_of_bytes *a, const key_of_bytes *b) {
  int first = memcmp(a->bytes, b->bytes, a->length < b->length ? a->length : b->length);
  return first ? first : a->length < b->length ? -1 : a->length > b->length;
}

static inline key_of_bytes of_number(uint64_t number) {
  key_of_bytes key = {8, {0}};
  for (int at = 0; at < 8; at++) key.bytes[at] = (uint8_t)(number >> (56 - 8 * at));
  return key;
}

#define MOST 20000

typedef struct {
  size_t count;
  key_of_bytes keys[MOST];
  uint64_t values[MOST];
} model;

/* The place of the first key that isn't smaller. */
static inline size_t place(const model *m, const key_of_bytes *key) {
  size_t low = 0, high = m->count;
  while (low < high) {
    size_t middle = (low + high) / 2;
    if (compare(&m->keys[middle], key) < 0) low = middle + 1;
    else high = middle;
  }
  return low;
}

static inline int is_at(const model *m, size_t at, const key_of_bytes *key) { return at < m->count && compare(&m->keys[at], key) == 0; }

static inline void put(model *m, const key_of_bytes *key, uint64_t value) {
  size_t at = place(m, key);
  if (!is_at(m, at, key)) {
    WANT(m->count < MOST);
    memmove(&m->keys[at + 1], &m->keys[at], (m->count - at) * sizeof m->keys[0]);
    memmove(&m->values[at + 1], &m->values[at], (m->count - at) * sizeof m->values[0]);
    m->count++;
  }
  m->keys[at] = *key;
  m->values[at] = value;
}

static inline void cut(model *m, size_t from, size_t to) {
  if (from >= to) return;
  memmove(&m->keys[from], &m->keys[to], (m->count - to) * sizeof m->keys[0]);
  memmove(&m->values[from], &m->values[to], (m->count - to) * sizeof m->values[0]);
  m->count -= to - from;
}

/* The place where a range begins, or ends, by the kind of its bound. */
static inline size_t range_begin(const model *m, uint8_t kind, const key_of_bytes *key) {
  size_t at = place(m, key);
  return kind == TREE_INDEX_UNBOUNDED ? 0 : at + (kind == TREE_INDEX_EXCLUDED && is_at(m, at, key));
}

static inline size_t range_end(const model *m, uint8_t kind, const key_of_bytes *key) {
  size_t at = place(m, key);
  return kind == TREE_INDEX_UNBOUNDED ? m->count : at + (kind == TREE_INDEX_INCLUDED && is_at(m, at, key));
}
