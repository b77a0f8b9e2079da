/* Refuses each request for memory in turn. Linked with --wrap for malloc, realloc and free, which it counts. */
#include "model.h"

void *__real_malloc(size_t size);
void *__real_realloc(void *block, size_t size);
void __real_free(void *block);

static long requests, refused_at, blocks, refusals, got_by;

static int is_refused(void) { return ++requests == refused_at && ++refusals; }

void *__wrap_malloc(size_t size) {
  void *block = is_refused() ? NULL : __real_malloc(size);
  blocks += block != NULL;
  return block;
}

void *__wrap_realloc(void *block, size_t size) {
  void *moved = is_refused() ? NULL : __real_realloc(block, size);
  blocks += !block && moved;
  return moved;
}

void __wrap_free(void *block) {
  blocks -= block != NULL;
  __real_free(block);
}

#define KEYS 600

static tree_index_handle index_ = TREE_INDEX_CLOSED, copy = TREE_INDEX_CLOSED, built = TREE_INDEX_CLOSED;
static const uint8_t *bytes_of(uint64_t key, uint8_t *room) {
  memset(room, 'k', 24);
  for (int at = 0; at < 4; at++) room[20 + at] = (uint8_t)(key >> (24 - 8 * at));
  return room;
}

/* A call that answers NO_MEMORY was refused and changed nothing, and succeeds the second time. Another that was refused got
 * by with less, as one that asked for room for all pairs at once, and did what it does with ample memory. */
static void again(int is_bytes, int (*call)(int, uint64_t), uint64_t key) {
  size_t before = tree_index_len(&index_);
  long was = refusals;
  int answer = call(is_bytes, key);
  if (answer == TREE_INDEX_NO_MEMORY) {
    WANT(refusals > was);
    WANT(tree_index_len(&index_) == before);
    answer = call(is_bytes, key);
  } else {
    got_by += refusals > was;
  }
  WANT(answer == TREE_INDEX_YES);
}

static int opens(int is_bytes, uint64_t key) {
  (void)key;
  return (is_bytes ? tree_index_bytes_new : tree_index_new)(&index_);
}

static int inserts(int is_bytes, uint64_t key) {
  uint8_t room[24];
  return is_bytes ? tree_index_bytes_insert(&index_, bytes_of(key, room), 24, key) : tree_index_insert(&index_, key, key);
}

static int upserts(int is_bytes, uint64_t key) {
  uint8_t room[24];
  return is_bytes ? tree_index_bytes_upsert(&index_, bytes_of(key, room), 24, key) : tree_index_upsert(&index_, key, key);
}

static int takes(int is_bytes, uint64_t key) {
  uint8_t room[24];
  uint64_t value = 0;
  int answer = is_bytes ? tree_index_bytes_take(&index_, bytes_of(key, room), 24, &value) : tree_index_take(&index_, key, &value);
  WANT(answer != TREE_INDEX_YES || value == key);
  return answer;
}

static int copies(int is_bytes, uint64_t key) {
  (void)is_bytes, (void)key;
  return tree_index_copy(&index_, &copy);
}

static int builds(int is_bytes, uint64_t count) {
  uint8_t keys[40 * 24];
  tree_index_entry entries[40];
  tree_index_pair pairs[40];
  WANT(count <= 40);
  for (uint64_t n = 0; n < count; n++) {
    bytes_of(n, keys + n * 24);
    entries[n] = (tree_index_entry){24, n};
    pairs[n] = (tree_index_pair){n, n};
  }
  return is_bytes ? tree_index_bytes_from_sorted(&built, keys, count * 24, entries, count) : tree_index_from_sorted(&built, pairs, count);
}

static int fills(int is_bytes, uint64_t key) {
  uint8_t low[24], high[24], keys[240];
  tree_index_entry entries[10];
  tree_index_pair pairs[10];
  size_t count = 0;
  if (!is_bytes) return tree_index_fill(&index_, TREE_INDEX_INCLUDED, key, TREE_INDEX_UNBOUNDED, 0, pairs, 10) > 0 && pairs[0].key >= key;
  int answer = tree_index_bytes_fill(&index_, TREE_INDEX_INCLUDED, bytes_of(key, low), 24, TREE_INDEX_EXCLUDED, bytes_of(KEYS, high), 24, keys, 240, entries, 10, &count);
  WANT(answer != TREE_INDEX_YES || (count > 0 && entries[0].length == 24 && memcmp(keys, low, 24) >= 0));
  return answer;
}

static int cuts(int is_bytes, uint64_t key) {
  uint8_t low[24], high[24];
  return is_bytes ? tree_index_bytes_remove_range(&index_, TREE_INDEX_INCLUDED, bytes_of(key, low), 24, TREE_INDEX_EXCLUDED, bytes_of(key + 40, high), 24)
                  : tree_index_remove_range(&index_, TREE_INDEX_INCLUDED, key, TREE_INDEX_EXCLUDED, key + 40);
}

/* Removes the keys that begin as this one does. */
static int cuts_alike(int is_bytes, uint64_t key) {
  uint8_t prefix[24], end[24];
  size_t length = 0, count = 0;
  if (!is_bytes) return tree_index_remove_range(&index_, TREE_INDEX_INCLUDED, key, TREE_INDEX_EXCLUDED, key + 256);
  int answer = tree_index_bytes_prefix_end(bytes_of(key, prefix), 23, end, 24, &length);
  if (answer != TREE_INDEX_YES) return answer;
  WANT(length == 23 && end[22] == prefix[22] + 1);
  answer = tree_index_bytes_remove_prefix(&index_, prefix, 23, &count);
  WANT(answer != TREE_INDEX_YES || count == KEYS - key);
  return answer;
}

/* All calls once, with one request refused. Returns whether there was such a request. */
static int run(int is_bytes, long at) {
  requests = 0;
  refused_at = at;
  long was = refusals;
  again(is_bytes, opens, 0);
  for (uint64_t n = 0; n < KEYS; n++) again(is_bytes, inserts, n * 217 % KEYS);
  again(is_bytes, upserts, 5);
  again(is_bytes, fills, 100);
  again(is_bytes, copies, 0);
  WANT(tree_index_len(&copy) == KEYS);
  again(is_bytes, builds, 40);
  WANT(tree_index_len(&built) == 40);
  again(is_bytes, takes, 17);
  again(is_bytes, cuts, 100);
  again(is_bytes, cuts_alike, 512);
  WANT(tree_index_len(&index_) == 512 - 41 && blocks > 0);
  tree_index_free(&copy);
  tree_index_free(&built);
  tree_index_free(&index_);
  WANT(blocks == 0);
  return refusals > was;
}

int main(void) {
  for (int is_bytes = 0; is_bytes < 2; is_bytes++) {
    long at = 1;
    got_by = 0;
    while (run(is_bytes, at)) at++;
    WANT(got_by <= 1);
    printf("C, %s: each of %ld requests for memory refused in turn: nothing lost, each call done the second time or by a smaller request, no block left\n", is_bytes ? "byte strings" : "numbers", at - 1);
  }
  return 0;
}
