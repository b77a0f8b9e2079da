/* TreeIndex: an ordered index of pairs of a key and a value, for C.
 *
 * The keys of an index are 64-bit numbers, or strings of bytes in the order of memcmp, a prefix first. The values are
 * 64-bit numbers. The index is the static library libtree_index_c.a, written in Rattle, whose every call is proved to
 * answer as a sorted list of pairs does.
 *
 *     tree_index_handle index = TREE_INDEX_CLOSED;
 *     uint64_t value;
 *     if (tree_index_new(&index) != TREE_INDEX_YES) return 1;
 *     tree_index_insert(&index, 7, 70);
 *     if (tree_index_peek(&index, 7, &value) == TREE_INDEX_YES) printf("%" PRIu64 "\n", value);
 *     tree_index_free(&index);
 *
 * What a caller must see to, since nothing checks it:
 *
 *   - A handle begins as TREE_INDEX_CLOSED. After that only the calls below write to it, and it isn't copied. To move it,
 *     assign it and close the old one: `new = old; old = (tree_index_handle)TREE_INDEX_CLOSED;`.
 *   - One call at a time has a handle, look-ups too: each takes the index out of its handle and puts it back, so a second
 *     call meanwhile would find the handle half written. Threads that share one take a lock around each call. To read at
 *     once without a lock, each has a handle of its own, which tree_index_share opens on a frozen index. A handle may go
 *     from thread to thread.
 *   - No pointer is null, not even that of an array of length 0. Arrays have at least the length that is passed, and the
 *     things that one call is passed pointers to don't overlap.
 *   - No call is made from a signal handler, or in the forked child of a process with threads.
 *   - malloc, realloc and free are those of one allocator, and their blocks are aligned to 16.
 *
 * What a caller needn't see to: a call on a closed handle, on one that is open already, on one that was freed, or on one
 * that has the other kind of key answers TREE_INDEX_MISFIT, or 0 where it answers a number, and changes nothing.
 *
 * Compare an answer with TREE_INDEX_YES. Failures are negative, so an answer below 0 means that the call couldn't be made.
 *
 * Costs are given in n, the number of pairs: a descent compares a key with O(log n) others. If it cannot allocate, a call
 * answers TREE_INDEX_NO_MEMORY, and the pairs are as they were. Only the shape may have changed: an insert or an upsert may
 * have made the tree deeper. Places that a call has nothing for keep what they held.
 */
#ifndef TREE_INDEX_H
#define TREE_INDEX_H

#include <stdbool.h>
#include <stddef.h>
#include <stdint.h>

#ifdef __cplusplus
extern "C" {
#endif

/* A handle. Its fields are the library's alone. */
typedef struct tree_index_handle {
  void *at;
  bool is_open;
} tree_index_handle;

/* What a handle begins as: `tree_index_handle index = TREE_INDEX_CLOSED;`. */
#define TREE_INDEX_CLOSED {0, 0}

/* A pair of an index of numbers. */
typedef struct tree_index_pair {
  uint64_t key;
  uint64_t value;
} tree_index_pair;

/* The length of a key of bytes, which lie elsewhere, and its value. */
typedef struct tree_index_entry {
  size_t length;
  uint64_t value;
} tree_index_entry;

/* The kinds of a bound. Any other kind is TREE_INDEX_UNBOUNDED too. */
enum { TREE_INDEX_UNBOUNDED = 0, TREE_INDEX_INCLUDED = 1, TREE_INDEX_EXCLUDED = 2 };

/* Declarations, written by bindings/declarations. */

/* What a call answers. */
enum {
  /* No: the key is absent, or present where it must not be, or there is no pair. */
  TREE_INDEX_NO = 0,
  /* Yes: it was done. */
  TREE_INDEX_YES = 1,
  /* An allocation failed. The pairs are as they were. */
  TREE_INDEX_NO_MEMORY = -1,
  /* The handle doesn't fit the call: it is closed, or open where it must be closed, or has the
   * other kind of key, or its index is frozen where it must not be, or not where it must be.
   * Nothing changed. */
  TREE_INDEX_MISFIT = -2,
  /* The places that the caller passed are too few for a key. Nothing changed but the length that
   * is reported. */
  TREE_INDEX_NO_ROOM = -3,
};

/* Writes the value of a key. Answers TREE_INDEX_NO, and writes nothing, if the key is absent.
 * Runs in O(log n). Copies nothing. */
int tree_index_bytes_peek(tree_index_handle *handle, const uint8_t *key, size_t key_length, uint64_t *value);

/* Answers whether a key is present. Runs in O(log n). Copies nothing. */
int tree_index_bytes_contains(tree_index_handle *handle, const uint8_t *key, size_t key_length);

/* Writes the pair with the smallest key. Answers TREE_INDEX_NO, and writes nothing, if there is
 * no pair, and TREE_INDEX_NO_ROOM if the key has too few places: the entry is written then, and
 * tells the key's length. Runs in O(log n). */
int tree_index_bytes_first(tree_index_handle *handle, uint8_t *key, size_t key_length, tree_index_entry *entry);

/* Writes the pair with the largest key. Answers as tree_index_bytes_first does. Runs in O(log
 * n). */
int tree_index_bytes_last(tree_index_handle *handle, uint8_t *key, size_t key_length, tree_index_entry *entry);

/* Writes the pair with a key, or else the one with the next smaller key. Answers as
 * tree_index_bytes_first does. Runs in O(log n). Copies the key meanwhile. */
int tree_index_bytes_at_or_below(tree_index_handle *handle, const uint8_t *sought, size_t sought_length, uint8_t *key, size_t key_length, tree_index_entry *entry);

/* Writes the pair with a key, or else the one with the next larger key. Answers as
 * tree_index_bytes_first does. Runs in O(log n). Copies the key meanwhile. */
int tree_index_bytes_at_or_above(tree_index_handle *handle, const uint8_t *sought, size_t sought_length, uint8_t *key, size_t key_length, tree_index_entry *entry);

/* Writes the end of a prefix and its length. The end is the least key that is larger than all
 * keys that begin with the prefix: these are the keys from the prefix, included, up to its end,
 * excluded. Answers TREE_INDEX_NO and writes nothing if there is no end, since the prefix is
 * empty or each of its bytes is 255: then all keys from the prefix on begin with it. Answers
 * TREE_INDEX_NO_ROOM if the end has too few places, and writes its length. An end is never
 * longer than its prefix. Runs in the length of the prefix. Copies the end meanwhile. */
int tree_index_bytes_prefix_end(const uint8_t *prefix, size_t prefix_length, uint8_t *end, size_t end_length, size_t *length);

/* Removes every pair whose key begins with a prefix, and writes how many there were. The number
 * is sure unless the index had 2^64 pairs or more. Answers TREE_INDEX_YES, also if there was
 * none. Makes O(log n) comparisons, and frees the leaves between the first pair and the last
 * whole. Copies the prefix and its end meanwhile. */
int tree_index_bytes_remove_prefix(tree_index_handle *handle, const uint8_t *prefix, size_t prefix_length, size_t *count);

/* Writes the first pairs whose keys are within both bounds, in ascending order, and how many.
 * Stops at the first key that has no room in what is left of `keys`, and at the last of
 * `entries`. TREE_INDEX_YES with a count of 0 means that there is no pair, or no entry. `keys`
 * gets the bytes of one key after another, and `entries` the length and the value of each.
 * Answers TREE_INDEX_NO_ROOM if even the first key has no room, and writes its length to
 * `count`. Runs in O(log n) and the number of entries. Copies the keys of the bounds meanwhile. */
int tree_index_bytes_fill(tree_index_handle *handle, uint8_t low_kind, const uint8_t *low, size_t low_length, uint8_t high_kind, const uint8_t *high, size_t high_length, uint8_t *keys, size_t keys_length, tree_index_entry *entries, size_t entries_length, size_t *count);

/* Does what tree_index_bytes_fill does from the other end: the last pairs, in descending order. */
int tree_index_bytes_fill_back(tree_index_handle *handle, uint8_t low_kind, const uint8_t *low, size_t low_length, uint8_t high_kind, const uint8_t *high, size_t high_length, uint8_t *keys, size_t keys_length, tree_index_entry *entries, size_t entries_length, size_t *count);

/* Removes every pair whose key is within both bounds. Answers TREE_INDEX_YES, also if there was
 * none. Makes O(log n) comparisons, and frees the leaves between the bounds whole. Copies the
 * keys of the bounds meanwhile. */
int tree_index_bytes_remove_range(tree_index_handle *handle, uint8_t low_kind, const uint8_t *low, size_t low_length, uint8_t high_kind, const uint8_t *high, size_t high_length);

/* Opens a closed handle on an index of pairs whose keys strictly ascend. `keys` has the bytes of
 * one key after another, and `entries` the length and the value of each. Answers TREE_INDEX_NO
 * if the keys don't ascend, or if two are equal, and TREE_INDEX_NO_ROOM if they have more bytes
 * than `keys`. The handle stays closed then. Compares each key with the next, and gathers the
 * pairs into whole leaves. Copies the keys, and the pairs meanwhile. */
int tree_index_bytes_from_sorted(tree_index_handle *handle, const uint8_t *keys, size_t keys_length, const tree_index_entry *entries, size_t entries_length);

/* Opens a closed handle on a new, empty index of byte strings. Allocates one block. */
int tree_index_bytes_new(tree_index_handle *handle);

/* Stores a pair if its key is absent, with a copy of the key. Answers TREE_INDEX_NO, and changes
 * nothing, if it is present. Runs in O(log n). Allocates at most the copy, a copy of a key
 * between leaves, a leaf, a node a level and a new root. */
int tree_index_bytes_insert(tree_index_handle *handle, const uint8_t *key, size_t key_length, uint64_t value);

/* Stores a pair with a copy of its key, in place of one with an equal key. Answers
 * TREE_INDEX_YES either way. Costs what tree_index_bytes_insert does. */
int tree_index_bytes_upsert(tree_index_handle *handle, const uint8_t *key, size_t key_length, uint64_t value);

/* Removes the pair with a key. Answers whether there was one. Runs in O(log n). Copies the key
 * meanwhile. */
int tree_index_bytes_remove(tree_index_handle *handle, const uint8_t *key, size_t key_length);

/* Removes the pair with a key and writes its value. Answers TREE_INDEX_NO, and writes nothing,
 * if the key is absent. Runs in O(log n). Copies the key meanwhile. */
int tree_index_bytes_take(tree_index_handle *handle, const uint8_t *key, size_t key_length, uint64_t *value);

/* Removes the pair with the smallest key and writes it. Answers TREE_INDEX_NO, and writes
 * nothing, if there is none, and TREE_INDEX_NO_ROOM if the key has too few places: the pair
 * stays then, and the entry tells its length. Runs in O(log n). Allocates nothing. */
int tree_index_bytes_pop_first(tree_index_handle *handle, uint8_t *key, size_t key_length, tree_index_entry *entry);

/* Removes the pair with the largest key and writes it. Answers as tree_index_bytes_pop_first
 * does. Runs in O(log n). Allocates nothing. */
int tree_index_bytes_pop_last(tree_index_handle *handle, uint8_t *key, size_t key_length, tree_index_entry *entry);

/* Opens the closed handle `to` on a copy of the index of `from`, which isn't frozen even if that
 * one is. If an allocation fails, `to` stays closed. Runs in O(n). */
int tree_index_copy(tree_index_handle *from, tree_index_handle *to);

/* Freezes the index of a handle: other handles can share it from now on, and it can't be
 * changed. Answers TREE_INDEX_MISFIT if it is frozen. Calls that would change a frozen index
 * answer TREE_INDEX_MISFIT, and all others answer as before. Runs in constant time. Allocates
 * one block. */
int tree_index_freeze(tree_index_handle *handle);

/* Opens the closed handle `to` on the frozen index of `from`, without a copy. Another thread may
 * use it then while this one uses `from`. Answers TREE_INDEX_MISFIT if the index isn't frozen.
 * If an allocation fails, `to` stays closed. The index is freed with the last handle that shares
 * it. Runs in constant time. Allocates one block. */
int tree_index_share(tree_index_handle *from, tree_index_handle *to);

/* Lets the frozen index of a handle be changed again. Answers TREE_INDEX_NO if other handles
 * share it: it stays frozen then. Answers TREE_INDEX_MISFIT if it isn't frozen. Runs in constant
 * time. Allocates nothing. */
int tree_index_thaw(tree_index_handle *handle);

/* Frees the index of a handle and closes the handle. Does nothing to a closed one. Runs in O(n). */
void tree_index_free(tree_index_handle *handle);

/* Returns the number of pairs, or 2^64 - 1 if there are more, and 0 if the handle is closed.
 * Runs in constant time. */
size_t tree_index_len(tree_index_handle *handle);

/* Returns the number of levels of nodes, and 0 if the handle is closed. An index has no level
 * before its first pair and after it was cleared, and keeps one when its last pair is removed.
 * Runs in constant time. */
size_t tree_index_depth(tree_index_handle *handle);

/* Returns how many writes are sure not to allocate an array, whatever their keys, and 0 if the
 * handle is closed. Runs in O(n). */
uint8_t tree_index_spare(tree_index_handle *handle);

/* Removes all pairs. Answers TREE_INDEX_YES, also if there was none. Runs in O(n). Keeps the
 * memory for later pairs. */
int tree_index_clear(tree_index_handle *handle);

/* Writes the keys of the first pairs that are within both bounds to `keys`, and their values to
 * the same places of `values`, in ascending order, as many as there are places of both. Returns
 * how many it wrote, as tree_index_fill does. */
size_t tree_index_fill_arrays(tree_index_handle *handle, uint8_t low_kind, uint64_t low, uint8_t high_kind, uint64_t high, uint64_t *keys, size_t keys_length, uint64_t *values, size_t values_length);

/* Does what tree_index_fill_arrays does from the other end: the last pairs, in descending order. */
size_t tree_index_fill_arrays_back(tree_index_handle *handle, uint8_t low_kind, uint64_t low, uint8_t high_kind, uint64_t high, uint64_t *keys, size_t keys_length, uint64_t *values, size_t values_length);

/* Looks up each of `keys`, eight at a time. Writes the value of each to the same place of
 * `values`, and 1 to that of `found`. If a key is absent, it writes 0 to both. Answers
 * TREE_INDEX_NO_ROOM, and writes nothing, if there are fewer places of either than keys. Makes
 * the comparisons of a single look-up for each key. Allocates nothing. */
int tree_index_peek_many(tree_index_handle *handle, const uint64_t *keys, size_t keys_length, uint64_t *values, size_t values_length, uint8_t *found, size_t found_length);

/* Writes the value of a key. Answers TREE_INDEX_NO, and writes nothing, if the key is absent.
 * Runs in O(log n). */
int tree_index_peek(tree_index_handle *handle, uint64_t key, uint64_t *value);

/* Answers whether a key is present. Runs in O(log n). */
int tree_index_contains(tree_index_handle *handle, uint64_t key);

/* Writes the pair with the smallest key. Answers TREE_INDEX_NO, and writes nothing, if there is
 * no pair. Runs in O(log n). */
int tree_index_first(tree_index_handle *handle, tree_index_pair *pair);

/* Writes the pair with the largest key. Answers TREE_INDEX_NO, and writes nothing, if there is
 * no pair. Runs in O(log n). */
int tree_index_last(tree_index_handle *handle, tree_index_pair *pair);

/* Writes the pair with a key, or else the one with the next smaller key. Answers TREE_INDEX_NO,
 * and writes nothing, if there is neither. Runs in O(log n). */
int tree_index_at_or_below(tree_index_handle *handle, uint64_t key, tree_index_pair *pair);

/* Writes the pair with a key, or else the one with the next larger key. Answers TREE_INDEX_NO,
 * and writes nothing, if there is neither. Runs in O(log n). */
int tree_index_at_or_above(tree_index_handle *handle, uint64_t key, tree_index_pair *pair);

/* Writes the first pairs whose keys are within both bounds, in ascending order, as many as there
 * are places. Returns how many it wrote, and 0 if the handle holds no index of numbers. Fewer
 * than there are places means that there are no others. Runs in O(log n) and the number of
 * places. */
size_t tree_index_fill(tree_index_handle *handle, uint8_t low_kind, uint64_t low, uint8_t high_kind, uint64_t high, tree_index_pair *places, size_t places_length);

/* Writes the last pairs whose keys are within both bounds, in descending order, as many as there
 * are places. Returns how many it wrote, and 0 if the handle holds no index of numbers. Fewer
 * than there are places means that there are no others. Runs in O(log n) and the number of
 * places. */
size_t tree_index_fill_back(tree_index_handle *handle, uint8_t low_kind, uint64_t low, uint8_t high_kind, uint64_t high, tree_index_pair *places, size_t places_length);

/* Removes every pair whose key is within both bounds. Answers TREE_INDEX_YES, also if there was
 * none. Makes O(log n) comparisons, and frees the leaves between the bounds whole. Allocates
 * nothing. */
int tree_index_remove_range(tree_index_handle *handle, uint8_t low_kind, uint64_t low, uint8_t high_kind, uint64_t high);

/* Opens a closed handle on an index of these pairs, whose keys strictly ascend. Answers
 * TREE_INDEX_NO if they don't, or if two are equal. The handle stays closed then. Compares each
 * key with the next, and gathers the pairs into whole leaves. Copies the pairs meanwhile. */
int tree_index_from_sorted(tree_index_handle *handle, const tree_index_pair *pairs, size_t pairs_length);

/* Opens a closed handle on a new, empty index of numbers. Allocates one block. */
int tree_index_new(tree_index_handle *handle);

/* Stores a pair if its key is absent. Answers TREE_INDEX_NO, and changes nothing, if it is
 * present. Runs in O(log n). Allocates at most a leaf, a node a level and a new root. */
int tree_index_insert(tree_index_handle *handle, uint64_t key, uint64_t value);

/* Stores a pair, in place of one with an equal key. Answers TREE_INDEX_YES either way. Runs in
 * O(log n). Allocates at most a leaf, a node a level and a new root. */
int tree_index_upsert(tree_index_handle *handle, uint64_t key, uint64_t value);

/* Swaps the value of a key with the one that is passed. Answers TREE_INDEX_NO, and changes
 * nothing, if the key is absent. Runs in O(log n). Allocates nothing. */
int tree_index_replace(tree_index_handle *handle, uint64_t key, uint64_t *value);

/* Removes the pair with a key. Answers whether there was one. Runs in O(log n). Allocates
 * nothing. */
int tree_index_remove(tree_index_handle *handle, uint64_t key);

/* Removes the pair with a key and writes its value. Answers TREE_INDEX_NO, and writes nothing,
 * if the key is absent. Runs in O(log n). Allocates nothing. */
int tree_index_take(tree_index_handle *handle, uint64_t key, uint64_t *value);

/* Removes the pair with the smallest key and writes it. Answers TREE_INDEX_NO, and writes
 * nothing, if there is none. Runs in O(log n). Allocates nothing. */
int tree_index_pop_first(tree_index_handle *handle, tree_index_pair *pair);

/* Removes the pair with the largest key and writes it. Answers TREE_INDEX_NO, and writes
 * nothing, if there is none. Runs in O(log n). Allocates nothing. */
int tree_index_pop_last(tree_index_handle *handle, tree_index_pair *pair);

/* End of the declarations. */

#ifdef __cplusplus
}
#endif
#endif
