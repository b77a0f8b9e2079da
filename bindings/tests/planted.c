/* Three bugs, each put between a test and the library by the linker's --wrap. The tests must find them. */
#include "tree_index.h"
#include <string.h>

#ifdef BUG_tree_index_fill
size_t __real_tree_index_fill(tree_index_handle *, uint8_t, uint64_t, uint8_t, uint64_t, tree_index_pair *, size_t);

/* Skips the fifteenth pair of a longer run, as if a walk forgot the last entry of a full leaf. */
size_t __wrap_tree_index_fill(tree_index_handle *handle, uint8_t low_kind, uint64_t low, uint8_t high_kind, uint64_t high, tree_index_pair *places, size_t count) {
  size_t filled = __real_tree_index_fill(handle, low_kind, low, high_kind, high, places, count);
  if (filled <= 15) return filled;
  memmove(&places[14], &places[15], (filled - 15) * sizeof places[0]);
  return filled - 1;
}
#endif

#ifdef BUG_tree_index_free
/* Closes the handle and keeps the block. */
void __wrap_tree_index_free(tree_index_handle *handle) { memset(handle, 0, sizeof *handle); }
#endif

#ifdef BUG_tree_index_remove
int __real_tree_index_remove(tree_index_handle *, uint64_t);

/* Says yes for no. */
int __wrap_tree_index_remove(tree_index_handle *handle, uint64_t key) {
  int answer = __real_tree_index_remove(handle, key);
  return answer == TREE_INDEX_YES ? TREE_INDEX_NO : answer == TREE_INDEX_NO ? TREE_INDEX_YES : answer;
}
#endif
