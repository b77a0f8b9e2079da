/* The mapping over an index, by CPython's stable interface.
 *
 * The key of an index is an int between -2**63 and 2**63 - 1, a bytes or a str, as its first key is. A number is stored with
 * its sign bit turned, so that its order is that of the unsigned numbers. A str is stored as UTF-8, whose order is that of
 * code points, as a str's is. The value stored under a key is the address of an item,
 * a tuple of the key's and the value's objects, and the index owns a reference to it. So walks hand out objects that are
 * there, and allocate nothing. Each method holds the interpreter's lock throughout, and no method is in the middle of a call
 * of the library while it runs Python code.
 */
#define PY_SSIZE_T_CLEAN
#include <Python.h>
#include <string.h>

#include "tree_index.h"

enum kind { NONE, NUMBERS, BYTES, STRINGS };

typedef struct {
  PyObject_HEAD
  tree_index_handle handle;
  enum kind kind;
  /* How many writes there were: a walk ends where it meets another number. */
  uint64_t writes;
  /* Whether it takes no writes. The library refuses them too, once there is a key. */
  int is_frozen;
} Index;

/* A key on its way to the library. It owns the UTF-8 of a str: `let_go` frees that. */
typedef struct {
  enum kind kind;
  uint64_t number;
  const uint8_t *bytes;
  Py_ssize_t length;
  PyObject *owned;
} Key;

/* A bound of a walk. It owns its bytes. */
typedef struct {
  uint8_t kind;
  uint64_t number;
  PyObject *bytes;
} Bound;

static PyTypeObject *walk_type;

static uint64_t turned(uint64_t number) { return number ^ (UINT64_C(1) << 63); }

/* The item that is stored, and its parts. No reference is taken. */
static PyObject *item_of(uint64_t stored) { return (PyObject *)(uintptr_t)stored; }

static PyObject *key_in(PyObject *item) { return PyTuple_GetItem(item, 0); }

static PyObject *value_in(PyObject *item) { return PyTuple_GetItem(item, 1); }

static uint64_t stored_of(PyObject *item) { return (uint64_t)(uintptr_t)item; }

static PyObject *new_reference(PyObject *object) {
  Py_INCREF(object);
  return object;
}

static void let_go(Key *key) { Py_CLEAR(key->owned); }

/* The bytes that stand for a str. Lone surrogates have some too, in the order of code points. */
static PyObject *utf8_of(PyObject *object) { return PyUnicode_AsEncodedString(object, "utf-8", "surrogatepass"); }

/* Reads a key. Returns -1 with an exception if it is no number in range, no bytes and no str. */
static int read_key(PyObject *object, Key *key) {
  key->owned = NULL;
  if (PyLong_Check(object)) {
    int overflow;
    long long number = PyLong_AsLongLongAndOverflow(object, &overflow);
    if (overflow) {
      PyErr_SetString(PyExc_OverflowError, "an int key lies between -2**63 and 2**63 - 1");
      return -1;
    }
    if (number == -1 && PyErr_Occurred()) return -1;
    key->kind = NUMBERS;
    key->number = turned((uint64_t)number);
    return 0;
  }
  if (PyBytes_Check(object) || PyUnicode_Check(object)) {
    char *bytes;
    key->kind = PyBytes_Check(object) ? BYTES : STRINGS;
    if (key->kind == STRINGS && !(object = key->owned = utf8_of(object))) return -1;
    if (PyBytes_AsStringAndSize(object, &bytes, &key->length) < 0) return -1;
    key->bytes = (const uint8_t *)bytes;
    return 0;
  }
  if (PySlice_Check(object)) {
    PyErr_SetString(PyExc_TypeError, "an index has no slices: irange() walks from one key to another, and keys()[i:j] to a place");
    return -1;
  }
  PyErr_Format(PyExc_TypeError, "a key is an int, a bytes or a str, not %R", (PyObject *)Py_TYPE(object));
  return -1;
}

/* The same for a look-up. Returns 0 if the index can't hold the key, since it has keys of the other type or none at all. */
static int read_sought(Index *self, PyObject *object, Key *key) {
  if (read_key(object, key) < 0) {
    if (!PyErr_ExceptionMatches(PyExc_OverflowError)) return -1;
    PyErr_Clear();
    return 0;
  }
  if (self->kind == key->kind) return 1;
  let_go(key);
  if (self->kind == NONE) return 0;
  PyErr_Format(PyExc_TypeError, "the keys of this index are of another type than %R", object);
  return -1;
}

/* Returns whether the index takes writes, and raises TypeError if it doesn't. */
static int may_write(Index *self) {
  if (self->is_frozen) PyErr_SetString(PyExc_TypeError, "the index is frozen: thaw() lets it be changed again, and copy() gives one that can be changed");
  return !self->is_frozen;
}

/* Opens the handle for the first key. */
static int open_for(Index *self, enum kind kind) {
  if (!may_write(self)) return -1;
  if (self->kind == NONE) {
    int answer = kind == NUMBERS ? tree_index_new(&self->handle) : tree_index_bytes_new(&self->handle);
    if (answer != TREE_INDEX_YES) {
      PyErr_NoMemory();
      return -1;
    }
    self->kind = kind;
  }
  if (self->kind != kind) {
    PyErr_SetString(PyExc_TypeError, "an index has keys of one type: int, bytes or str");
    return -1;
  }
  return 0;
}

static int peek(Index *self, const Key *key, uint64_t *stored) {
  return key->kind == NUMBERS ? tree_index_peek(&self->handle, key->number, stored)
                              : tree_index_bytes_peek(&self->handle, key->bytes, (size_t)key->length, stored);
}

static int insert(Index *self, const Key *key, PyObject *item) {
  return key->kind == NUMBERS ? tree_index_insert(&self->handle, key->number, stored_of(item))
                              : tree_index_bytes_insert(&self->handle, key->bytes, (size_t)key->length, stored_of(item));
}

/* Stores an item in place of another, which it gives as well, if there is one. */
static int upsert(Index *self, const Key *key, PyObject *item, uint64_t *was) {
  if (key->kind == NUMBERS) {
    *was = stored_of(item);
    if (tree_index_replace(&self->handle, key->number, was) == TREE_INDEX_YES) return TREE_INDEX_YES;
  } else if (peek(self, key, was) == TREE_INDEX_YES) {
    return tree_index_bytes_upsert(&self->handle, key->bytes, (size_t)key->length, stored_of(item));
  }
  *was = 0;
  return insert(self, key, item);
}

static int take(Index *self, const Key *key, uint64_t *stored) {
  return key->kind == NUMBERS ? tree_index_take(&self->handle, key->number, stored)
                              : tree_index_bytes_take(&self->handle, key->bytes, (size_t)key->length, stored);
}

/* A new item. Its key is an int, a bytes or a str itself, whatever subclass of them it is given as. */
static PyObject *new_item(const Key *key, PyObject *name, PyObject *value) {
  PyObject *plain;
  if (key->kind == NUMBERS) {
    plain = PyLong_CheckExact(name) ? new_reference(name) : PyLong_FromLongLong((long long)turned(key->number));
  } else if (key->kind == BYTES) {
    plain = PyBytes_CheckExact(name) ? new_reference(name) : PyBytes_FromStringAndSize((const char *)key->bytes, key->length);
  } else {
    plain = PyUnicode_FromObject(name);
  }
  if (!plain) return NULL;
  PyObject *item = PyTuple_Pack(2, plain, value);
  Py_DECREF(plain);
  return item;
}

/* Stores a value under a key. Returns -1 with an exception if memory was refused. */
static int store(Index *self, PyObject *name, PyObject *value) {
  Key key;
  uint64_t was = 0;
  if (read_key(name, &key) < 0) return -1;
  /* The item comes first, since Python code may run while it is allocated. */
  PyObject *item = new_item(&key, name, value);
  int answer = TREE_INDEX_MISFIT;
  if (item && open_for(self, key.kind) == 0) {
    self->writes++;
    answer = upsert(self, &key, item, &was);
    if (answer == TREE_INDEX_NO_MEMORY) PyErr_NoMemory();
  }
  let_go(&key);
  if (answer != TREE_INDEX_YES) {
    Py_XDECREF(item);
    return -1;
  }
  if (was) Py_DECREF(item_of(was));
  return 0;
}

/* ---- walks: the keys, values or items within two bounds */

/* A walk reads this many items at first, then twice as many each time, up to the most. */
#define AT_FIRST 16
#define AHEAD 64
#define ROOM 2048

/* How many items lie between the one that a walk gives and the one whose key and value it asks the memory for. */
#define SOON 8

#if defined(__GNUC__)
#define ask_memory_for(at) __builtin_prefetch((const void *)(at))
#else
#define ask_memory_for(at) ((void)(at))
#endif

enum shows { KEYS, VALUES, ITEMS };

/* What was read ahead of one end. */
typedef struct {
  Index *index;
  Bound low, high;
  int descends, is_done;
  size_t at, count, most;
  union {
    tree_index_pair pairs[AHEAD];
    tree_index_entry entries[AHEAD];
  } read;
  /* Places for the bytes of keys. Only those of the last are read, since an item has its key. */
  uint8_t *room;
  size_t room_length;
} Ahead;

static const uint8_t *bytes_of(const Bound *bound, size_t *length) {
  static const uint8_t none = 0;
  char *bytes = NULL;
  Py_ssize_t count = 0;
  if (!bound->bytes || PyBytes_AsStringAndSize(bound->bytes, &bytes, &count) < 0) {
    *length = 0;
    return &none;
  }
  *length = (size_t)count;
  return (const uint8_t *)bytes;
}

/* Reads the next pairs. Returns -1 with an exception if memory was refused. */
static int read_ahead(Ahead *ahead) {
  Index *index = ahead->index;
  size_t most = ahead->most;
  ahead->at = ahead->count = 0;
  if (ahead->is_done) return 0;
  if (ahead->most < AHEAD) ahead->most *= 2;
  if (index->kind == NUMBERS) {
    ahead->count = (ahead->descends ? tree_index_fill_back : tree_index_fill)(
        &index->handle, ahead->low.kind, ahead->low.number, ahead->high.kind, ahead->high.number, ahead->read.pairs, most);
    ahead->is_done = ahead->count < most;
    /* The parts of a tuple lie behind its head. */
    for (size_t at = 0; at < ahead->count; at++) ask_memory_for((PyVarObject *)item_of(ahead->read.pairs[at].value) + 1);
    if (ahead->count) {
      Bound *next = ahead->descends ? &ahead->high : &ahead->low;
      next->kind = TREE_INDEX_EXCLUDED;
      next->number = ahead->read.pairs[ahead->count - 1].key;
    }
    return 0;
  }
  if (index->kind == NONE) return 0;
  for (;;) {
    size_t low_length, high_length;
    const uint8_t *low = bytes_of(&ahead->low, &low_length), *high = bytes_of(&ahead->high, &high_length);
    if (!ahead->room) {
      ahead->room = PyMem_Malloc(ROOM);
      ahead->room_length = ROOM;
    }
    if (!ahead->room) break;
    int answer = (ahead->descends ? tree_index_bytes_fill_back : tree_index_bytes_fill)(
        &index->handle, ahead->low.kind, low, low_length, ahead->high.kind, high, high_length, ahead->room, ahead->room_length,
        ahead->read.entries, most, &ahead->count);
    if (answer == TREE_INDEX_YES) {
      if (!ahead->count) return 0;
      Bound *next = ahead->descends ? &ahead->high : &ahead->low;
      size_t from = 0, last = ahead->count - 1;
      for (size_t at = 0; at < last; at++) from += ahead->read.entries[at].length;
      PyObject *key = PyBytes_FromStringAndSize((const char *)ahead->room + from, (Py_ssize_t)ahead->read.entries[last].length);
      if (!key) ahead->count = 0;
      if (!key) return -1;
      Py_XDECREF(next->bytes);
      next->kind = TREE_INDEX_EXCLUDED;
      next->bytes = key;
      return 0;
    }
    size_t needed = answer == TREE_INDEX_NO_ROOM ? ahead->count : 0;
    ahead->count = 0;
    uint8_t *larger = needed ? PyMem_Realloc(ahead->room, needed) : NULL;
    if (!larger) break;
    ahead->room = larger;
    ahead->room_length = needed;
  }
  PyErr_NoMemory();
  return -1;
}

static PyObject *stored_at(const Ahead *ahead, size_t at) {
  return item_of(ahead->index->kind == NUMBERS ? ahead->read.pairs[at].value : ahead->read.entries[at].value);
}

/* Gives the next item, without a reference. Returns 0 at the end, and -1 with an exception if memory was refused. */
static int next_of(Ahead *ahead, PyObject **item) {
  if (ahead->at == ahead->count) {
    if (read_ahead(ahead) < 0) return -1;
    if (!ahead->count) return 0;
  }
  *item = stored_at(ahead, ahead->at++);
  return 1;
}

/* Begins a walk over the pairs within two bounds, which it takes over. */
static void begin(Ahead *ahead, Index *index, Bound low, Bound high, int descends) {
  ahead->index = index;
  ahead->low = low;
  ahead->high = high;
  ahead->descends = descends;
  ahead->at = ahead->count = 0;
  ahead->is_done = 0;
  ahead->most = AT_FIRST;
  ahead->room = NULL;
}

static void end(Ahead *ahead) {
  Py_CLEAR(ahead->low.bytes);
  Py_CLEAR(ahead->high.bytes);
  PyMem_Free(ahead->room);
  ahead->room = NULL;
}

static const Bound unbounded = {TREE_INDEX_UNBOUNDED, 0, NULL};

typedef struct {
  PyObject_HEAD
  Ahead ahead;
  enum shows shows;
  uint64_t writes;
} Walk;

static int walk_traverse(PyObject *object, visitproc visit, void *arg) {
  Py_VISIT(((Walk *)object)->ahead.index);
#if PY_VERSION_HEX >= 0x03090000
  Py_VISIT(Py_TYPE(object));
#endif
  return 0;
}

static int walk_clear(PyObject *object) {
  Walk *self = (Walk *)object;
  end(&self->ahead);
  self->ahead.at = self->ahead.count = 0;
  Py_CLEAR(self->ahead.index);
  return 0;
}

static void walk_dealloc(PyObject *object) {
  PyTypeObject *type = Py_TYPE(object);
  PyObject_GC_UnTrack(object);
  walk_clear(object);
  PyObject_GC_Del(object);
  Py_DECREF(type);
}

static PyObject *walk_next(PyObject *object) {
  Walk *self = (Walk *)object;
  Index *index = self->ahead.index;
  if (!index) return NULL;
  if (self->writes != index->writes) {
    PyErr_SetString(PyExc_RuntimeError, "TreeIndex changed during iteration");
    return NULL;
  }
  PyObject *item;
  int more = next_of(&self->ahead, &item);
  if (more <= 0) {
    if (!more) Py_CLEAR(self->ahead.index);
    return NULL;
  }
  if (self->shows == ITEMS) return new_reference(item);
  PyObject *(*part)(PyObject *) = self->shows == KEYS ? key_in : value_in;
  size_t soon = self->ahead.at + SOON;
  if (soon < self->ahead.count) ask_memory_for(part(stored_at(&self->ahead, soon)));
  return new_reference(part(item));
}

static PyType_Slot walk_slots[] = {
    {Py_tp_doc, "A walk over an index."},
    {Py_tp_dealloc, walk_dealloc},
    {Py_tp_traverse, walk_traverse},
    {Py_tp_clear, walk_clear},
    {Py_tp_iter, PyObject_SelfIter},
    {Py_tp_iternext, walk_next},
    {0, NULL},
};

static PyType_Spec walk_spec = {"tree_index._core.Walk", sizeof(Walk), 0, Py_TPFLAGS_DEFAULT | Py_TPFLAGS_HAVE_GC, walk_slots};

static PyObject *walk_over(Index *index, Bound low, Bound high, int descends, enum shows shows) {
  Walk *walk = PyObject_GC_New(Walk, walk_type);
  if (!walk) {
    Py_XDECREF(low.bytes);
    Py_XDECREF(high.bytes);
    return NULL;
  }
  Py_INCREF(index);
  begin(&walk->ahead, index, low, high, descends);
  walk->shows = shows;
  walk->writes = index->writes;
  PyObject_GC_Track(walk);
  return (PyObject *)walk;
}

/* Reads one bound. None is no bound. Returns -1 with an exception, and 0 if no key of the index is on the bound's side. */
static int read_bound(Index *self, PyObject *object, int inclusive, int is_low, Bound *bound) {
  *bound = unbounded;
  if (object == Py_None) return 1;
  Key key;
  if (read_key(object, &key) < 0) {
    if (!PyErr_ExceptionMatches(PyExc_OverflowError)) return -1;
    PyErr_Clear();
    /* Past every key on one side. */
    PyObject *zero = PyLong_FromLong(0);
    int positive = zero ? PyObject_RichCompareBool(object, zero, Py_GT) : -1;
    Py_XDECREF(zero);
    return positive < 0 ? -1 : positive != is_low;
  }
  if (self->kind != NONE && self->kind != key.kind) {
    let_go(&key);
    PyErr_Format(PyExc_TypeError, "the keys of this index are of another type than %R", object);
    return -1;
  }
  bound->kind = inclusive ? TREE_INDEX_INCLUDED : TREE_INDEX_EXCLUDED;
  if (key.kind == NUMBERS) bound->number = key.number;
  else bound->bytes = key.kind == BYTES ? new_reference(object) : key.owned;
  return 1;
}

/* Reads minimum, maximum, inclusive. Returns 0 if they hold no key, and -1 with an exception. */
static int read_bounds(Index *self, PyObject *minimum, PyObject *maximum, PyObject *inclusive, Bound *low, Bound *high) {
  int low_in = 1, high_in = 1;
  *low = *high = unbounded;
  if (inclusive) {
    PyObject *one = PySequence_GetItem(inclusive, 0), *two = one ? PySequence_GetItem(inclusive, 1) : NULL;
    low_in = one && two ? PyObject_IsTrue(one) : -1;
    high_in = one && two ? PyObject_IsTrue(two) : -1;
    Py_XDECREF(one);
    Py_XDECREF(two);
    if (low_in < 0 || high_in < 0) return -1;
  }
  int some = read_bound(self, minimum, low_in, 1, low);
  int more = some < 0 ? -1 : read_bound(self, maximum, high_in, 0, high);
  if (more < 0 || !some || !more) {
    Py_CLEAR(low->bytes);
    Py_CLEAR(high->bytes);
    return some < 0 || more < 0 ? -1 : 0;
  }
  return 1;
}

/* Reads the bounds of the keys that begin with a prefix. Returns -1 with an exception. */
static int read_prefix(Index *self, PyObject *prefix, Bound *low, Bound *high) {
  Key key;
  *low = *high = unbounded;
  if (!PyBytes_Check(prefix) && !PyUnicode_Check(prefix)) {
    PyErr_Format(PyExc_TypeError, "a prefix is a bytes or a str, not %R", prefix);
    return -1;
  }
  if (read_key(prefix, &key) < 0) return -1;
  if (self->kind != NONE && self->kind != key.kind) {
    let_go(&key);
    PyErr_Format(PyExc_TypeError, "the keys of this index begin with no %R", prefix);
    return -1;
  }
  size_t length = (size_t)key.length;
  uint8_t *end = PyMem_Malloc(length ? length : 1);
  int answer = end ? tree_index_bytes_prefix_end(key.bytes, length, end, length, &length) : TREE_INDEX_NO_MEMORY;
  if (answer == TREE_INDEX_NO_MEMORY) PyErr_NoMemory();
  if (answer == TREE_INDEX_YES) {
    high->kind = TREE_INDEX_EXCLUDED;
    high->bytes = PyBytes_FromStringAndSize((const char *)end, (Py_ssize_t)length);
  }
  PyMem_Free(end);
  if (PyErr_Occurred()) {
    let_go(&key);
    return -1;
  }
  low->kind = TREE_INDEX_INCLUDED;
  low->bytes = key.kind == BYTES ? new_reference(prefix) : key.owned;
  return 0;
}

/* ---- the mapping */

/* Lets every value go. The index is empty meanwhile, as the values' destructors may see it. */
static int empty(Index *self) {
  if (self->kind == NONE) return 0;
  tree_index_handle was = self->handle;
  Index old = {.handle = was, .kind = self->kind};
  self->handle = (tree_index_handle)TREE_INDEX_CLOSED;
  self->kind = NONE;
  self->writes++;
  Ahead ahead;
  PyObject *item;
  begin(&ahead, &old, unbounded, unbounded, 0);
  int more;
  while ((more = next_of(&ahead, &item)) > 0) Py_DECREF(item);
  end(&ahead);
  tree_index_free(&old.handle);
  return more;
}

static int index_traverse(PyObject *object, visitproc visit, void *arg) {
  Index *self = (Index *)object;
#if PY_VERSION_HEX >= 0x03090000
  Py_VISIT(Py_TYPE(object));
#endif
  if (self->kind == NUMBERS) {
    tree_index_pair pairs[AHEAD];
    uint64_t low = 0;
    uint8_t kind = TREE_INDEX_UNBOUNDED;
    size_t count;
    while ((count = tree_index_fill(&self->handle, kind, low, TREE_INDEX_UNBOUNDED, 0, pairs, AHEAD))) {
      for (size_t at = 0; at < count; at++) Py_VISIT(item_of(pairs[at].value));
      low = pairs[count - 1].key;
      kind = TREE_INDEX_EXCLUDED;
    }
  }
  return 0;
}

static int index_clear(PyObject *object) {
  if (empty((Index *)object) < 0) PyErr_Clear();
  return 0;
}

static void index_dealloc(PyObject *object) {
  PyTypeObject *type = Py_TYPE(object);
  PyObject_GC_UnTrack(object);
  index_clear(object);
  ((freefunc)PyType_GetSlot(type, Py_tp_free))(object);
  Py_DECREF(type);
}

static PyObject *index_new(PyTypeObject *type, PyObject *args, PyObject *kwargs) {
  (void)args;
  (void)kwargs;
  Index *self = (Index *)((allocfunc)PyType_GetSlot(type, Py_tp_alloc))(type, 0);
  if (!self) return NULL;
  self->handle = (tree_index_handle)TREE_INDEX_CLOSED;
  self->kind = NONE;
  self->writes = 0;
  self->is_frozen = 0;
  return (PyObject *)self;
}

static Py_ssize_t index_length(PyObject *object) { return (Py_ssize_t)tree_index_len(&((Index *)object)->handle); }

static PyObject *index_subscript(PyObject *object, PyObject *sought) {
  Index *self = (Index *)object;
  Key key;
  uint64_t stored;
  int may = read_sought(self, sought, &key);
  if (may < 0) return NULL;
  int answer = may ? peek(self, &key, &stored) : TREE_INDEX_NO;
  if (may) let_go(&key);
  if (answer != TREE_INDEX_YES) {
    PyErr_SetObject(PyExc_KeyError, sought);
    return NULL;
  }
  return new_reference(value_in(item_of(stored)));
}

/* Removes a key and gives its item, or NULL with no exception if the key is absent. */
static PyObject *taken(Index *self, PyObject *sought, int *failed) {
  Key key;
  uint64_t stored;
  int may = may_write(self) ? read_sought(self, sought, &key) : -1;
  *failed = may < 0;
  if (may <= 0) return NULL;
  int answer = take(self, &key, &stored);
  let_go(&key);
  if (answer == TREE_INDEX_NO_MEMORY) {
    PyErr_NoMemory();
    *failed = 1;
  }
  if (answer != TREE_INDEX_YES) return NULL;
  self->writes++;
  return item_of(stored);
}

static int index_ass_subscript(PyObject *object, PyObject *name, PyObject *value) {
  if (value) return store((Index *)object, name, value);
  int failed;
  PyObject *was = taken((Index *)object, name, &failed);
  if (!was) {
    if (!failed) PyErr_SetObject(PyExc_KeyError, name);
    return -1;
  }
  Py_DECREF(was);
  return 0;
}

static int index_contains(PyObject *object, PyObject *sought) {
  Index *self = (Index *)object;
  Key key;
  int may = read_sought(self, sought, &key);
  if (may <= 0) return may;
  int answer = key.kind == NUMBERS ? tree_index_contains(&self->handle, key.number)
                                   : tree_index_bytes_contains(&self->handle, key.bytes, (size_t)key.length);
  let_go(&key);
  return answer == TREE_INDEX_YES;
}

static PyObject *index_iter(PyObject *object) { return walk_over((Index *)object, unbounded, unbounded, 0, KEYS); }

static PyObject *index_reversed(PyObject *object, PyObject *none) {
  (void)none;
  return walk_over((Index *)object, unbounded, unbounded, 1, KEYS);
}

static PyObject *index_walk(PyObject *object, PyObject *args) {
  int shows, descends;
  if (!PyArg_ParseTuple(args, "ip", &shows, &descends)) return NULL;
  return walk_over((Index *)object, unbounded, unbounded, descends, (enum shows)shows);
}

static PyObject *index_get(PyObject *object, PyObject *args) {
  Index *self = (Index *)object;
  PyObject *sought, *otherwise = Py_None;
  if (!PyArg_ParseTuple(args, "O|O:get", &sought, &otherwise)) return NULL;
  Key key;
  uint64_t stored;
  int may = read_sought(self, sought, &key);
  if (may < 0) return NULL;
  int answer = may ? peek(self, &key, &stored) : TREE_INDEX_NO;
  if (may) let_go(&key);
  return new_reference(answer == TREE_INDEX_YES ? value_in(item_of(stored)) : otherwise);
}

/* Appends the values of some numbers to a list, or the default in place of one that is absent or that `fits` rules out. */
static int append_many(Index *self, const uint64_t *numbers, const uint8_t *fits, size_t count, PyObject *otherwise, PyObject *values) {
  uint64_t stored[AHEAD];
  uint8_t found[AHEAD] = {0};
  PyObject *told[AHEAD];
  if (self->kind == NUMBERS) tree_index_peek_many(&self->handle, numbers, count, stored, AHEAD, found, AHEAD);
  for (size_t at = 0; at < count; at++) {
    if (found[at] && (!fits || fits[at])) ask_memory_for((PyVarObject *)item_of(stored[at]) + 1);
  }
  for (size_t at = 0; at < count; at++) told[at] = new_reference(found[at] && (!fits || fits[at]) ? value_in(item_of(stored[at])) : otherwise);
  int failed = 0;
  for (size_t at = 0; at < count; at++) {
    if (!failed) failed = PyList_Append(values, told[at]);
    Py_DECREF(told[at]);
  }
  return failed;
}

/* The values of the numbers that a bytes holds, eight bytes each, as the machine has them. */
static PyObject *index_get_packed(PyObject *object, PyObject *args) {
  Index *self = (Index *)object;
  PyObject *packed, *otherwise;
  char *bytes;
  Py_ssize_t length;
  int is_signed;
  if (!PyArg_ParseTuple(args, "SOp", &packed, &otherwise, &is_signed) || PyBytes_AsStringAndSize(packed, &bytes, &length) < 0) return NULL;
  if (self->kind != NONE && self->kind != NUMBERS && length > 0) {
    PyErr_SetString(PyExc_TypeError, "the keys of this index are no numbers");
    return NULL;
  }
  PyObject *values = PyList_New(0);
  for (Py_ssize_t from = 0; values && from < length;) {
    uint64_t numbers[AHEAD];
    uint8_t fits[AHEAD];
    size_t count = 0;
    for (; count < AHEAD && from < length; count++, from += 8) {
      memcpy(&numbers[count], bytes + from, 8);
      fits[count] = is_signed || numbers[count] < turned(0);
      numbers[count] = turned(numbers[count]);
    }
    if (append_many(self, numbers, fits, count, otherwise, values) < 0) Py_CLEAR(values);
  }
  return values;
}

/* The values of the keys that an iterable gives. */
static PyObject *index_get_each(PyObject *object, PyObject *args) {
  Index *self = (Index *)object;
  PyObject *keys, *otherwise, *sought;
  if (!PyArg_ParseTuple(args, "OO", &keys, &otherwise)) return NULL;
  PyObject *walk = PyObject_GetIter(keys), *values = walk ? PyList_New(0) : NULL;
  uint64_t numbers[AHEAD] = {0};
  uint8_t fits[AHEAD];
  size_t count = 0;
  int failed = !values;
  while (!failed && (sought = PyIter_Next(walk))) {
    Key key;
    int may = read_sought(self, sought, &key);
    if (may < 0) {
      failed = 1;
    } else if (may && key.kind != NUMBERS) {
      uint64_t stored;
      if (count > 0) failed = append_many(self, numbers, fits, count, otherwise, values);
      count = 0;
      PyObject *value = new_reference(peek(self, &key, &stored) == TREE_INDEX_YES ? value_in(item_of(stored)) : otherwise);
      let_go(&key);
      if (!failed) failed = PyList_Append(values, value);
      Py_DECREF(value);
    } else {
      fits[count] = (uint8_t)may;
      numbers[count++] = may ? key.number : 0;
      if (count == AHEAD) {
        failed = append_many(self, numbers, fits, count, otherwise, values);
        count = 0;
      }
    }
    Py_DECREF(sought);
  }
  if (failed || PyErr_Occurred() || append_many(self, numbers, fits, count, otherwise, values) < 0) Py_CLEAR(values);
  Py_XDECREF(walk);
  return values;
}

/* ---- keys and values as two arrays */

/* Puts a number of the type of an array, `q` or `d`, in place of each item. Returns -1 with an exception if a value isn't
 * one. Runs no Python code. */
static int unpack(uint64_t *stored, size_t count, char type) {
  for (size_t at = 0; at < count; at++) {
    if (at + 2 * SOON < count) ask_memory_for((PyVarObject *)item_of(stored[at + 2 * SOON]) + 1);
    if (at + SOON < count) ask_memory_for(value_in(item_of(stored[at + SOON])));
    PyObject *value = value_in(item_of(stored[at]));
    if (!PyLong_Check(value) && !(type == 'd' && PyFloat_Check(value))) {
      PyErr_Format(PyExc_TypeError, "an array of type %c has places for ints%s alone", type, type == 'd' ? " and floats" : "");
      return -1;
    }
    long long whole = type == 'q' ? PyLong_AsLongLong(value) : 0;
    double real = type == 'd' ? PyFloat_Check(value) ? PyFloat_AsDouble(value) : PyLong_AsDouble(value) : 0;
    if ((whole == -1 || real == -1) && PyErr_Occurred()) return -1;
    memcpy(&stored[at], type == 'q' ? (void *)&whole : (void *)&real, sizeof stored[at]);
  }
  return 0;
}

/* The keys between two bounds and their values, each as a bytes, eight bytes a number. Without a type no value is given. */
static PyObject *index_packed(PyObject *object, PyObject *args) {
  Index *self = (Index *)object;
  PyObject *minimum, *maximum, *inclusive, *packed = NULL;
  const char *type;
  if (!PyArg_ParseTuple(args, "OOOz", &minimum, &maximum, &inclusive, &type)) return NULL;
  if (type && strcmp(type, "q") != 0 && strcmp(type, "d") != 0) return PyErr_Format(PyExc_ValueError, "the values go to an array of type q or d, not %s", type);
  if (self->kind == BYTES || self->kind == STRINGS) return PyErr_Format(PyExc_TypeError, "the keys of this index are no numbers");
  Bound low, high;
  int some = read_bounds(self, minimum, maximum, inclusive, &low, &high);
  if (some < 0) return NULL;
  if (!some) return Py_BuildValue("(y#y#)", "", (Py_ssize_t)0, "", (Py_ssize_t)0);
  /* If both bounds are open one fill gives all. */
  size_t count = 0, places = low.kind || high.kind ? AHEAD : tree_index_len(&self->handle) + 1;
  uint64_t *keys = NULL, *values = NULL;
  do {
    void *more_keys = PyMem_Realloc(keys, places * sizeof *keys), *more_values = PyMem_Realloc(values, places * sizeof *values);
    if (more_keys) keys = more_keys;
    if (more_values) values = more_values;
    if (!more_keys || !more_values) {
      PyErr_NoMemory();
      goto out;
    }
    count += tree_index_fill_arrays(&self->handle, low.kind, low.number, high.kind, high.number, keys + count, places - count, values + count, places - count);
    places *= 2;
    if (count) low = (Bound){TREE_INDEX_EXCLUDED, keys[count - 1], NULL};
  } while (2 * count == places);
  for (size_t at = 0; at < count; at++) keys[at] = turned(keys[at]);
  if (!type || unpack(values, count, *type) == 0) packed = Py_BuildValue("(y#y#)", keys, (Py_ssize_t)(8 * count), values, (Py_ssize_t)(type ? 8 * count : 0));
out:
  PyMem_Free(keys);
  PyMem_Free(values);
  return packed;
}

static PyObject *index_setdefault(PyObject *object, PyObject *args) {
  Index *self = (Index *)object;
  PyObject *name, *value = Py_None;
  if (!PyArg_ParseTuple(args, "O|O:setdefault", &name, &value)) return NULL;
  Key key;
  uint64_t stored;
  if (read_key(name, &key) < 0) return NULL;
  PyObject *given = NULL, *item = NULL;
  if (open_for(self, key.kind) == 0) {
    if (peek(self, &key, &stored) == TREE_INDEX_YES) given = new_reference(value_in(item_of(stored)));
    else item = new_item(&key, name, value);
  }
  /* Python code may have run meanwhile: it may have emptied the index, or stored the key. */
  if (item && open_for(self, key.kind) == 0) {
    int answer = insert(self, &key, item);
    if (answer == TREE_INDEX_YES) {
      self->writes++;
      Py_INCREF(item);
      given = new_reference(value);
    } else if (answer == TREE_INDEX_NO && peek(self, &key, &stored) == TREE_INDEX_YES) {
      given = new_reference(value_in(item_of(stored)));
    } else {
      PyErr_NoMemory();
    }
  }
  Py_XDECREF(item);
  let_go(&key);
  return given;
}

static PyObject *index_pop(PyObject *object, PyObject *args) {
  PyObject *name, *otherwise = NULL;
  if (!PyArg_ParseTuple(args, "O|O:pop", &name, &otherwise)) return NULL;
  int failed;
  PyObject *item = taken((Index *)object, name, &failed);
  if (item) {
    PyObject *value = new_reference(value_in(item));
    Py_DECREF(item);
    return value;
  }
  if (failed) return NULL;
  if (otherwise) return new_reference(otherwise);
  PyErr_SetObject(PyExc_KeyError, name);
  return NULL;
}

static PyObject *index_clear_all(PyObject *object, PyObject *none) {
  (void)none;
  if (!may_write((Index *)object) || empty((Index *)object) < 0) return NULL;
  Py_RETURN_NONE;
}

/* The item at a place, counted from the end if it is below 0. The two ends cost one descent, the others a walk. */
static PyObject *item_at(Index *self, Py_ssize_t place) {
  int descends = place < 0;
  Ahead ahead;
  PyObject *item = NULL;
  Py_ssize_t before = descends ? -(place + 1) : place;
  if (self->kind == NUMBERS && before == 0) {
    tree_index_pair pair;
    if ((descends ? tree_index_last : tree_index_first)(&self->handle, &pair) == TREE_INDEX_YES) return new_reference(item_of(pair.value));
  } else {
    begin(&ahead, self, unbounded, unbounded, descends);
    int more = next_of(&ahead, &item);
    for (; more > 0 && before > 0; before--) more = next_of(&ahead, &item);
    if (more > 0) Py_INCREF(item);
    end(&ahead);
    if (more) return more > 0 ? item : NULL;
  }
  PyErr_SetString(PyExc_IndexError, "there is no such item");
  return NULL;
}

static PyObject *index_peekitem(PyObject *object, PyObject *args, PyObject *kwargs) {
  static char *names[] = {"index", NULL};
  Py_ssize_t place = -1;
  if (!PyArg_ParseTupleAndKeywords(args, kwargs, "|n:peekitem", names, &place)) return NULL;
  return item_at((Index *)object, place);
}

static PyObject *index_popitem(PyObject *object, PyObject *args, PyObject *kwargs) {
  static char *names[] = {"index", NULL};
  Py_ssize_t place = -1;
  if (!PyArg_ParseTupleAndKeywords(args, kwargs, "|n:popitem", names, &place)) return NULL;
  PyObject *item = item_at((Index *)object, place);
  if (!item) {
    if (PyErr_ExceptionMatches(PyExc_IndexError)) PyErr_SetString(PyExc_KeyError, "there is no such item");
    return NULL;
  }
  int failed;
  PyObject *was = taken((Index *)object, key_in(item), &failed);
  if (failed) {
    Py_DECREF(item);
    return NULL;
  }
  Py_XDECREF(was);
  return item;
}

static PyObject *index_irange(PyObject *object, PyObject *args, PyObject *kwargs) {
  static char *names[] = {"minimum", "maximum", "inclusive", "reverse", "show", NULL};
  PyObject *minimum = Py_None, *maximum = Py_None, *inclusive = NULL;
  int descends = 0, shows = KEYS;
  if (!PyArg_ParseTupleAndKeywords(args, kwargs, "|OOOpi:irange", names, &minimum, &maximum, &inclusive, &descends, &shows)) return NULL;
  Bound low, high;
  int some = read_bounds((Index *)object, minimum, maximum, inclusive, &low, &high);
  if (some < 0) return NULL;
  if (!some) {
    PyObject *none = PyTuple_New(0), *walk = none ? PyObject_GetIter(none) : NULL;
    Py_XDECREF(none);
    return walk;
  }
  return walk_over((Index *)object, low, high, descends, (enum shows)shows);
}

static PyObject *index_iprefix(PyObject *object, PyObject *args, PyObject *kwargs) {
  static char *names[] = {"prefix", "reverse", "show", NULL};
  PyObject *prefix;
  int descends = 0, shows = KEYS;
  if (!PyArg_ParseTupleAndKeywords(args, kwargs, "O|pi:iprefix", names, &prefix, &descends, &shows)) return NULL;
  Bound low, high;
  if (read_prefix((Index *)object, prefix, &low, &high) < 0) return NULL;
  return walk_over((Index *)object, low, high, descends, (enum shows)shows);
}

/* The item with a key, or else the nearest one on one side, or None. */
static PyObject *nearest(Index *self, PyObject *sought, int is_above) {
  Bound low = unbounded, high = unbounded;
  int some = read_bound(self, sought, 1, is_above, is_above ? &low : &high);
  if (some < 0) return NULL;
  if (!some || sought == Py_None) {
    Py_XDECREF(low.bytes);
    Py_XDECREF(high.bytes);
    if (some) PyErr_SetString(PyExc_TypeError, "a key is an int, a bytes or a str");
    if (some) return NULL;
    Py_RETURN_NONE;
  }
  if (self->kind == NUMBERS && (is_above ? low : high).kind == TREE_INDEX_INCLUDED) {
    tree_index_pair pair;
    uint64_t key = (is_above ? low : high).number;
    if ((is_above ? tree_index_at_or_above : tree_index_at_or_below)(&self->handle, key, &pair) != TREE_INDEX_YES) Py_RETURN_NONE;
    return new_reference(item_of(pair.value));
  }
  Ahead ahead;
  PyObject *item = NULL;
  begin(&ahead, self, low, high, !is_above);
  int more = next_of(&ahead, &item);
  if (more > 0) Py_INCREF(item);
  end(&ahead);
  if (more) return more > 0 ? item : NULL;
  Py_RETURN_NONE;
}

static PyObject *index_at_or_below(PyObject *object, PyObject *sought) { return nearest((Index *)object, sought, 0); }

static PyObject *index_at_or_above(PyObject *object, PyObject *sought) { return nearest((Index *)object, sought, 1); }

/* Removes the items within two bounds, which it takes over, and gives them as a list. */
static PyObject *pop_between(Index *self, Bound low, Bound high, const char *name) {
  PyObject *items = may_write(self) ? PyList_New(0) : NULL;
  if (!items || self->kind == NONE) {
    Py_XDECREF(low.bytes);
    Py_XDECREF(high.bytes);
    return items;
  }
  Ahead ahead;
  PyObject *item;
  Py_XINCREF(low.bytes);
  Py_XINCREF(high.bytes);
  begin(&ahead, self, low, high, 0);
  uint64_t writes = self->writes;
  int more;
  while ((more = next_of(&ahead, &item)) > 0) {
    if (PyList_Append(items, item) < 0) {
      more = -1;
      break;
    }
    if (writes != self->writes) {
      /* Python code ran, and it wrote. */
      PyErr_Format(PyExc_RuntimeError, "TreeIndex changed during %s", name);
      more = -1;
      break;
    }
  }
  end(&ahead);
  if (!more && !may_write(self)) more = -1;
  int answer = TREE_INDEX_YES;
  if (!more) {
    size_t low_length, high_length;
    const uint8_t *from = bytes_of(&low, &low_length), *to = bytes_of(&high, &high_length);
    answer = self->kind == NUMBERS ? tree_index_remove_range(&self->handle, low.kind, low.number, high.kind, high.number)
                                   : tree_index_bytes_remove_range(&self->handle, low.kind, from, low_length, high.kind, to, high_length);
    if (answer == TREE_INDEX_YES) self->writes++;
    else PyErr_NoMemory();
  }
  Py_XDECREF(low.bytes);
  Py_XDECREF(high.bytes);
  if (more || answer != TREE_INDEX_YES) {
    Py_DECREF(items);
    return NULL;
  }
  /* The list has a reference to each item, so none is freed here. */
  Py_ssize_t count = PyList_Size(items);
  for (Py_ssize_t at = 0; at < count; at++) Py_DECREF(PyList_GetItem(items, at));
  return items;
}

static PyObject *index_pop_range(PyObject *object, PyObject *args, PyObject *kwargs) {
  static char *names[] = {"minimum", "maximum", "inclusive", NULL};
  PyObject *minimum = Py_None, *maximum = Py_None, *inclusive = NULL;
  if (!PyArg_ParseTupleAndKeywords(args, kwargs, "|OOO:pop_range", names, &minimum, &maximum, &inclusive)) return NULL;
  Bound low, high;
  int some = read_bounds((Index *)object, minimum, maximum, inclusive, &low, &high);
  if (some < 0 || (!some && !may_write((Index *)object))) return NULL;
  return some ? pop_between((Index *)object, low, high, "pop_range") : PyList_New(0);
}

static PyObject *index_pop_prefix(PyObject *object, PyObject *prefix) {
  Bound low, high;
  if (read_prefix((Index *)object, prefix, &low, &high) < 0) return NULL;
  return pop_between((Index *)object, low, high, "pop_prefix");
}

/* Fills an empty index with the pairs of another, and takes a reference to each item. */
static PyObject *index_copy_from(PyObject *object, PyObject *given) {
  Index *self = (Index *)object;
  if (!PyObject_TypeCheck(given, Py_TYPE(object)) || self->kind != NONE) {
    PyErr_SetString(PyExc_TypeError, "an empty index copies another of its class");
    return NULL;
  }
  Index *from = (Index *)given;
  if (!may_write(self)) return NULL;
  if (from->kind == NONE) Py_RETURN_NONE;
  if (tree_index_copy(&from->handle, &self->handle) != TREE_INDEX_YES) return PyErr_NoMemory();
  Ahead ahead;
  PyObject *item;
  self->kind = from->kind;
  begin(&ahead, self, unbounded, unbounded, 0);
  size_t count = 0, held = tree_index_len(&self->handle);
  int more;
  while ((more = next_of(&ahead, &item)) > 0) {
    Py_INCREF(item);
    count++;
  }
  end(&ahead);
  if (more < 0 || count != held) {
    /* Memory ran out in the middle: the references that were taken are given back. */
    begin(&ahead, from, unbounded, unbounded, 0);
    PyObject *type, *error, *trace;
    PyErr_Fetch(&type, &error, &trace);
    while (count > 0 && next_of(&ahead, &item) > 0) {
      Py_DECREF(item);
      count--;
    }
    end(&ahead);
    PyErr_Restore(type, error, trace);
    tree_index_free(&self->handle);
    self->kind = NONE;
    return PyErr_NoMemory();
  }
  self->writes++;
  Py_RETURN_NONE;
}

static PyObject *index_freeze(PyObject *object, PyObject *none) {
  Index *self = (Index *)object;
  (void)none;
  if (self->kind != NONE && !self->is_frozen && tree_index_freeze(&self->handle) != TREE_INDEX_YES) return PyErr_NoMemory();
  self->is_frozen = 1;
  Py_RETURN_NONE;
}

/* No other handle shares the index, so it thaws. */
static PyObject *index_thaw(PyObject *object, PyObject *none) {
  Index *self = (Index *)object;
  (void)none;
  if (self->is_frozen) tree_index_thaw(&self->handle);
  self->is_frozen = 0;
  Py_RETURN_NONE;
}

static PyObject *index_is_frozen(PyObject *object, void *none) {
  (void)none;
  return PyBool_FromLong(((Index *)object)->is_frozen);
}

static PyObject *index_depth(PyObject *object, void *none) {
  (void)none;
  return PyLong_FromSize_t(tree_index_depth(&((Index *)object)->handle));
}

static PyMethodDef index_methods[] = {
    {"__reversed__", index_reversed, METH_NOARGS, "The keys in descending order."},
    {"_walk", index_walk, METH_VARARGS, NULL},
    {"_copy_from", index_copy_from, METH_O, NULL},
    {"_get_packed", index_get_packed, METH_VARARGS, NULL},
    {"_get_each", index_get_each, METH_VARARGS, NULL},
    {"_packed", index_packed, METH_VARARGS, NULL},
    {"get", index_get, METH_VARARGS, "get(key, default=None): the value of a key, or the default."},
    {"setdefault", index_setdefault, METH_VARARGS, "setdefault(key, default=None): the value of a key, stored first if it is absent."},
    {"pop", index_pop, METH_VARARGS, "pop(key[, default]): removes a key and returns its value."},
    {"clear", index_clear_all, METH_NOARGS, "Removes every item. The next key decides the type of the keys."},
    {"peekitem", (PyCFunction)(void (*)(void))index_peekitem, METH_VARARGS | METH_KEYWORDS, "peekitem(index=-1): the item at a place. The first and the last cost one descent, the others a walk."},
    {"popitem", (PyCFunction)(void (*)(void))index_popitem, METH_VARARGS | METH_KEYWORDS, "popitem(index=-1): removes the item at a place and returns it."},
    {"irange", (PyCFunction)(void (*)(void))index_irange, METH_VARARGS | METH_KEYWORDS, "irange(minimum=None, maximum=None, inclusive=(True, True), reverse=False): the keys from one to another."},
    {"pop_range", (PyCFunction)(void (*)(void))index_pop_range, METH_VARARGS | METH_KEYWORDS, "pop_range(minimum=None, maximum=None, inclusive=(True, True)): removes the items from one key to another and returns them."},
    {"iprefix", (PyCFunction)(void (*)(void))index_iprefix, METH_VARARGS | METH_KEYWORDS, "iprefix(prefix, reverse=False): the keys that begin with a prefix."},
    {"pop_prefix", index_pop_prefix, METH_O, "pop_prefix(prefix): removes the items whose keys begin with a prefix and returns them."},
    {"at_or_below", index_at_or_below, METH_O, "at_or_below(key): the item with a key, or else with the next smaller one, or None."},
    {"at_or_above", index_at_or_above, METH_O, "at_or_above(key): the item with a key, or else with the next larger one, or None."},
    {"freeze", index_freeze, METH_NOARGS, "Refuses every write from now on by TypeError, so that who reads the index needs no copy."},
    {"thaw", index_thaw, METH_NOARGS, "Lets a frozen index be changed again."},
    {NULL, NULL, 0, NULL},
};

static PyGetSetDef index_fields[] = {
    {"depth", index_depth, NULL, "How many levels of nodes there are.", NULL},
    {"is_frozen", index_is_frozen, NULL, "Whether the index refuses writes.", NULL},
    {NULL, NULL, NULL, NULL, NULL},
};

static PyType_Slot index_slots[] = {
    {Py_tp_doc, "An ordered index of objects by int, bytes or str keys."},
    {Py_tp_new, index_new},
    {Py_tp_dealloc, index_dealloc},
    {Py_tp_traverse, index_traverse},
    {Py_tp_clear, index_clear},
    {Py_tp_iter, index_iter},
    {Py_tp_methods, index_methods},
    {Py_tp_getset, index_fields},
    {Py_mp_length, index_length},
    {Py_mp_subscript, index_subscript},
    {Py_mp_ass_subscript, index_ass_subscript},
    {Py_sq_contains, index_contains},
    {0, NULL},
};

static PyType_Spec index_spec = {"tree_index._core.Index", sizeof(Index), 0, Py_TPFLAGS_DEFAULT | Py_TPFLAGS_BASETYPE | Py_TPFLAGS_HAVE_GC, index_slots};

static struct PyModuleDef module = {PyModuleDef_HEAD_INIT, "_core", NULL, -1, NULL, NULL, NULL, NULL, NULL};

PyMODINIT_FUNC PyInit__core(void) {
  PyObject *made = PyModule_Create(&module);
  if (!made) return NULL;
  PyObject *walk = PyType_FromSpec(&walk_spec), *index = PyType_FromSpec(&index_spec);
  if (!walk || !index || PyModule_AddObject(made, "Index", index) < 0) {
    Py_XDECREF(walk);
    Py_XDECREF(index);
    Py_DECREF(made);
    return NULL;
  }
  walk_type = (PyTypeObject *)walk;
  return made;
}
