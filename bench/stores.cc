// stores KIND FILE VERB COUNT BATCH: the work of bench/storebench over SQLite, LMDB, RocksDB or LevelDB. It prints how many
// microseconds the opening took, what the verb took, and a checksum.
#include <leveldb/db.h>
#include <leveldb/write_batch.h>
#include <lmdb.h>
#include <rocksdb/db.h>
#include <rocksdb/write_batch.h>
#include <sqlite3.h>
#include <sys/stat.h>
#include <unistd.h>

#include <chrono>
#include <cstdio>
#include <cstdlib>
#include <cstring>
#include <memory>
#include <string>
#include <vector>

using Clock = std::chrono::steady_clock;

static uint64_t next_key(uint64_t key) { return key * 6364136223846793005ull + 1442695040888963407ull; }

// Eight bytes in the order of the numbers.
struct Bytes {
    char bytes[8];
    explicit Bytes(uint64_t number) {
        for (int at = 7; at >= 0; at--, number >>= 8) bytes[at] = char(number & 255);
    }
};

static uint64_t number_of(const void *from) {
    uint64_t number;
    memcpy(&number, from, 8);
    return number;
}

static uint64_t key_of(const void *from) { return __builtin_bswap64(number_of(from)); }

[[noreturn]] static void fail(const char *what) {
    fprintf(stderr, "stores: %s\n", what);
    exit(1);
}

// A store of one kind.
struct Store {
    virtual ~Store() = default;
    virtual void begin() {}
    virtual void put(uint64_t key, uint64_t value) = 0;
    virtual void commit() = 0;
    virtual uint64_t get(uint64_t key) = 0;
    virtual uint64_t walk() = 0;
    virtual void remove_half() = 0;
    virtual void begin_reads() {}
};

struct Sqlite : Store {
    sqlite3 *db = nullptr;
    sqlite3_stmt *insert, *look, *list, *begin_it, *commit_it;

    void run(const char *text) {
        if (sqlite3_exec(db, text, nullptr, nullptr, nullptr) != SQLITE_OK) fail(sqlite3_errmsg(db));
    }
    sqlite3_stmt *made(const char *text) {
        sqlite3_stmt *statement;
        if (sqlite3_prepare_v2(db, text, -1, &statement, nullptr) != SQLITE_OK) fail(sqlite3_errmsg(db));
        return statement;
    }
    static void step(sqlite3_stmt *statement) {
        if (sqlite3_step(statement) != SQLITE_DONE) fail("a step");
        sqlite3_reset(statement);
    }
    explicit Sqlite(const std::string &path) {
        if (sqlite3_open(path.c_str(), &db) != SQLITE_OK) fail("open");
        run("pragma journal_mode=WAL");
        run("pragma synchronous=FULL");
        run("create table if not exists pairs (key integer primary key, value integer)");
        insert = made("insert or replace into pairs values (?, ?)");
        look = made("select value from pairs where key = ?");
        list = made("select key, value from pairs order by key");
        begin_it = made("begin");
        commit_it = made("commit");
    }
    void begin() override { step(begin_it); }
    void begin_reads() override { step(begin_it); }
    void put(uint64_t key, uint64_t value) override {
        sqlite3_bind_int64(insert, 1, sqlite3_int64(key));
        sqlite3_bind_int64(insert, 2, sqlite3_int64(value));
        step(insert);
    }
    void commit() override { step(commit_it); }
    uint64_t get(uint64_t key) override {
        sqlite3_bind_int64(look, 1, sqlite3_int64(key));
        uint64_t value = sqlite3_step(look) == SQLITE_ROW ? uint64_t(sqlite3_column_int64(look, 0)) : 0;
        sqlite3_reset(look);
        return value;
    }
    uint64_t walk() override {
        uint64_t sum = 0;
        while (sqlite3_step(list) == SQLITE_ROW) sum += uint64_t(sqlite3_column_int64(list, 0)) ^ uint64_t(sqlite3_column_int64(list, 1)) >> 1;
        sqlite3_reset(list);
        return sum;
    }
    // Its keys have signs, so half of them are below zero.
    void remove_half() override { run("delete from pairs where key >= 0"); }
};

struct Lmdb : Store {
    MDB_env *env;
    MDB_txn *txn = nullptr;
    MDB_dbi pairs;

    static void check(int status) {
        if (status) fail(mdb_strerror(status));
    }
    explicit Lmdb(const std::string &path) {
        mkdir(path.c_str(), 0755);
        check(mdb_env_create(&env));
        check(mdb_env_set_mapsize(env, 4ull << 30));
        check(mdb_env_open(env, path.c_str(), 0, 0644));
        check(mdb_txn_begin(env, nullptr, 0, &txn));
        check(mdb_dbi_open(txn, nullptr, 0, &pairs));
        check(mdb_txn_commit(txn));
    }
    void begin() override { check(mdb_txn_begin(env, nullptr, 0, &txn)); }
    void begin_reads() override { check(mdb_txn_begin(env, nullptr, MDB_RDONLY, &txn)); }
    void put(uint64_t key, uint64_t value) override {
        Bytes bytes(key);
        MDB_val at{8, bytes.bytes}, what{8, &value};
        check(mdb_put(txn, pairs, &at, &what, 0));
    }
    void commit() override { check(mdb_txn_commit(txn)); }
    uint64_t get(uint64_t key) override {
        Bytes bytes(key);
        MDB_val at{8, bytes.bytes}, what;
        return mdb_get(txn, pairs, &at, &what) ? 0 : number_of(what.mv_data);
    }
    uint64_t walk() override {
        MDB_cursor *cursor;
        MDB_val at, what;
        uint64_t sum = 0;
        check(mdb_cursor_open(txn, pairs, &cursor));
        while (!mdb_cursor_get(cursor, &at, &what, MDB_NEXT)) sum += key_of(at.mv_data) ^ number_of(what.mv_data) >> 1;
        mdb_cursor_close(cursor);
        return sum;
    }
    void remove_half() override {
        MDB_cursor *cursor;
        MDB_val at, what;
        begin();
        check(mdb_cursor_open(txn, pairs, &cursor));
        while (!mdb_cursor_get(cursor, &at, &what, MDB_NEXT) && !(static_cast<unsigned char *>(at.mv_data)[0] & 128)) check(mdb_cursor_del(cursor, 0));
        mdb_cursor_close(cursor);
        commit();
    }
};

// RocksDB and LevelDB have the same calls.
template <class Db, class Options, class WriteOptions, class ReadOptions, class Batch, class Slice>
struct LogStore : Store {
    Db *db = nullptr;
    Batch batch;
    WriteOptions synced;

    explicit LogStore(const std::string &path) {
        Options options;
        options.create_if_missing = true;
        if (!Db::Open(options, path, &db).ok()) fail("open");
        synced.sync = true;
    }
    void put(uint64_t key, uint64_t value) override { batch.Put(Slice(Bytes(key).bytes, 8), Slice(reinterpret_cast<char *>(&value), 8)); }
    void commit() override {
        if (!db->Write(synced, &batch).ok()) fail("write");
        batch.Clear();
    }
    uint64_t get(uint64_t key) override {
        std::string value;
        return db->Get(ReadOptions(), Slice(Bytes(key).bytes, 8), &value).ok() ? number_of(value.data()) : 0;
    }
    uint64_t walk() override {
        std::unique_ptr<std::remove_pointer_t<decltype(db->NewIterator(ReadOptions()))>> it(db->NewIterator(ReadOptions()));
        uint64_t sum = 0;
        for (it->SeekToFirst(); it->Valid(); it->Next()) sum += key_of(it->key().data()) ^ number_of(it->value().data()) >> 1;
        return sum;
    }
};

using RocksBase = LogStore<rocksdb::DB, rocksdb::Options, rocksdb::WriteOptions, rocksdb::ReadOptions, rocksdb::WriteBatch, rocksdb::Slice>;
using LevelBase = LogStore<leveldb::DB, leveldb::Options, leveldb::WriteOptions, leveldb::ReadOptions, leveldb::WriteBatch, leveldb::Slice>;

struct Rocks : RocksBase {
    using RocksBase::RocksBase;
    void remove_half() override {
        Bytes low(0), high(1ull << 63);
        if (!db->DeleteRange(synced, db->DefaultColumnFamily(), rocksdb::Slice(low.bytes, 8), rocksdb::Slice(high.bytes, 8)).ok()) fail("delete");
    }
};

struct Level : LevelBase {
    using LevelBase::LevelBase;
    void remove_half() override {
        std::unique_ptr<leveldb::Iterator> it(db->NewIterator(leveldb::ReadOptions()));
        for (it->SeekToFirst(); it->Valid() && !(it->key()[0] & 128); it->Next()) batch.Delete(it->key());
        commit();
    }
};

static long long since(Clock::time_point start) { return std::chrono::duration_cast<std::chrono::microseconds>(Clock::now() - start).count(); }

static void fill(Store &store, uint64_t count, uint64_t batch) {
    uint64_t key = 1, pending = 0;
    for (uint64_t at = 0; at < count; at++) {
        if (!pending) store.begin();
        key = next_key(key);
        store.put(key, key);
        if (++pending >= batch) store.commit(), pending = 0;
    }
    if (pending) store.commit();
}

static uint64_t look_up(Store &store, uint64_t count) {
    std::vector<uint64_t> keys;
    uint64_t key = 1, sum = 0, at = 0;
    for (uint64_t each = 0; each < count; each++) keys.push_back(key = next_key(key));
    store.begin_reads();
    for (uint64_t each = 0; each < count; each++) sum += store.get(keys[at = (at + 611953) % count]);
    return sum;
}

int main(int count, char **words) {
    if (count < 4) fail("KIND FILE VERB COUNT BATCH");
    std::string kind = words[1], path = words[2], verb = words[3];
    uint64_t pairs = count > 4 ? strtoull(words[4], nullptr, 10) : 0, batch = count > 5 ? strtoull(words[5], nullptr, 10) : 1, sum = 0;
    auto start = Clock::now();
    std::unique_ptr<Store> store;
    if (kind == "sqlite") store = std::make_unique<Sqlite>(path);
    else if (kind == "lmdb") store = std::make_unique<Lmdb>(path);
    else if (kind == "rocksdb") store = std::make_unique<Rocks>(path);
    else if (kind == "leveldb") store = std::make_unique<Level>(path);
    else fail("another kind");
    long long opened = since(start);
    start = Clock::now();
    if (verb == "fill") fill(*store, pairs, batch);
    else if (verb == "look") sum = look_up(*store, pairs);
    else if (verb == "walk") store->begin_reads(), sum = store->walk();
    else if (verb == "half") store->remove_half();
    printf("%lld %lld %llu\n", opened, since(start), static_cast<unsigned long long>(sum));
    fflush(stdout);
    // Without the ends of their threads, as a program that is killed.
    _exit(0);
}
