// What LevelDB, RocksDB, SQLite and LMDB take to open a store of as many values, and to read them all.
// Values are kept without compression.
//
//     store_rivals fill NAME VALUES PLACE     makes the store
//     store_rivals read NAME PLACE            opens it and reads all: prints bytes, clock seconds and processor seconds
//
// NAME is leveldb, rocksdb, sqlite or lmdb.
#include <leveldb/db.h>
#include <lmdb.h>
#include <rocksdb/db.h>
#include <sqlite3.h>
#include <sys/stat.h>

#include <chrono>
#include <cstdio>
#include <cstring>
#include <ctime>
#include <fstream>
#include <string>
#include <vector>

static std::vector<std::string> values_in(const char *path) {
  std::ifstream input(path, std::ios::binary);
  std::vector<std::string> values;
  unsigned char size[4];
  while (input.read(reinterpret_cast<char *>(size), 4)) {
    std::string value((size[0] << 24) | (size[1] << 16) | (size[2] << 8) | size[3], '\0');
    input.read(&value[0], value.size());
    values.push_back(value);
  }
  return values;
}

static std::string key_of(size_t number) {
  std::string key(33, '\0');
  for (int i = 0; i < 8; i++) key[i] = static_cast<char>(number >> (56 - 8 * i));
  return key;
}

static bool fill_leveldb(const char *place, const std::vector<std::string> &values) {
  leveldb::Options options;
  options.create_if_missing = true;
  options.compression = leveldb::kNoCompression;
  leveldb::DB *db = nullptr;
  if (!leveldb::DB::Open(options, place, &db).ok()) return false;
  for (size_t i = 0; i < values.size(); i++) {
    if (!db->Put(leveldb::WriteOptions(), key_of(i), values[i]).ok()) return false;
  }
  delete db;
  return true;
}

static size_t read_leveldb(const char *place) {
  leveldb::Options options;
  options.compression = leveldb::kNoCompression;
  leveldb::DB *db = nullptr;
  if (!leveldb::DB::Open(options, place, &db).ok()) return 0;
  size_t bytes = 0;
  leveldb::Iterator *at = db->NewIterator(leveldb::ReadOptions());
  for (at->SeekToFirst(); at->Valid(); at->Next()) bytes += at->value().size();
  delete at;
  delete db;
  return bytes;
}

static bool fill_sqlite(const char *place, const std::vector<std::string> &values) {
  sqlite3 *db = nullptr;
  sqlite3_stmt *put = nullptr;
  if (sqlite3_open(place, &db) != SQLITE_OK) return false;
  sqlite3_exec(db, "create table rows (key blob primary key, value blob) without rowid; begin", nullptr, nullptr, nullptr);
  if (sqlite3_prepare_v2(db, "insert into rows values (?, ?)", -1, &put, nullptr) != SQLITE_OK) return false;
  for (size_t i = 0; i < values.size(); i++) {
    const std::string key = key_of(i);
    sqlite3_bind_blob(put, 1, key.data(), static_cast<int>(key.size()), SQLITE_TRANSIENT);
    sqlite3_bind_blob(put, 2, values[i].data(), static_cast<int>(values[i].size()), SQLITE_TRANSIENT);
    if (sqlite3_step(put) != SQLITE_DONE) return false;
    sqlite3_reset(put);
  }
  sqlite3_finalize(put);
  sqlite3_exec(db, "commit", nullptr, nullptr, nullptr);
  return sqlite3_close(db) == SQLITE_OK;
}

static size_t read_sqlite(const char *place) {
  sqlite3 *db = nullptr;
  sqlite3_stmt *all = nullptr;
  if (sqlite3_open(place, &db) != SQLITE_OK) return 0;
  if (sqlite3_prepare_v2(db, "select value from rows order by key", -1, &all, nullptr) != SQLITE_OK) return 0;
  size_t bytes = 0;
  while (sqlite3_step(all) == SQLITE_ROW) bytes += static_cast<size_t>(sqlite3_column_bytes(all, 0));
  sqlite3_finalize(all);
  sqlite3_close(db);
  return bytes;
}

static bool fill_rocksdb(const char *place, const std::vector<std::string> &values) {
  rocksdb::Options options;
  options.create_if_missing = true;
  options.compression = rocksdb::kNoCompression;
  rocksdb::DB *db = nullptr;
  if (!rocksdb::DB::Open(options, place, &db).ok()) return false;
  for (size_t i = 0; i < values.size(); i++) {
    if (!db->Put(rocksdb::WriteOptions(), key_of(i), values[i]).ok()) return false;
  }
  delete db;
  return true;
}

static size_t read_rocksdb(const char *place) {
  rocksdb::DB *db = nullptr;
  if (!rocksdb::DB::Open(rocksdb::Options(), place, &db).ok()) return 0;
  size_t bytes = 0;
  rocksdb::Iterator *at = db->NewIterator(rocksdb::ReadOptions());
  for (at->SeekToFirst(); at->Valid(); at->Next()) bytes += at->value().size();
  delete at;
  delete db;
  return bytes;
}

static MDB_env *open_lmdb(const char *place) {
  MDB_env *env = nullptr;
  mkdir(place, 0755);
  const bool is_open = mdb_env_create(&env) == 0 && mdb_env_set_mapsize(env, size_t{4} << 30) == 0 && mdb_env_open(env, place, 0, 0644) == 0;
  return is_open ? env : nullptr;
}

static bool fill_lmdb(const char *place, const std::vector<std::string> &values) {
  MDB_env *env = open_lmdb(place);
  MDB_txn *txn = nullptr;
  MDB_dbi rows;
  if (!env || mdb_txn_begin(env, nullptr, 0, &txn) || mdb_dbi_open(txn, nullptr, MDB_CREATE, &rows)) return false;
  for (size_t i = 0; i < values.size(); i++) {
    std::string key = key_of(i);
    MDB_val at = {key.size(), &key[0]}, row = {values[i].size(), const_cast<char *>(values[i].data())};
    if (mdb_put(txn, rows, &at, &row, MDB_APPEND)) return false;
  }
  const bool is_kept = mdb_txn_commit(txn) == 0;
  mdb_env_close(env);
  return is_kept;
}

// Touches each value's first and last byte, since LMDB only points at them.
static size_t read_lmdb(const char *place) {
  MDB_env *env = open_lmdb(place);
  MDB_txn *txn = nullptr;
  MDB_dbi rows;
  MDB_cursor *at = nullptr;
  if (!env || mdb_txn_begin(env, nullptr, MDB_RDONLY, &txn) || mdb_dbi_open(txn, nullptr, 0, &rows) || mdb_cursor_open(txn, rows, &at)) return 0;
  size_t bytes = 0;
  unsigned sum = 0;
  MDB_val key, row;
  while (mdb_cursor_get(at, &key, &row, MDB_NEXT) == 0) {
    const unsigned char *of = static_cast<const unsigned char *>(row.mv_data);
    bytes += row.mv_size;
    sum += of[0] + of[row.mv_size - 1];
  }
  mdb_cursor_close(at);
  mdb_txn_abort(txn);
  mdb_env_close(env);
  return sum > 0 ? bytes : 0;
}

static bool fill_store(const std::string &name, const char *place, const std::vector<std::string> &values) {
  if (name == "leveldb") return fill_leveldb(place, values);
  if (name == "rocksdb") return fill_rocksdb(place, values);
  return name == "lmdb" ? fill_lmdb(place, values) : fill_sqlite(place, values);
}

static size_t read_store(const std::string &name, const char *place) {
  if (name == "leveldb") return read_leveldb(place);
  if (name == "rocksdb") return read_rocksdb(place);
  return name == "lmdb" ? read_lmdb(place) : read_sqlite(place);
}

int main(int argc, char **argv) {
  if (argc == 5 && strcmp(argv[1], "fill") == 0) return fill_store(argv[2], argv[4], values_in(argv[3])) ? 0 : 1;
  if (argc != 4) return 2;
  const auto start = std::chrono::steady_clock::now();
  const clock_t before = clock();
  const size_t bytes = read_store(argv[2], argv[3]);
  const double used = static_cast<double>(clock() - before) / CLOCKS_PER_SEC;
  const double passed = std::chrono::duration<double>(std::chrono::steady_clock::now() - start).count();
  printf("%zu %.6f %.6f\n", bytes, passed, used);
  return 0;
}
