// A server over LevelDB, RocksDB, SQLite or LMDB, with the same sockets as pathd's: a thread for
// each connection, frames of the same form. A registration's bytes are put under its last AS and
// synced before the reply; a lookup gets one value. Nothing is read or checked of a message.
//
//     server_rivals leveldb|rocksdb|sqlite|lmdb FOLDER each|batches
//
// It prints the port that it listens at. A thread reads what has come by one read, answers each
// request that is whole, and writes all these replies by one write. With `each` a registration is a
// commit of its own; with `batches` all registrations of a read, up to a lookup among them, are one
// commit. What each does for a commit:
//
// - leveldb: a synced Write. Writes that wait together are one write of the log and one sync.
// - rocksdb: a synced Write, all options as they come. As LevelDB, one sync for writes that wait.
// - sqlite: a connection for each thread, WAL, synchronous=FULL; a transaction and a sync.
// - lmdb: a write transaction, committed with syncs: one of the pages that changed, and one of the
//   meta page, which is written to a descriptor that was opened with O_DSYNC.
#include <arpa/inet.h>
#include <leveldb/db.h>
#include <leveldb/write_batch.h>
#include <lmdb.h>
#include <netinet/tcp.h>
#include <rocksdb/db.h>
#include <sqlite3.h>
#include <sys/socket.h>
#include <unistd.h>

#include <atomic>
#include <cstdio>
#include <cstring>
#include <memory>
#include <string>
#include <thread>
#include <vector>

// The offsets of the last AS in a registration and in a lookup of tools/native/load.c, and its length.
static const size_t REGISTERED_AS = 36, SOUGHT_AS = 10, AS = 7;
// The most bytes of LMDB's file, of which only what is used is taken.
static const size_t MAP = size_t{4} << 30;
// The most bytes of a read, which has to have room for a whole request.
static const size_t MOST_READ = size_t{1} << 18;

static std::string place;
static bool in_batches = false;
static std::atomic<uint64_t> next_place{0};

struct Row {
  std::string key, value;
};

// What a thread has of a store.
struct Rows {
  virtual ~Rows() = default;
  // Puts rows by one commit.
  virtual bool put(const std::vector<Row> &rows) = 0;
  virtual bool get(const std::string &key, std::string *value) = 0;
};

static leveldb::DB *level = nullptr;

struct LevelRows : Rows {
  bool put(const std::vector<Row> &rows) override {
    leveldb::WriteOptions synced;
    leveldb::WriteBatch batch;
    synced.sync = true;
    for (const Row &row : rows) batch.Put(row.key, row.value);
    return level->Write(synced, &batch).ok();
  }

  bool get(const std::string &key, std::string *value) override { return level->Get(leveldb::ReadOptions(), key, value).ok(); }
};

static rocksdb::DB *rocks = nullptr;

struct RocksRows : Rows {
  bool put(const std::vector<Row> &rows) override {
    rocksdb::WriteOptions synced;
    rocksdb::WriteBatch batch;
    synced.sync = true;
    for (const Row &row : rows) {
      if (!batch.Put(row.key, row.value).ok()) return false;
    }
    return rocks->Write(synced, &batch).ok();
  }

  bool get(const std::string &key, std::string *value) override { return rocks->Get(rocksdb::ReadOptions(), key, value).ok(); }
};

struct SqliteRows : Rows {
  sqlite3 *db = nullptr;
  sqlite3_stmt *put_row = nullptr, *get_row = nullptr;

  bool open() {
    if (sqlite3_open((place + "/rows").c_str(), &db) != SQLITE_OK) return false;
    sqlite3_busy_timeout(db, 60000);
    sqlite3_exec(db, "pragma journal_mode=wal; pragma synchronous=full; create table if not exists rows (key blob primary key, value blob) without rowid",
                 nullptr, nullptr, nullptr);
    return sqlite3_prepare_v2(db, "insert or replace into rows values (?, ?)", -1, &put_row, nullptr) == SQLITE_OK &&
           sqlite3_prepare_v2(db, "select value from rows where key = ?", -1, &get_row, nullptr) == SQLITE_OK;
  }

  ~SqliteRows() override {
    sqlite3_finalize(put_row);
    sqlite3_finalize(get_row);
    sqlite3_close(db);
  }

  bool run(const char *statement) { return sqlite3_exec(db, statement, nullptr, nullptr, nullptr) == SQLITE_OK; }

  bool put_one(const Row &row) {
    sqlite3_bind_blob(put_row, 1, row.key.data(), row.key.size(), SQLITE_STATIC);
    sqlite3_bind_blob(put_row, 2, row.value.data(), row.value.size(), SQLITE_STATIC);
    const bool is_done = sqlite3_step(put_row) == SQLITE_DONE;
    sqlite3_reset(put_row);
    return is_done;
  }

  bool put(const std::vector<Row> &rows) override {
    // A statement of its own is a transaction.
    if (rows.size() == 1) return put_one(rows[0]);
    if (!run("begin immediate")) return false;
    for (const Row &row : rows) {
      if (!put_one(row)) return false;
    }
    return run("commit");
  }

  bool get(const std::string &key, std::string *value) override {
    sqlite3_reset(get_row);
    sqlite3_bind_blob(get_row, 1, key.data(), key.size(), SQLITE_STATIC);
    if (sqlite3_step(get_row) != SQLITE_ROW) return false;
    value->assign(static_cast<const char *>(sqlite3_column_blob(get_row, 0)), sqlite3_column_bytes(get_row, 0));
    sqlite3_reset(get_row);
    return true;
  }
};

static MDB_env *env = nullptr;
static MDB_dbi all_rows;

struct LmdbRows : Rows {
  // A transaction for reading, which is renewed for each lookup.
  MDB_txn *reading = nullptr;

  ~LmdbRows() override {
    if (reading) mdb_txn_abort(reading);
  }

  bool put(const std::vector<Row> &rows) override {
    MDB_txn *txn = nullptr;
    if (mdb_txn_begin(env, nullptr, 0, &txn)) return false;
    for (const Row &row : rows) {
      MDB_val at = {row.key.size(), const_cast<char *>(row.key.data())}, value = {row.value.size(), const_cast<char *>(row.value.data())};
      if (mdb_put(txn, all_rows, &at, &value, 0)) {
        mdb_txn_abort(txn);
        return false;
      }
    }
    return mdb_txn_commit(txn) == 0;
  }

  bool get(const std::string &key, std::string *value) override {
    MDB_val at = {key.size(), const_cast<char *>(key.data())}, row;
    if (reading ? mdb_txn_renew(reading) : mdb_txn_begin(env, nullptr, MDB_RDONLY, &reading)) return false;
    const bool is_found = mdb_get(reading, all_rows, &at, &row) == 0;
    if (is_found) value->assign(static_cast<const char *>(row.mv_data), row.mv_size);
    mdb_txn_reset(reading);
    return is_found;
  }
};

static bool open_leveldb() {
  leveldb::Options options;
  options.create_if_missing = true;
  return leveldb::DB::Open(options, place + "/level", &level).ok();
}

static bool open_rocksdb() {
  rocksdb::Options options;
  options.create_if_missing = true;
  return rocksdb::DB::Open(options, place + "/rocks", &rocks).ok();
}

// Makes the table, and its log, before the threads open it: a change of the journal's mode waits for
// nobody.
static bool open_sqlite() { return SqliteRows().open(); }

static bool open_lmdb() {
  MDB_txn *txn = nullptr;
  return mdb_env_create(&env) == 0 && mdb_env_set_mapsize(env, MAP) == 0 && mdb_env_open(env, place.c_str(), 0, 0644) == 0 &&
         mdb_txn_begin(env, nullptr, 0, &txn) == 0 && mdb_dbi_open(txn, nullptr, MDB_CREATE, &all_rows) == 0 && mdb_txn_commit(txn) == 0;
}

// The rows of a store that a new thread uses, or nothing where they can't be opened.
static std::unique_ptr<Rows> rows_of_thread() {
  if (level) return std::make_unique<LevelRows>();
  if (rocks) return std::make_unique<RocksRows>();
  if (env) return std::make_unique<LmdbRows>();
  auto rows = std::make_unique<SqliteRows>();
  if (!rows->open()) return nullptr;
  return rows;
}

// The bytes that have come of a connection and are no whole request yet, or were not taken.
struct Inbox {
  std::string bytes;
  size_t from = 0;

  // Adds what one read gives. Answers whether something came.
  bool read_once(int fd) {
    const size_t kept = bytes.size() - from;
    bytes.erase(0, from);
    from = 0;
    bytes.resize(kept + MOST_READ);
    const ssize_t n = read(fd, &bytes[kept], MOST_READ);
    bytes.resize(kept + (n > 0 ? n : 0));
    return n > 0;
  }

  // Takes the next request that is whole.
  bool take(std::string *content) {
    const unsigned char *at = reinterpret_cast<const unsigned char *>(bytes.data()) + from;
    const size_t left = bytes.size() - from;
    if (left < 4) return false;
    const size_t len = size_t{at[0]} << 24 | at[1] << 16 | at[2] << 8 | at[3];
    if (left - 4 < len) return false;
    content->assign(bytes, from + 4, len);
    from += 4 + len;
    return true;
  }
};

static std::string framed(const std::string &content) {
  const size_t n = content.size();
  return std::string{char(n >> 24), char(n >> 16), char(n >> 8), char(n)} + content;
}

// That one row was updated.
static std::string acknowledgement(uint64_t at) {
  std::string content(25, '\0');
  content[0] = '\x81';
  for (int i = 0; i < 8; i++) content[1 + i] = char(at >> 8 * (7 - i));
  content[16] = 1;
  return content;
}

// Puts the rows that wait by one commit, and adds their replies.
static bool commit(Rows &rows, std::vector<Row> *waiting, std::string *replies) {
  if (waiting->empty()) return true;
  if (!rows.put(*waiting)) return false;
  for (size_t i = 0; i < waiting->size(); i++) *replies += framed(acknowledgement(next_place++));
  waiting->clear();
  return true;
}

// Answers each request that has come whole.
static bool answer_all(Rows &rows, Inbox *inbox, std::string *replies) {
  std::vector<Row> waiting;
  std::string content, value;
  while (inbox->take(&content)) {
    if (content.size() >= REGISTERED_AS + AS && content[0] == 1) {
      waiting.push_back({content.substr(REGISTERED_AS, AS), content.substr(1)});
      if (!in_batches && !commit(rows, &waiting, replies)) return false;
      continue;
    }
    if (!commit(rows, &waiting, replies)) return false;
    if (content.size() < SOUGHT_AS + AS || !rows.get(content.substr(SOUGHT_AS, AS), &value)) return false;
    *replies += framed('\x82' + value);
  }
  return commit(rows, &waiting, replies);
}

static bool write_all(int fd, const std::string &bytes) {
  for (size_t at = 0; at < bytes.size();) {
    const ssize_t n = write(fd, bytes.data() + at, bytes.size() - at);
    if (n <= 0) return false;
    at += n;
  }
  return true;
}

static void hold(int fd) {
  const std::unique_ptr<Rows> rows = rows_of_thread();
  Inbox inbox;
  std::string replies;
  int one = 1;
  setsockopt(fd, IPPROTO_TCP, TCP_NODELAY, &one, sizeof one);
  while (rows && inbox.read_once(fd)) {
    replies.clear();
    if (!answer_all(*rows, &inbox, &replies) || !write_all(fd, replies)) break;
  }
  close(fd);
}

int main(int argc, char **argv) {
  if (argc != 4) return 2;
  place = argv[2];
  in_batches = strcmp(argv[3], "batches") == 0;
  const std::string name = argv[1];
  if (name == "leveldb" && !open_leveldb()) return 2;
  if (name == "rocksdb" && !open_rocksdb()) return 2;
  if (name == "lmdb" && !open_lmdb()) return 2;
  if (name == "sqlite" && !open_sqlite()) return 2;
  int listener = socket(AF_INET, SOCK_STREAM, 0);
  sockaddr_in at{};
  socklen_t size = sizeof at;
  at.sin_family = AF_INET;
  at.sin_addr.s_addr = htonl(INADDR_LOOPBACK);
  if (bind(listener, (sockaddr *)&at, sizeof at) || listen(listener, 128) || getsockname(listener, (sockaddr *)&at, &size)) return 2;
  printf("127.0.0.1:%d\n", ntohs(at.sin_port));
  fflush(stdout);
  for (;;) {
    int fd = accept(listener, nullptr, nullptr);
    if (fd >= 0) std::thread(hold, fd).detach();
  }
}
