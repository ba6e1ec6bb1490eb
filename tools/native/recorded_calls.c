// Loaded before `pathd` (LD_PRELOAD), it writes what the program does with its store and its peers
// to the file that RECORD names, one record for each, in the order in which things happened:
//
//     letter (1), thread (4), descriptor (4), offset (8), length (4), bytes
//
// all numbers little-endian. The letters are 'W' and 'w', before and after a write of the store,
// 'S' and 's', before and after a sync, 'R', after bytes came from a peer, and 'T', before bytes go
// to one. A write that fails or is short is recorded whole by 'W', since any of it may have
// happened.
//
// SWALLOWED names a kind of sync, by what the same thread wrote last: `group` (a group's payload; of
// a group that follows another one the sync is also that of the other one's gate), `gate` (a gate of
// a journal alone), `chunks` (a checkpoint area), `half` (the gate of a half), `close` (the two gates
// of a half). Every second sync of that kind isn't made, and the program gets a success.
// CHECKPOINT and JOURNAL are the sizes of the store's parts in sectors, by which a write is judged.
// Where WRITES_ALONE is set, only 'W' is written. Where PURGES_ALONE is set, only 'W' is written, and
// only of a write with the record of a purge. tools/pathd_tools/recording.py uses it.
#define _GNU_SOURCE
#include <dlfcn.h>
#include <fcntl.h>
#include <pthread.h>
#include <stdint.h>
#include <stdlib.h>
#include <string.h>
#include <sys/socket.h>
#include <sys/syscall.h>
#include <sys/types.h>
#include <unistd.h>

enum { SECTOR = 512, OPEN = 0xa7 };

// How a purge begins in a journal, with its length before it.
static const unsigned char PURGE[] = {0, 0, 0, 9, 2};

static pthread_mutex_t lock = PTHREAD_MUTEX_INITIALIZER;
static int file = -2;
static __thread char last_kind[8] = "";
static long syncs_of_kind;

static int is_left_out(char letter, const void *bytes, size_t len) {
  if (getenv("WRITES_ALONE")) return letter != 'W';
  return getenv("PURGES_ALONE") && (letter != 'W' || !memmem(bytes, len, PURGE, sizeof PURGE));
}

static void put(char letter, int fd, off_t offset, const void *bytes, size_t len) {
  const char *path = getenv("RECORD");
  if (!path || is_left_out(letter, bytes, len)) return;
  unsigned char head[21];
  uint32_t thread = (uint32_t)syscall(SYS_gettid), length = (uint32_t)len;
  int32_t of = fd;
  uint64_t at = (uint64_t)offset;
  head[0] = (unsigned char)letter;
  memcpy(head + 1, &thread, 4);
  memcpy(head + 5, &of, 4);
  memcpy(head + 9, &at, 8);
  memcpy(head + 17, &length, 4);
  pthread_mutex_lock(&lock);
  if (file == -2) file = (int)syscall(SYS_openat, AT_FDCWD, path, O_WRONLY | O_CREAT | O_APPEND | O_CLOEXEC, 0644);
  if (syscall(SYS_write, file, head, sizeof head) != (long)sizeof head) _exit(99);
  for (size_t done = 0; done < len;) {
    long n = syscall(SYS_write, file, (const char *)bytes + done, len - done);
    if (n <= 0) _exit(99);
    done += (size_t)n;
  }
  pthread_mutex_unlock(&lock);
}

static long number(const char *name) {
  const char *word = getenv(name);
  return word ? atol(word) : 0;
}

// Notes what a write is, for the sync after it.
static void judge(const unsigned char *bytes, size_t len, off_t offset) {
  long checkpoint = number("CHECKPOINT"), journal = number("JOURNAL"), sector = (long)(offset / SECTOR);
  long half = checkpoint + 1 + journal, within = sector == 0 ? -1 : (sector - 1) % half;
  const char *kind = "group";
  if (within < 0) kind = "";
  else if (within < checkpoint) kind = "chunks";
  else if (within == checkpoint) kind = len == SECTOR ? "half" : "close";
  else if (len == SECTOR && bytes[0] == OPEN) kind = "gate";
  strcpy(last_kind, kind);
}

static int is_swallowed(void) {
  const char *kind = getenv("SWALLOWED");
  if (!kind || !*kind || strcmp(kind, last_kind) != 0) return 0;
  return __sync_fetch_and_add(&syncs_of_kind, 1) % 2 == 1;
}

ssize_t pwrite(int fd, const void *bytes, size_t len, off_t offset) {
  judge(bytes, len, offset);
  put('W', fd, offset, bytes, len);
  ssize_t done = syscall(SYS_pwrite64, fd, bytes, len, offset);
  put('w', fd, offset, NULL, 0);
  return done;
}

ssize_t pwrite64(int fd, const void *bytes, size_t len, off64_t offset) { return pwrite(fd, bytes, len, offset); }

static int synced(int fd, long call) {
  if (is_swallowed()) return 0;
  put('S', fd, 0, NULL, 0);
  int done = (int)syscall(call, fd);
  if (done == 0) put('s', fd, 0, NULL, 0);
  return done;
}

int fdatasync(int fd) { return synced(fd, SYS_fdatasync); }

int fsync(int fd) { return synced(fd, SYS_fsync); }

ssize_t recv(int fd, void *bytes, size_t len, int flags) {
  ssize_t done = syscall(SYS_recvfrom, fd, bytes, len, flags, NULL, NULL);
  if (done > 0) put('R', fd, 0, bytes, (size_t)done);
  return done;
}

ssize_t send(int fd, const void *bytes, size_t len, int flags) {
  put('T', fd, 0, bytes, len);
  return syscall(SYS_sendto, fd, bytes, len, flags, NULL, 0);
}
