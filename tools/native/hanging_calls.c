// Loaded before `pathd` (LD_PRELOAD), it has calls on the store's file, which STORE names, wait, as on
// a device that hangs. HANGING names a file of two numbers of 4 bytes in the machine's order, which
// other processes map, too:
//
//     the sum of the kinds of calls that wait: 1 pread, 2 pwrite, 4 before a sync, 8 after a sync
//     how many calls wait now, which this library counts
//
// A call that waits looks at the first number each millisecond, and goes on once its kind is not in
// it. The call itself is that of the next library that has one, such as recorded_calls.c, or that of
// the C library. tools/pathd_tools/attacks/hanging.py uses it.
#define _GNU_SOURCE
#include <dlfcn.h>
#include <fcntl.h>
#include <stdatomic.h>
#include <stdlib.h>
#include <sys/mman.h>
#include <sys/stat.h>
#include <sys/types.h>
#include <time.h>
#include <unistd.h>

enum { READ = 1, WRITE = 2, SYNC = 4, SYNCED = 8 };

static _Atomic unsigned *shared;
static struct stat store;

__attribute__((constructor)) static void set_up(void) {
  const char *path = getenv("HANGING"), *store_path = getenv("STORE");
  if (!path || !store_path || stat(store_path, &store) != 0) return;
  int file = open(path, O_RDWR | O_CLOEXEC);
  if (file < 0) return;
  void *mapped = mmap(NULL, 2 * sizeof *shared, PROT_READ | PROT_WRITE, MAP_SHARED, file, 0);
  if (mapped != MAP_FAILED) shared = mapped;
  close(file);
}

static int is_of_store(int fd) {
  struct stat found;
  return fstat(fd, &found) == 0 && found.st_dev == store.st_dev && found.st_ino == store.st_ino;
}

static void wait_while_hanging(unsigned kind, int fd) {
  static const struct timespec millisecond = {0, 1000000};
  if (!shared || !(atomic_load(&shared[0]) & kind) || !is_of_store(fd)) return;
  atomic_fetch_add(&shared[1], 1);
  while (atomic_load(&shared[0]) & kind) nanosleep(&millisecond, NULL);
  atomic_fetch_sub(&shared[1], 1);
}

ssize_t pread(int fd, void *bytes, size_t len, off_t offset) {
  ssize_t (*next)(int, void *, size_t, off_t) = dlsym(RTLD_NEXT, "pread");
  wait_while_hanging(READ, fd);
  return next(fd, bytes, len, offset);
}

ssize_t pwrite(int fd, const void *bytes, size_t len, off_t offset) {
  ssize_t (*next)(int, const void *, size_t, off_t) = dlsym(RTLD_NEXT, "pwrite");
  wait_while_hanging(WRITE, fd);
  return next(fd, bytes, len, offset);
}

static int synced(int fd, const char *name) {
  int (*next)(int) = dlsym(RTLD_NEXT, name);
  wait_while_hanging(SYNC, fd);
  int done = next(fd);
  wait_while_hanging(SYNCED, fd);
  return done;
}

int fdatasync(int fd) { return synced(fd, "fdatasync"); }

int fsync(int fd) { return synced(fd, "fsync"); }
