// Loaded before `pathd` (LD_PRELOAD), it makes one call fail, the one of a kind whose number
// REFUSED_NUMBER gives, from 1. The kinds, by REFUSED_KIND:
//
//     memory    malloc, realloc, aligned_alloc, posix_memalign
//     read      pread, which only the store's file sees
//     write     pwrite, as that
//     sync      fdatasync, fsync
//     length    ftruncate
//     accept    accept4
//     clone     fcntl that duplicates a descriptor
//     fstat     statx of a descriptor and lseek, by which a program learns of a file and its length
//     thread    pthread_create
//     receive   recv
//     send      send
//     setting   open, statx of a path, flock, ioctl, fchmod, posix_fadvise, socket, bind, listen,
//               getsockname, setsockopt
//
// How it fails, by REFUSED_HOW: by the name of an error, as `EIO`; `part` (half of the bytes are
// moved), `one` (one byte is moved), `torn` (half of the bytes are moved, and the call says EIO),
// `none` (it moves nothing and answers 0). With a `+` after the name of an error each further call
// of the kind fails too.
//
// When it has failed a call it makes the file REFUSED_MARK.
// tools/pathd_tools/attacks/refused_calls.py uses it.
#define _GNU_SOURCE
#include <dlfcn.h>
#include <errno.h>
#include <fcntl.h>
#include <pthread.h>
#include <stdarg.h>
#include <stdlib.h>
#include <string.h>
#include <sys/file.h>
#include <sys/ioctl.h>
#include <sys/socket.h>
#include <sys/stat.h>
#include <sys/syscall.h>
#include <sys/types.h>
#include <unistd.h>

enum kind { MEMORY, READ, WRITE, SYNC, LENGTH, ACCEPT, CLONE, FSTAT, THREAD, RECEIVE, SEND, SETTING, KINDS };

static const char *const names[KINDS] = {"memory", "read", "write", "sync", "length", "accept", "clone", "fstat", "thread", "receive", "send", "setting"};

static const struct {
  const char *name;
  int number;
} errors[] = {{"EIO", EIO},         {"ENOSPC", ENOSPC}, {"EINTR", EINTR},   {"EMFILE", EMFILE},           {"EAGAIN", EAGAIN},
              {"ENOMEM", ENOMEM},   {"EINVAL", EINVAL}, {"EPIPE", EPIPE},   {"ECONNABORTED", ECONNABORTED}, {"ECONNRESET", ECONNRESET}};

static int is_set, wanted_kind, goes_on;
static long wanted, done;
static char how[16];

static void set_up(void) {
  const char *kind = getenv("REFUSED_KIND"), *number = getenv("REFUSED_NUMBER"), *word = getenv("REFUSED_HOW");
  wanted_kind = -1;
  for (int it = 0; kind && it < KINDS; it++)
    if (!strcmp(kind, names[it])) wanted_kind = it;
  wanted = number ? atol(number) : 0;
  strncpy(how, word ? word : "", sizeof how - 1);
  size_t len = strlen(how);
  if (len && how[len - 1] == '+') {
    goes_on = 1;
    how[len - 1] = 0;
  }
  is_set = 1;
}

static int fails(enum kind kind) {
  if (!is_set) set_up();
  if ((int)kind != wanted_kind) return 0;
  long number = __sync_add_and_fetch(&done, 1);
  if (number != wanted && !(goes_on && number > wanted)) return 0;
  const char *mark = getenv("REFUSED_MARK");
  if (mark) {
    int file = (int)syscall(SYS_openat, AT_FDCWD, mark, O_WRONLY | O_CREAT | O_CLOEXEC, 0644);
    if (file >= 0) syscall(SYS_close, file);
  }
  return 1;
}

static int error_number(void) {
  for (size_t it = 0; it < sizeof errors / sizeof *errors; it++)
    if (!strcmp(how, errors[it].name)) return errors[it].number;
  return EIO;
}

// What a call that fails answers, where it is no part of a transfer.
static int failed(void) {
  if (!strcmp(how, "none")) return 0;
  errno = error_number();
  return -1;
}

ssize_t pread(int fd, void *bytes, size_t len, off_t offset) {
  if (fails(READ)) {
    if (!strcmp(how, "part") && len > 1) return syscall(SYS_pread64, fd, bytes, len / 2, offset);
    if (!strcmp(how, "one") && len > 1) return syscall(SYS_pread64, fd, bytes, 1, offset);
    return failed();
  }
  return syscall(SYS_pread64, fd, bytes, len, offset);
}

ssize_t pwrite(int fd, const void *bytes, size_t len, off_t offset) {
  if (fails(WRITE)) {
    if (!strcmp(how, "part") && len > 1) return syscall(SYS_pwrite64, fd, bytes, len / 2, offset);
    if (!strcmp(how, "one") && len > 1) return syscall(SYS_pwrite64, fd, bytes, 1, offset);
    if (!strcmp(how, "torn")) syscall(SYS_pwrite64, fd, bytes, len / 2, offset);
    return failed();
  }
  return syscall(SYS_pwrite64, fd, bytes, len, offset);
}

ssize_t pread64(int fd, void *bytes, size_t len, off64_t offset) { return pread(fd, bytes, len, offset); }

ssize_t pwrite64(int fd, const void *bytes, size_t len, off64_t offset) { return pwrite(fd, bytes, len, offset); }

int fdatasync(int fd) { return fails(SYNC) ? failed() : (int)syscall(SYS_fdatasync, fd); }

int fsync(int fd) { return fails(SYNC) ? failed() : (int)syscall(SYS_fsync, fd); }

int ftruncate(int fd, off_t len) { return fails(LENGTH) ? failed() : (int)syscall(SYS_ftruncate, fd, len); }

int ftruncate64(int fd, off64_t len) { return ftruncate(fd, len); }

void *malloc(size_t size) {
  static void *(*next)(size_t);
  if (!next) next = dlsym(RTLD_NEXT, "malloc");
  if (!fails(MEMORY)) return next(size);
  errno = ENOMEM;
  return NULL;
}

void *realloc(void *old, size_t size) {
  static void *(*next)(void *, size_t);
  if (!next) next = dlsym(RTLD_NEXT, "realloc");
  if (!fails(MEMORY)) return next(old, size);
  errno = ENOMEM;
  return NULL;
}

void *aligned_alloc(size_t align, size_t size) {
  static void *(*next)(size_t, size_t);
  if (!next) next = dlsym(RTLD_NEXT, "aligned_alloc");
  if (!fails(MEMORY)) return next(align, size);
  errno = ENOMEM;
  return NULL;
}

int posix_memalign(void **made, size_t align, size_t size) {
  static int (*next)(void **, size_t, size_t);
  if (!next) next = dlsym(RTLD_NEXT, "posix_memalign");
  return fails(MEMORY) ? ENOMEM : next(made, align, size);
}

// The network, threads and descriptors

int accept4(int fd, struct sockaddr *address, socklen_t *len, int flags) {
  return fails(ACCEPT) ? failed() : (int)syscall(SYS_accept4, fd, address, len, flags);
}

int fcntl(int fd, int command, ...) {
  va_list words;
  va_start(words, command);
  long word = va_arg(words, long);
  va_end(words);
  if ((command == F_DUPFD || command == F_DUPFD_CLOEXEC) && fails(CLONE)) return failed();
  return (int)syscall(SYS_fcntl, fd, command, word);
}

int statx(int fd, const char *path, int flags, unsigned mask, struct statx *found) {
  return fails(path && *path ? SETTING : FSTAT) ? failed() : (int)syscall(SYS_statx, fd, path, flags, mask, found);
}

off_t lseek(int fd, off_t offset, int whence) { return fails(FSTAT) ? failed() : syscall(SYS_lseek, fd, offset, whence); }

int pthread_create(pthread_t *thread, const pthread_attr_t *attributes, void *(*run)(void *), void *given) {
  static int (*next)(pthread_t *, const pthread_attr_t *, void *(*)(void *), void *);
  if (!next) next = dlsym(RTLD_NEXT, "pthread_create");
  return fails(THREAD) ? error_number() : next(thread, attributes, run, given);
}

static size_t shortened(size_t len) { return !strcmp(how, "part") && len > 1 ? len / 2 : !strcmp(how, "one") && len > 1 ? 1 : 0; }

ssize_t recv(int fd, void *bytes, size_t len, int flags) {
  if (fails(RECEIVE)) {
    size_t less = shortened(len);
    return less > 0 ? syscall(SYS_recvfrom, fd, bytes, less, flags, NULL, NULL) : failed();
  }
  return syscall(SYS_recvfrom, fd, bytes, len, flags, NULL, NULL);
}

ssize_t send(int fd, const void *bytes, size_t len, int flags) {
  if (fails(SEND)) {
    size_t less = shortened(len);
    return less > 0 ? syscall(SYS_sendto, fd, bytes, less, flags, NULL, 0) : failed();
  }
  return syscall(SYS_sendto, fd, bytes, len, flags, NULL, 0);
}

// What a program sets up once

int open(const char *path, int flags, ...) {
  va_list words;
  va_start(words, flags);
  int mode = va_arg(words, int);
  va_end(words);
  return fails(SETTING) ? failed() : (int)syscall(SYS_openat, AT_FDCWD, path, flags, mode);
}

int flock(int fd, int how_locked) { return fails(SETTING) ? failed() : (int)syscall(SYS_flock, fd, how_locked); }

int ioctl(int fd, unsigned long request, ...) {
  va_list words;
  va_start(words, request);
  void *word = va_arg(words, void *);
  va_end(words);
  return fails(SETTING) ? failed() : (int)syscall(SYS_ioctl, fd, request, word);
}

int fchmod(int fd, mode_t mode) { return fails(SETTING) ? failed() : (int)syscall(SYS_fchmod, fd, mode); }

int posix_fadvise(int fd, off_t offset, off_t len, int advice) {
  return fails(SETTING) ? error_number() : (int)syscall(SYS_fadvise64, fd, offset, len, advice);
}

int socket(int domain, int type, int protocol) { return fails(SETTING) ? failed() : (int)syscall(SYS_socket, domain, type, protocol); }

int bind(int fd, const struct sockaddr *address, socklen_t len) { return fails(SETTING) ? failed() : (int)syscall(SYS_bind, fd, address, len); }

int listen(int fd, int waiting) { return fails(SETTING) ? failed() : (int)syscall(SYS_listen, fd, waiting); }

int getsockname(int fd, struct sockaddr *address, socklen_t *len) {
  return fails(SETTING) ? failed() : (int)syscall(SYS_getsockname, fd, address, len);
}

int setsockopt(int fd, int level, int name, const void *value, socklen_t len) {
  return fails(SETTING) ? failed() : (int)syscall(SYS_setsockopt, fd, level, name, value, len);
}
