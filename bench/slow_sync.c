/* A library that makes each sync of a program take longer, as on a device that is slower to keep
 * what it is given: preloaded, it waits so many microseconds, by the variable SYNC_MICROSECONDS,
 * after the system's own fdatasync or fsync, and after a pwrite to a file that was opened with
 * O_DSYNC, which is a sync too (LMDB writes its meta page so). A thread wakes from this wait with a
 * slack of a microsecond, and of 50 from all its other waits, as the system has it. */
#define _GNU_SOURCE
#include <fcntl.h>
#include <stdlib.h>
#include <sys/prctl.h>
#include <sys/syscall.h>
#include <sys/types.h>
#include <time.h>
#include <unistd.h>

static void wait_longer(void) {
  const char *word = getenv("SYNC_MICROSECONDS");
  long microseconds = word == NULL ? 0 : atol(word);
  struct timespec wait = {microseconds / 1000000, 1000 * (microseconds % 1000000)};
  if (microseconds <= 0) return;
  prctl(PR_SET_TIMERSLACK, 1000);
  clock_nanosleep(CLOCK_MONOTONIC, 0, &wait, NULL);
  prctl(PR_SET_TIMERSLACK, 0); /* the slack that the thread began with */
}

int fdatasync(int file) {
  int done = (int)syscall(SYS_fdatasync, file);
  wait_longer();
  return done;
}

int fsync(int file) {
  int done = (int)syscall(SYS_fsync, file);
  wait_longer();
  return done;
}

ssize_t pwrite(int file, const void *bytes, size_t size, off_t at) {
  ssize_t done = syscall(SYS_pwrite64, file, bytes, size, at);
  if (fcntl(file, F_GETFL) & O_DSYNC) wait_longer();
  return done;
}

ssize_t pwrite64(int file, const void *bytes, size_t size, off64_t at) { return pwrite(file, bytes, size, at); }
