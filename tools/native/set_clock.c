// Loaded before a program (LD_PRELOAD), it adds to the time of CLOCK_REALTIME the number of seconds
// in the file that AHEAD names, a decimal number with or without a sign. The file may change
// meanwhile. tools/pathd_tools/attacks/clocks.py uses it.
#define _GNU_SOURCE
#include <stdio.h>
#include <stdlib.h>
#include <sys/syscall.h>
#include <time.h>
#include <unistd.h>

static long ahead(void) {
  const char *path = getenv("AHEAD");
  long seconds = 0;
  FILE *file = path ? fopen(path, "re") : NULL;
  if (!file || fscanf(file, "%ld", &seconds) != 1) _exit(99);
  fclose(file);
  return seconds;
}

int clock_gettime(clockid_t which, struct timespec *now) {
  long status = syscall(SYS_clock_gettime, which, now);
  if (status == 0 && which == CLOCK_REALTIME) now->tv_sec += ahead();
  return (int)status;
}
