// Loaded before `pathd` (LD_PRELOAD), it runs the program again and again in one process, so that a
// command over many images has one start. The words of the command end with the name of a file whose
// last letter is a digit. For each byte at standard input, a digit that takes its place, it calls the
// program's `main`. Then it writes three numbers of four bytes to the descriptor that RUN_AGAIN names:
// the status by which the program ended, and the sizes of standard output and of standard error, which
// are files. It ends when nobody asks any more. It is for commands without threads, of a program that
// keeps nothing outside of `main`.
// tools/pathd_tools/runs.py uses it.
#define _GNU_SOURCE
#include <dlfcn.h>
#include <setjmp.h>
#include <stdlib.h>
#include <string.h>
#include <sys/syscall.h>
#include <unistd.h>

typedef int main_type(int, char **, char **);

static main_type *program;
static jmp_buf before;
static int reports;

__attribute__((noreturn)) static void end(int status) {
  for (;;) syscall(SYS_exit_group, status);
}

// What the program calls at its end: it goes on before the next run.
void _exit(int status) {
  int answer[] = {status, (int)lseek(1, 0, SEEK_END), (int)lseek(2, 0, SEEK_END)};
  if (program && write(reports, answer, sizeof answer) == sizeof answer) longjmp(before, 1);
  end(status);
}

static int run_again(int count, char **words, char **variables) {
  char *last = words[count - 1];
  setjmp(before);
  if (read(0, last + strlen(last) - 1, 1) != 1) end(0);
  _exit(program(count, words, variables));
}

int __libc_start_main(main_type *called, int count, char **words, void (*init)(void), void (*fini)(void), void (*rtld_fini)(void), void *stack) {
  int (*next)(main_type *, int, char **, void (*)(void), void (*)(void), void (*)(void), void *) = dlsym(RTLD_NEXT, "__libc_start_main");
  const char *word = getenv("RUN_AGAIN");
  if (word) {
    reports = atoi(word);
    program = called;
  }
  return next(word ? run_again : called, count, words, init, fini, rtld_fini, stack);
}
