// Linked into a program with faults (tools/pathd_tools/attacks/planted.py): whether the fault of a
// number is chosen, by the variable PLANTED.
#include <stdbool.h>
#include <stdlib.h>

static unsigned long chosen;

__attribute__((constructor)) static void choose(void) {
  const char *word = getenv("PLANTED");
  chosen = word ? strtoul(word, NULL, 10) : 0;
}

bool planted(unsigned number) { return number == chosen; }
