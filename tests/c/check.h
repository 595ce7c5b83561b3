/* Checks of a program of tests/c, counted: what does not hold is said with its line. */
#include <stdio.h>

static int passed, failed;

#define CHECK(what) check(what, #what, __LINE__)

static void check(int held, const char *what, int line) {
  if (held) {
    passed++;
  } else {
    failed++;
    printf("line %d: not so: %s\n", line, what);
  }
}
