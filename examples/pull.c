/* Stats a file of the panel and pulls it, over the pipes of a program that speaks the panel's side:
 *
 *     pull BANNER PATH PROGRAM [WORD..] >FILE        such as: pull features=stat_v2 /jobs/1998-toric.job panel
 *
 * The file's numbers go to standard error. Exits with the answer's number (docs/ANSWERS.md; 12 where PROGRAM is not there or ends early),
 * or 64 usage, 65 another number of bytes came than the stat said, 69 no pipes or process to be had, 74 standard output can't be written.
 * What was written before a failure is not the file. */
#define _POSIX_C_SOURCE 200809L
#define PROGRAM "pull"
#include "over_pipes.h"

enum { NOT_AS_SAID = 65, OUTPUT = 74 };
enum { KIND_OF_MODE = 0170000, LINK = 0120000 };

struct stated { int v2; uint64_t mode, size; };

static struct stated print_stat(void) {
  int v2 = word(YUGLASNO_AT_KIND) == YUGLASNO_KIND_STAT_V2;
  struct stated stated = {v2, word(v2 ? YUGLASNO_AT_V2_MODE : YUGLASNO_AT_MODE), word(v2 ? YUGLASNO_AT_V2_SIZE : YUGLASNO_AT_SIZE)};
  fprintf(stderr, "mode %" PRIo64 " size %" PRIu64 " mtime %" PRId64 "\n", stated.mode, stated.size,
          (int64_t)word(v2 ? YUGLASNO_AT_V2_MTIME : YUGLASNO_AT_MTIME));
  return stated;
}

/* Whether so many bytes are what the stat said: v1 has a size's low 32 bits, and of a symbolic link the link's own. */
static int as_said(struct stated stated, uint64_t bytes) {
  if (stated.v2) return bytes == stated.size;
  return (uint32_t)bytes == stated.size || (stated.mode & KIND_OF_MODE) == LINK;
}

/* Writes the file to standard output, and says how many bytes it had. */
static uint64_t pull(struct asked path) {
  uint64_t bytes = 0;
  check(either(YUGLASNO_CALL_RECV_V2, YUGLASNO_CALL_RECV, path));
  for (;;) {
    check(call(YUGLASNO_CALL_RECV_NEXT, (struct asked){0}));
    if (word(YUGLASNO_AT_KIND) == YUGLASNO_KIND_END) return bytes;
    bytes += word(YUGLASNO_AT_LENGTH);
    if (write_whole(STDOUT_FILENO, host.rx + word(YUGLASNO_AT_START), word(YUGLASNO_AT_LENGTH)) != 0) stop(OUTPUT, strerror(errno));
  }
}

int main(int count, char **words) {
  if (count < 4) stop(USAGE, "usage: pull BANNER PATH PROGRAM [WORD..] >FILE");
  const struct asked path = {.lent = words[2], .length = strlen(words[2]), .b = YUGLASNO_FLAG_NONE};
  start_panel(words + 3);
  check(yuglasno_settings(SETTINGS));
  open_session(words[1]);
  check(either(YUGLASNO_CALL_STAT_V2, YUGLASNO_CALL_STAT, path));
  struct stated stated = print_stat();
  if (!as_said(stated, pull(path))) stop(NOT_AS_SAID, "another number of bytes came than the stat said");
  quit();
  return 0;
}
