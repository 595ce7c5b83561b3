/* Pushes standard input to a file of the panel in the hours that a file has, over the pipes of a program that speaks the panel's side:
 *
 *     push HOURS WHEN BANNER PATH PROGRAM [WORD..] <FILE        such as: push workshop.hours now features=sendrecv_v2 /jobs/new.job panel
 *
 * WHEN is the moment of its start in Unix seconds, or now. Exits with the answer's number (docs/ANSWERS.md): 24 for an HOURS file of another
 * form, 25 outside its hours, with nothing but QUIT written to the panel; or 64 usage, 66 HOURS or standard input can't be read, 69 no
 * pipes or process to be had. */
#define _POSIX_C_SOURCE 200809L
#define PROGRAM "push"
#include "over_pipes.h"

#include <time.h>

enum { NO_INPUT = 66 };
enum { MODE = 0100644 };

/* Reads a file or standard input to the end or the slice's: how many bytes. */
static size_t read_whole(int fd, uint8_t *bytes, size_t length) {
  size_t held = 0;
  while (held < length) {
    ssize_t n = read_some(fd, bytes + held, length - held);
    if (n < 0) stop(NO_INPUT, strerror(errno));
    if (n == 0) break;
    held += (size_t)n;
  }
  return held;
}

/* The settings with the hours of a file. What is longer than any is refused by its first bytes. */
static void load_hours(const char *name) {
  static uint8_t bytes[4096];
  FILE *file = fopen(name, "rb");
  if (!file) stop(NO_INPUT, strerror(errno));
  size_t length = read_whole(fileno(file), bytes, sizeof bytes);
  fclose(file);
  check(yuglasno_settings(SETTINGS));
  check(yuglasno_hours(SETTINGS, bytes, length));
}

/* The moment that is given, or the clock's; those before 1970 or past 2106-02-07 06:28:15 are none. */
static uint32_t moment_of(const char *when) {
  char *end;
  long long seconds = strcmp(when, "now") == 0 ? (long long)time(NULL) : strtoll(when, &end, 10);
  if (strcmp(when, "now") != 0 && (*when == 0 || *end != 0)) stop(USAGE, "WHEN is Unix seconds, or now");
  if (seconds < 0 || seconds > UINT32_MAX) stop(USAGE, "there is no moment before 1970 or past 2106-02-07 06:28:15");
  return (uint32_t)seconds;
}

/* Says when it is that no push may start. */
static void say_date(uint32_t moment) {
  static const char *const days[] = {"Monday", "Tuesday", "Wednesday", "Thursday", "Friday", "Saturday", "Sunday"};
  check(yuglasno_date(moment, REPLY));
  uint64_t minute = word(YUGLASNO_DATE_MINUTE);
  fprintf(stderr, PROGRAM ": no push may start on %s %" PRIu64 "-%02" PRIu64 "-%02" PRIu64 " %02" PRIu64 ":%02" PRIu64 " UTC\n",
          days[word(YUGLASNO_DATE_WEEKDAY)], word(YUGLASNO_DATE_YEAR), word(YUGLASNO_DATE_MONTH), word(YUGLASNO_DATE_DAY), minute / 60, minute % 60);
}

/* The whole of standard input, in DATA messages; the file gets this time. */
static void push(uint32_t mtime) {
  static uint8_t data[YUGLASNO_DATA_MOST];
  for (;;) {
    size_t held = read_whole(STDIN_FILENO, data, sizeof data);
    check(call(YUGLASNO_CALL_DATA, (struct asked){.lent = data, .length = held}));
    if (held < sizeof data) break;
  }
  check(call(YUGLASNO_CALL_SEND_DONE, (struct asked){.a = mtime}));
}

int main(int count, char **words) {
  if (count < 6) stop(USAGE, "usage: push HOURS WHEN BANNER PATH PROGRAM [WORD..] <FILE");
  load_hours(words[1]);
  const uint32_t moment = moment_of(words[2]);
  start_panel(words + 5);
  open_session(words[3]);
  const struct asked path = {.lent = words[4], .length = strlen(words[4]), .a = MODE, .b = YUGLASNO_FLAG_NONE, .moment = moment};
  const uint32_t answer = either(YUGLASNO_CALL_SEND_V2, YUGLASNO_CALL_SEND, path);
  if (answer == YUGLASNO_ANSWER_OUTSIDE_HOURS) {
    say_date(moment);
    quit();
  }
  check(answer);
  push(moment);
  quit();
  return 0;
}
