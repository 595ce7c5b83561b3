/* What pull.c and push.c share: a session's memory, a panel that is a program on pipes, and a call from its start to its answer. PROGRAM is
 * the name that a message begins with. */
#include "yuglasno.h"

#include <errno.h>
#include <inttypes.h>
#include <signal.h>
#include <stdio.h>
#include <stdlib.h>
#include <string.h>
#include <sys/wait.h>
#include <unistd.h>

enum { USAGE = 64, NO_PANEL = 69 };

/* The session's settings, record and buffers, the slice for a reply, and the panel's pipes. */
static struct {
  uint8_t settings[YUGLASNO_SETTINGS], rec[YUGLASNO_RECORD], rx[YUGLASNO_CAPACITY], msg[YUGLASNO_CAPACITY], out[YUGLASNO_REPLY];
  int from_panel, to_panel;
  pid_t panel;
} host;

#define SETTINGS host.settings, sizeof host.settings
#define SESSION host.rec, sizeof host.rec, host.rx, sizeof host.rx, host.msg, sizeof host.msg
#define REPLY host.out, sizeof host.out

static uint64_t word(size_t i) { return yuglasno_word(host.out, i); }

static void stop(int status, const char *why) {
  fprintf(stderr, PROGRAM ": %s\n", why);
  exit(status);
}

/* Starts the program with its standard input and output on pipes. */
static void start_panel(char **words) {
  int to[2], from[2];
  signal(SIGPIPE, SIG_IGN);
  if (pipe(to) != 0 || pipe(from) != 0) stop(NO_PANEL, strerror(errno));
  host.panel = fork();
  if (host.panel < 0) stop(NO_PANEL, strerror(errno));
  if (host.panel == 0) {
    dup2(to[0], STDIN_FILENO);
    dup2(from[1], STDOUT_FILENO);
    close(to[0]), close(to[1]), close(from[0]), close(from[1]);
    execvp(words[0], words);
    stop(NO_PANEL, strerror(errno));
  }
  close(to[0]), close(from[1]);
  host.to_panel = to[1];
  host.from_panel = from[0];
}

static int write_whole(int fd, const uint8_t *bytes, size_t length) {
  while (length > 0) {
    ssize_t n = write(fd, bytes, length);
    if (n < 0 && errno == EINTR) continue;
    if (n < 0) return -1;
    bytes += n, length -= (size_t)n;
  }
  return 0;
}

static ssize_t read_some(int fd, uint8_t *window, size_t length) {
  ssize_t n;
  do n = read(fd, window, length);
  while (n < 0 && errno == EINTR);
  return n;
}

/* Does what is asked: the count of a read, 1 for a write or the close, 0 where the panel has closed, or -1 with errno. */
static ssize_t done(uint32_t what, const uint8_t *lent) {
  int failed = 0;
  switch (what) {
    case YUGLASNO_WHAT_READ: return read_some(host.from_panel, host.rx + word(0), word(1));
    case YUGLASNO_WHAT_WRITE_RX: failed = write_whole(host.to_panel, host.rx + word(0), word(1)); break;
    case YUGLASNO_WHAT_WRITE_LENT: failed = write_whole(host.to_panel, lent + word(0), word(1)); break;
    case YUGLASNO_WHAT_WRITE_BYTES: failed = write_whole(host.to_panel, host.out + 8, word(0)); break;
    default: failed = close(host.to_panel);
  }
  if (failed && errno == EPIPE) return 0;
  return failed ? -1 : 1;
}

/* What a call uses of these: the bytes that it is lent, a and b, and of a push the moment of its start. */
struct asked { const void *lent; size_t length; uint32_t a, b, moment; };

/* A call, from its start to its answer: the answer's number. */
static uint32_t call(uint32_t number, struct asked asked) {
  const uint8_t *lent = (const uint8_t *)asked.lent;
  const size_t length = asked.length;
  uint32_t told = yuglasno_start(SESSION, lent, length, number, asked.a, asked.b, asked.moment, REPLY);
  while (yuglasno_what(told) != YUGLASNO_WHAT_TOLD) {
    ssize_t count = done(yuglasno_what(told), lent);
    if (count < 0)
      told = yuglasno_fault(SESSION, lent, length, YUGLASNO_FAULT_ERROR, (uint32_t)errno, REPLY);
    else if (count == 0)
      told = yuglasno_fault(SESSION, lent, length, YUGLASNO_FAULT_CLOSED, 0, REPLY);
    else if (yuglasno_what(told) == YUGLASNO_WHAT_READ)
      told = yuglasno_read(SESSION, lent, length, (size_t)count, REPLY);
    else
      told = yuglasno_wrote(SESSION, lent, length, REPLY);
  }
  return yuglasno_answer(told);
}

/* The v2 call, or the v1 call where the banner lacks its feature. */
static uint32_t either(uint32_t v2, uint32_t v1, struct asked asked) {
  uint32_t answer = call(v2, asked);
  return answer == YUGLASNO_ANSWER_MISSING ? call(v1, asked) : answer;
}

/* Stops the program unless the answer is OK. */
static void check(uint32_t answer) {
  if (answer == YUGLASNO_ANSWER_OK) return;
  fprintf(stderr, PROGRAM ": answer %" PRIu32, answer);
  if (answer == YUGLASNO_ANSWER_FAIL) {
    fputs(", the panel says: ", stderr);
    fwrite(host.msg + word(YUGLASNO_AT_START), 1, word(YUGLASNO_AT_LENGTH), stderr);
  }
  if (answer == YUGLASNO_ANSWER_ERRNO) fprintf(stderr, ", the panel's errno is %" PRIu64, word(YUGLASNO_AT_NUMBER));
  fputc('\n', stderr);
  exit((int)answer);
}

/* Opens the session, with the settings as they are. */
static void open_session(const char *banner) {
  check(yuglasno_open(host.rec, sizeof host.rec, SETTINGS, (const uint8_t *)banner, strlen(banner), sizeof host.rx, sizeof host.msg));
}

/* Ends the session and waits for the program. */
static void quit(void) {
  check(call(YUGLASNO_CALL_QUIT, (struct asked){0}));
  close(host.from_panel);
  waitpid(host.panel, NULL, 0);
}
