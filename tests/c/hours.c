/* What yuglasno.h says of hours and dates, tried: files that are taken and refused, settings at odd addresses, pushes at the edges of hours, all
 * minutes of a week, dates. Its last line is 'N passed, M failed'. Also compiled as C++. */
#include "yuglasno.h"
#include "check.h"

#include <string.h>

enum { ODD = 1, CAPACITY = 64, DAY = 86400, MONDAY = 1704067200 };
static uint8_t memory[4][YUGLASNO_RECORD + ODD], set[YUGLASNO_SETTINGS + ODD];
static uint8_t *const rec = memory[0] + ODD, *const rx = memory[1] + ODD, *const msg = memory[2] + ODD, *const out = memory[3] + ODD;
static uint8_t *const settings = set + ODD;

#define SETTINGS settings, YUGLASNO_SETTINGS
#define SESSION rec, YUGLASNO_RECORD, rx, CAPACITY, msg, CAPACITY
#define REPLY out, YUGLASNO_REPLY
#define HEADING "day,open,close\n"
#define WORKSHOP HEADING "0,420,1080\n3,0,1440\n6,1439,1440\n"

static uint64_t word(size_t i) { return yuglasno_word(out, i); }

/* Loads a file; what is refused leaves the settings as they were. */
static uint32_t load(const char *file, size_t length) {
  static uint8_t before[sizeof set];
  memcpy(before, set, sizeof set);
  uint32_t answer = yuglasno_hours(SETTINGS, (const uint8_t *)file, length);
  if (answer != YUGLASNO_ANSWER_OK) CHECK(memcmp(before, set, sizeof set) == 0);
  return answer;
}

#define LOAD(file) load(file, sizeof(file) - 1)
#define BAD(file) CHECK(LOAD(file) == YUGLASNO_ANSWER_BAD_HOURS)

static void files(void) {
  static const uint8_t workshop[YUGLASNO_HOURS_SIZE] = {1, 0, 0, 0, 164, 1, 56, 4, 0, 0, 0, 0, 0, 0, 0, 0, 0, 0, 160, 5,
                                                        0, 0, 0, 0, 0,   0, 0,  0, 159, 5, 160, 5};
  CHECK(yuglasno_settings(SETTINGS) == YUGLASNO_ANSWER_OK);
  BAD(""), BAD("day,open,close"), BAD("day,open,close\r\n"), BAD("day,close,open\n"), BAD(HEADING "\n"), BAD(HEADING "0,60,60\n");
  BAD(HEADING "0,0,1441\n"), BAD(HEADING "7,0,1\n"), BAD(HEADING "00,0,1\n"), BAD(HEADING "0,+1,2\n"), BAD(HEADING "0, 1,2\n");
  BAD(HEADING "0,0,1"), BAD(HEADING "0,0,1\r\n"), BAD(HEADING "0,0\n"), BAD(HEADING "0,0,1,2\n"), BAD(HEADING "0,0,1\n0,2,3\n");
  BAD(HEADING "1,0,1\n0,2,3\n"), BAD(HEADING "0,4294967296,4294967297\n"), BAD(WORKSHOP "\n");
  CHECK(load(NULL, 0) == YUGLASNO_ANSWER_BAD_HOURS && settings[YUGLASNO_HOURS_IN_SETTINGS] == 0);
  CHECK(yuglasno_hours(NULL, 0, NULL, 0) == YUGLASNO_ANSWER_OTHER_LENGTH);
  CHECK(yuglasno_hours(settings, YUGLASNO_SETTINGS - 1, (const uint8_t *)HEADING, 15) == YUGLASNO_ANSWER_OTHER_LENGTH);
  CHECK(LOAD(WORKSHOP) == YUGLASNO_ANSWER_OK);
  CHECK(memcmp(settings + YUGLASNO_HOURS_IN_SETTINGS, workshop, sizeof workshop) == 0 && memcmp(settings, "STATSTA2", 8) == 0);
  BAD(HEADING "0,60,60\n"), BAD("day,open"), BAD("");
  CHECK(memcmp(settings + YUGLASNO_HOURS_IN_SETTINGS, workshop, sizeof workshop) == 0);
}

/* Every minute of a week, its first second and its last. */
static void week(void) {
  unsigned wrong = 0;
  for (uint32_t minute = 0; minute < 7 * 1440; minute++) {
    const uint32_t day = minute / 1440, of_day = minute % 1440;
    const int open = (day == 0 && of_day >= 420 && of_day < 1080) || day == 3 || (day == 6 && of_day == 1439);
    const uint32_t expected = open ? YUGLASNO_ANSWER_OK : YUGLASNO_ANSWER_OUTSIDE_HOURS, moment = MONDAY + 60 * minute;
    wrong += yuglasno_may_push(SETTINGS, moment) != expected || yuglasno_may_push(SETTINGS, moment + 59) != expected;
  }
  CHECK(wrong == 0);
  CHECK(yuglasno_may_push(SETTINGS, 0) == YUGLASNO_ANSWER_OK && yuglasno_may_push(SETTINGS, DAY) == YUGLASNO_ANSWER_OUTSIDE_HOURS);
  CHECK(yuglasno_may_push(settings, YUGLASNO_SETTINGS - 1, 0) == YUGLASNO_ANSWER_OTHER_LENGTH);
  CHECK(yuglasno_may_push(NULL, 0, 0) == YUGLASNO_ANSWER_OTHER_LENGTH);
}

static void open_session(const char *banner) {
  CHECK(yuglasno_open(rec, YUGLASNO_RECORD, SETTINGS, (const uint8_t *)banner, strlen(banner), CAPACITY, CAPACITY) == YUGLASNO_ANSWER_OK);
}

static uint32_t start(uint32_t call, const char *path, size_t length, uint32_t flags, uint32_t moment) {
  return yuglasno_start(SESSION, (const uint8_t *)path, length, call, 0100644, flags, moment, REPLY);
}

/* A push that is turned away: the reply has no part, number or reads, and nothing else has changed. */
static void turned_away(uint32_t call, uint32_t moment) {
  static uint8_t before[3][sizeof memory[0]];
  memcpy(before, memory, sizeof before);
  memset(out, 0xee, YUGLASNO_REPLY);
  CHECK(start(call, "/a", 2, 0, moment) == YUGLASNO_ANSWER_OUTSIDE_HOURS << 8);
  CHECK(memcmp(before, memory, sizeof before) == 0 && word(YUGLASNO_AT_KIND) == YUGLASNO_KIND_OTHER);
  CHECK(word(YUGLASNO_AT_START) == 0 && word(YUGLASNO_AT_LENGTH) == 0 && out[24] == 0xee && yuglasno_told_reads(out) == 0);
}

static void sessions(void) {
  const uint32_t closed = MONDAY + 25199, open = MONDAY + 25200;
  open_session("features=sendrecv_v2");
  CHECK(memcmp(rec + YUGLASNO_HOURS_IN_RECORD, settings + YUGLASNO_HOURS_IN_SETTINGS, YUGLASNO_HOURS_SIZE) == 0);
  CHECK(yuglasno_settings(SETTINGS) == YUGLASNO_ANSWER_OK);
  turned_away(YUGLASNO_CALL_SEND, closed);
  turned_away(YUGLASNO_CALL_SEND_V2, closed);
  CHECK(start(YUGLASNO_CALL_SEND, "a\0b", 3, 0, closed) == YUGLASNO_ANSWER_NUL_IN_PATH << 8);
  CHECK(start(YUGLASNO_CALL_SEND_V2, "/a", 2, 3, closed) == YUGLASNO_ANSWER_FLAGS << 8);
  CHECK(start(YUGLASNO_CALL_SEND_V2, "/a", 2, YUGLASNO_FLAG_LZ4, closed) == YUGLASNO_ANSWER_MISSING << 8);
  CHECK(start(YUGLASNO_CALL_RECV, "/a", 2, 0, closed) == YUGLASNO_WHAT_WRITE_RX);
  CHECK(start(YUGLASNO_CALL_SEND, "/a", 2, 0, closed) == YUGLASNO_ANSWER_PENDING << 8);
  CHECK(yuglasno_wrote(SESSION, (const uint8_t *)"/a", 2, REPLY) == YUGLASNO_ANSWER_OK);
  CHECK(start(YUGLASNO_CALL_SEND, "/a", 2, 0, open) == YUGLASNO_WHAT_WRITE_RX);
  CHECK(yuglasno_wrote(SESSION, (const uint8_t *)"/a", 2, REPLY) == YUGLASNO_ANSWER_OK);
  /* a push that has begun goes on past its hours */
  CHECK(yuglasno_what(yuglasno_start(SESSION, (const uint8_t *)"x", 1, YUGLASNO_CALL_DATA, 0, 0, closed, REPLY)) != YUGLASNO_WHAT_TOLD);
  open_session("");
  CHECK(start(YUGLASNO_CALL_SEND, "/a", 2, 0, closed) == YUGLASNO_WHAT_WRITE_RX);
}

/* Settings that no hours file brings about: each byte of the hours, made another. */
static void bad_settings(void) {
  uint8_t *const hours = settings + YUGLASNO_HOURS_IN_SETTINGS;
  const struct { size_t at; uint8_t byte; } altered[] = {{0, 0}, {0, 2}, {1, 1}, {3, 1}, {5, 5}, {7, 0}, {7, 6}, {8, 1}};
  for (size_t i = 0; i < sizeof altered / sizeof *altered; i++) {
    CHECK(yuglasno_settings(SETTINGS) == YUGLASNO_ANSWER_OK && LOAD(WORKSHOP) == YUGLASNO_ANSWER_OK);
    hours[altered[i].at] = altered[i].byte;
    CHECK(yuglasno_may_push(SETTINGS, 0) == YUGLASNO_ANSWER_BAD_HOURS);
    CHECK(yuglasno_open(rec, YUGLASNO_RECORD, SETTINGS, NULL, 0, 8, 8) == YUGLASNO_ANSWER_BAD_HOURS);
    CHECK(yuglasno_open(rec, YUGLASNO_RECORD, SETTINGS, NULL, 0, 7, 8) == YUGLASNO_ANSWER_SMALL_BUFFER);
    settings[3] = 32;
    CHECK(yuglasno_open(rec, YUGLASNO_RECORD, SETTINGS, NULL, 0, 8, 8) == YUGLASNO_ANSWER_BAD_IDS);
    CHECK(LOAD(HEADING) == YUGLASNO_ANSWER_OK && yuglasno_may_push(SETTINGS, 0) == YUGLASNO_ANSWER_OUTSIDE_HOURS);
  }
  CHECK(yuglasno_settings(SETTINGS) == YUGLASNO_ANSWER_OK && yuglasno_may_push(SETTINGS, 0) == YUGLASNO_ANSWER_OK);
}

static int dated(uint32_t moment, uint64_t year, uint64_t month, uint64_t day, uint64_t weekday, uint64_t minute) {
  memset(out, 0xee, YUGLASNO_REPLY);
  return yuglasno_date(moment, REPLY) == YUGLASNO_ANSWER_OK && word(YUGLASNO_DATE_YEAR) == year && word(YUGLASNO_DATE_MONTH) == month &&
         word(YUGLASNO_DATE_DAY) == day && word(YUGLASNO_DATE_WEEKDAY) == weekday && word(YUGLASNO_DATE_MINUTE) == minute && out[40] == 0xee;
}

static void dates(void) {
  CHECK(dated(0, 1970, 1, 1, 3, 0) && dated(59, 1970, 1, 1, 3, 0) && dated(DAY - 1, 1970, 1, 1, 3, 1439) && dated(DAY, 1970, 1, 2, 4, 0));
  CHECK(dated(951782400, 2000, 2, 29, 1, 0) && dated(951868800, 2000, 3, 1, 2, 0) && dated(MONDAY - 1, 2023, 12, 31, 6, 1439));
  CHECK(dated(4107455999, 2100, 2, 27, 5, 1439) && dated(4107542400, 2100, 3, 1, 0, 0) && dated(UINT32_MAX, 2106, 2, 7, 6, 388));
  memset(out, 0xee, YUGLASNO_REPLY);
  CHECK(yuglasno_date(0, out, YUGLASNO_REPLY - 1) == YUGLASNO_ANSWER_OTHER_LENGTH && yuglasno_date(0, NULL, 0) == YUGLASNO_ANSWER_OTHER_LENGTH);
  CHECK(word(0) == UINT64_C(0xeeeeeeeeeeeeeeee));
}

int main(void) {
  files();
  week();
  sessions();
  bad_settings();
  dates();
  printf("%d passed, %d failed\n", passed, failed);
  return failed != 0;
}
