/* What yuglasno.h says of the panel's side, tried: every kind of reply in a buffer of its own length and of one byte less, what is refused and
 * in which order, a reply that a session was told said again; requests of every kind, whole and cut off anywhere, and what is none. Each slice
 * that is written to has guards around it. Its last line is 'N passed, M failed'. Also compiled as C++. */
#include "yuglasno.h"
#include "check.h"

#include <string.h>

enum { GUARD = 9, GUARD_BYTE = 0xc5, ROOM = YUGLASNO_DATA_MOST + 9 };
static uint8_t settings[YUGLASNO_SETTINGS], data[YUGLASNO_DATA_MOST + 1], numbers[88];
static uint8_t spoken[GUARD + ROOM + GUARD], words[GUARD + YUGLASNO_REPLY + GUARD];
static uint8_t *const out = spoken + GUARD, *const told = words + GUARD;

#define SETTINGS settings, YUGLASNO_SETTINGS
#define TOLD told, YUGLASNO_REPLY

static int all_guards(const uint8_t *bytes, size_t from, size_t to) {
  while (from < to && bytes[from] == GUARD_BYTE) from++;
  return from >= to;
}

static void guard(void) {
  memset(spoken, GUARD_BYTE, sizeof spoken);
  memset(words, GUARD_BYTE, sizeof words);
}

static int nothing_written(void) { return all_guards(spoken, 0, sizeof spoken) && all_guards(words, 0, sizeof words); }

static void put(size_t i, uint64_t number) {
  for (size_t k = 0; k < 8; k++) numbers[8 * i + k] = (uint8_t)(number >> 8 * k);
}

static uint32_t speak(uint32_t kind, size_t many, const char *lent, size_t length, size_t room) {
  guard();
  return yuglasno_speak(SETTINGS, kind, numbers, many, (const uint8_t *)lent, length, out, room, TOLD);
}

/* The reply in a buffer that just holds it, and in one that has a byte more; one byte less is refused, and nothing is written. */
static int says(uint32_t kind, size_t many, const char *lent, size_t length, const char *reply, size_t size) {
  for (size_t room = size; room <= size + 1; room++) {
    if (speak(kind, many, lent, length, room) != YUGLASNO_ANSWER_OK || memcmp(out, reply, size) != 0) return 0;
    if (yuglasno_word(told, YUGLASNO_SPOKEN_LENGTH) != size) return 0;
    if (!all_guards(spoken, 0, GUARD) || !all_guards(spoken, GUARD + size, sizeof spoken)) return 0;
    if (!all_guards(words, 0, GUARD) || !all_guards(words, GUARD + 8, sizeof words)) return 0;
  }
  return speak(kind, many, lent, length, size - 1) == YUGLASNO_ANSWER_LONG_REPLY && nothing_written();
}

#define SAYS(kind, many, lent, reply) says(YUGLASNO_SAY_##kind, many, lent, strlen(lent), reply, sizeof(reply) - 1)
#define STAT1 "\244\201\0\0\316\007\0\0\005\0\0\0"
#define V2 "\15\0\0\0\1\0\0\0\0\0\0\200\2\0\0\0\0\0\0\0\244\201\0\0\3\0\0\0\4\0\0\0\5\0\0\0\6\0\0\0\0\0\0\200" \
           "\7\0\0\0\0\0\0\0\377\377\377\377\377\377\377\377\11\0\0\0\0\0\0\0"
#define ZEROS_4 "\0\0\0\0"
#define ZEROS_16 ZEROS_4 ZEROS_4 ZEROS_4 ZEROS_4
#define ZEROS_72 ZEROS_16 ZEROS_16 ZEROS_16 ZEROS_16 ZEROS_4 ZEROS_4

static void put_v1(void) {
  const uint64_t fields[] = {33188, 1998, 5};
  for (size_t i = 0; i < 3; i++) put(i, fields[i]);
}

static void put_v2(void) {
  const uint64_t high = UINT64_C(0x8000000000000000);
  const uint64_t fields[] = {13, high | 1, 2, 33188, 3, 4, 5, high | 6, 7, UINT64_MAX, 9};
  for (size_t i = 0; i < 11; i++) put(i, fields[i]);
}

static void replies(void) {
  put_v1();
  CHECK(SAYS(STAT, 24, "", "STAT" STAT1) && SAYS(STAT, 88, "not looked at", "STAT" STAT1));
  CHECK(SAYS(ENTRY, 24, "T98", "DENT" STAT1 "\3\0\0\0T98") && SAYS(ENTRY, 25, "", "DENT" STAT1 ZEROS_4));
  put_v2();
  CHECK(SAYS(STAT_V2, 88, "", "STA2" V2) && SAYS(ENTRY_V2, 88, "T98", "DNT2" V2 "\3\0\0\0T98"));
  CHECK(SAYS(FAIL, 0, "no", "FAIL\2\0\0\0no") && SAYS(FAIL, 0, "", "FAIL" ZEROS_4));
  CHECK(SAYS(CHUNK, 0, "heights", "DATA\7\0\0\0heights") && SAYS(CHUNK, 0, "", "DATA" ZEROS_4));
  CHECK(SAYS(OKAY, 0, "", "OKAY" ZEROS_4) && SAYS(OKAY, 3, "not looked at", "OKAY" ZEROS_4) && SAYS(END, 0, "", "DONE" ZEROS_4));
  CHECK(SAYS(LISTING_END, 0, "", "DONE" ZEROS_16) && SAYS(LISTING_END_V2, 0, "", "DONE" ZEROS_72));
  CHECK(says(YUGLASNO_SAY_FAIL, 0, "a\0b\377", 4, "FAIL\4\0\0\0a\0b\377", 12));
}

static void largest(void) {
  const char *chunk = (const char *)data;
  memset(data, 'x', sizeof data);
  CHECK(speak(YUGLASNO_SAY_CHUNK, 0, chunk, YUGLASNO_DATA_MOST, 8 + YUGLASNO_DATA_MOST) == YUGLASNO_ANSWER_OK);
  CHECK(memcmp(out, "DATA\0\0\1\0", 8) == 0 && memcmp(out + 8, data, YUGLASNO_DATA_MOST) == 0 && out[8 + YUGLASNO_DATA_MOST] == GUARD_BYTE);
  CHECK(speak(YUGLASNO_SAY_CHUNK, 0, chunk, YUGLASNO_DATA_MOST, 7 + YUGLASNO_DATA_MOST) == YUGLASNO_ANSWER_LONG_REPLY && nothing_written());
  CHECK(speak(YUGLASNO_SAY_CHUNK, 0, chunk, sizeof data, ROOM) == YUGLASNO_ANSWER_LONG_REPLY && nothing_written());
  CHECK(speak(YUGLASNO_SAY_FAIL, 0, chunk, sizeof data, ROOM) == YUGLASNO_ANSWER_OK && memcmp(out, "FAIL\1\0\1\0x", 9) == 0);
}

static int misplaces(uint32_t kind, size_t many) {
  return speak(kind, many, "T98", 3, ROOM) == YUGLASNO_ANSWER_OTHER_LENGTH && nothing_written();
}

/* Kinds that are none, numbers that are not all there, and numbers too wide for their field. */
static void misplaced(void) {
  const uint32_t none[] = {10, 11, 255, 256, 1u << 16, UINT32_MAX};
  for (size_t i = 0; i < sizeof none / sizeof *none; i++) CHECK(misplaces(none[i], sizeof numbers));
  put_v2();
  put_v1();
  for (size_t many = 0; many < 88; many++) {
    if (many < 24) CHECK(misplaces(YUGLASNO_SAY_STAT, many) && misplaces(YUGLASNO_SAY_ENTRY, many));
    CHECK(misplaces(YUGLASNO_SAY_STAT_V2, many) && misplaces(YUGLASNO_SAY_ENTRY_V2, many));
  }
  for (size_t i = 0; i < 11; i++) {
    const int narrow = i == YUGLASNO_AT_V2_ERROR - 3 || (i >= YUGLASNO_AT_V2_MODE - 3 && i <= YUGLASNO_AT_V2_GID - 3);
    const uint32_t expected = narrow ? YUGLASNO_ANSWER_OTHER_LENGTH : YUGLASNO_ANSWER_OK;
    put_v2();
    put(i, UINT64_C(1) << 32);
    CHECK(speak(YUGLASNO_SAY_STAT_V2, 88, "", 0, ROOM) == expected && speak(YUGLASNO_SAY_ENTRY_V2, 88, "", 0, ROOM) == expected);
    CHECK(nothing_written() == narrow);
    put_v1();
    put(i, UINT64_C(1) << 32);
    if (i < 3) CHECK(misplaces(YUGLASNO_SAY_STAT, 24) && misplaces(YUGLASNO_SAY_ENTRY, 24));
    put(i, UINT32_MAX);
    if (i < 3) CHECK(speak(YUGLASNO_SAY_STAT, 24, "", 0, 16) == YUGLASNO_ANSWER_OK);
  }
}

#define NONE_SPOKEN(answer, set, length, kind, room, told_len) \
  (guard(), yuglasno_speak(set, length, kind, NULL, 0, NULL, 0, out, room, told, told_len) == YUGLASNO_ANSWER_##answer && nothing_written())
#define NONE_HEARD(answer, set, length, text, told_len) \
  (guard(), yuglasno_heard(set, length, (const uint8_t *)text, sizeof(text) - 1, told, told_len) == YUGLASNO_ANSWER_##answer && nothing_written())

/* Settings that no file could have brought about, and the order of the answers: told or out, the settings, the rest. */
static void orders(void) {
  enum { NO_KIND = 10 };
  uint8_t equal[YUGLASNO_SETTINGS], bad[YUGLASNO_SETTINGS];
  memcpy(equal, settings, sizeof equal);
  memcpy(equal + 56, "STAT", 4);
  memcpy(bad, equal, sizeof bad);
  bad[59] = 32;
  CHECK(NONE_SPOKEN(EQUAL_IDS, equal, sizeof equal, NO_KIND, 0, YUGLASNO_REPLY) && NONE_SPOKEN(BAD_IDS, bad, sizeof bad, NO_KIND, 0, YUGLASNO_REPLY));
  CHECK(NONE_SPOKEN(EQUAL_IDS, equal, sizeof equal, YUGLASNO_SAY_OKAY, 0, YUGLASNO_REPLY + 1));
  CHECK(NONE_SPOKEN(OTHER_LENGTH, equal, sizeof equal, YUGLASNO_SAY_OKAY, 8, YUGLASNO_REPLY - 1));
  CHECK(NONE_SPOKEN(OTHER_LENGTH, equal, sizeof equal - 1, YUGLASNO_SAY_OKAY, 0, YUGLASNO_REPLY));
  CHECK(NONE_SPOKEN(OTHER_LENGTH, settings, sizeof settings, NO_KIND, 0, YUGLASNO_REPLY));
  CHECK(NONE_SPOKEN(LONG_REPLY, settings, sizeof settings, YUGLASNO_SAY_OKAY, 7, YUGLASNO_REPLY));
  CHECK(yuglasno_speak(NULL, 0, 0, NULL, 0, NULL, 0, NULL, 0, NULL, 0) == YUGLASNO_ANSWER_OTHER_LENGTH);
  CHECK(yuglasno_speak(SETTINGS, YUGLASNO_SAY_OKAY, NULL, 0, NULL, 0, NULL, 0, TOLD) == YUGLASNO_ANSWER_LONG_REPLY);
  CHECK(NONE_HEARD(EQUAL_IDS, equal, sizeof equal, "OKAY\0\0\0\0", YUGLASNO_REPLY) && NONE_HEARD(BAD_IDS, bad, sizeof bad, "", YUGLASNO_REPLY));
  CHECK(NONE_HEARD(OTHER_LENGTH, equal, sizeof equal, "OKAY\0\0\0\0", YUGLASNO_REPLY - 1));
  CHECK(NONE_HEARD(OTHER_LENGTH, equal, sizeof equal - 1, "OKAY\0\0\0\0", YUGLASNO_REPLY));
  CHECK(yuglasno_heard(NULL, 0, NULL, 0, NULL, 0) == YUGLASNO_ANSWER_OTHER_LENGTH);
}

static int words_are(uint64_t call, uint64_t start, uint64_t length, uint64_t first, uint64_t flags, uint64_t size) {
  const uint64_t expected[] = {call, start, length, first, flags, size};
  for (size_t i = 0; i < 6; i++)
    if (yuglasno_word(told, i) != expected[i]) return 0;
  return all_guards(words, 0, GUARD) && all_guards(words, GUARD + 48, sizeof words);
}

/* The request with a byte behind it; and cut off anywhere, where more is wanted. */
static int hears(const char *text, size_t size, uint32_t call, size_t length, uint32_t first, uint32_t flags) {
  const uint8_t *bytes = (const uint8_t *)text;
  for (size_t more = 0; more <= 1; more++) {
    guard();
    if (yuglasno_heard(SETTINGS, bytes, size + more, TOLD) != YUGLASNO_ANSWER_OK || !words_are(call, 8, length, first, flags, size)) return 0;
  }
  for (size_t part = 0; part < size; part++) {
    guard();
    if (yuglasno_heard(SETTINGS, bytes, part, TOLD) != YUGLASNO_ANSWER_OK || !words_are(0, 0, 0, 0, 0, 0)) return 0;
  }
  return 1;
}

#define HEARS(text, call, length, first, flags) hears(text, sizeof(text) - 1, YUGLASNO_CALL_##call, length, first, flags)
#define REFUSED(text) NONE_HEARD(BAD_REQUEST, settings, sizeof settings, text, YUGLASNO_REPLY)

static void requests(void) {
  CHECK(HEARS("STAT\2\0\0\0/a", STAT, 2, 0, 0) && HEARS("STA2\2\0\0\0/a", STAT_V2, 2, 0, 0) && HEARS("STAT\0\0\0\0", STAT, 0, 0, 0));
  CHECK(HEARS("LIST\2\0\0\0/a", LIST, 2, 0, 0) && HEARS("LIS2\2\0\0\0/a", LIST_V2, 2, 0, 0));
  CHECK(HEARS("RECV\2\0\0\0/a", RECV, 2, 0, 0) && HEARS("RCV2\2\0\0\0/aRCV2\4\0\0\0", RECV_V2, 2, 0, YUGLASNO_FLAG_ZSTD));
  CHECK(HEARS("SEND\10\0\0\0/a,33188", SEND, 2, 33188, 0) && HEARS("SEND\14\0\0\0/a,b,0100644", SEND, 4, 33188, 0));
  CHECK(HEARS("SND2\2\0\0\0/aSND2\244\201\0\0\1\0\0\200", SEND_V2, 2, 33188, YUGLASNO_FLAG_DRY_RUN | YUGLASNO_FLAG_BROTLI));
  CHECK(HEARS("DATA\2\0\0\0/a", DATA, 2, 0, 0) && HEARS("DATA\0\0\0\0", DATA, 0, 0, 0));
  CHECK(HEARS("DONE\5\0\0\360", SEND_DONE, 0, 0xf0000005, 0) && HEARS("QUIT\0\0\0\0", QUIT, 0, 0, 0));
}

static void no_requests(void) {
  CHECK(REFUSED("OKAY\0\0\0\0") && REFUSED("FAIL\0\0\0\0") && REFUSED("DENT\0\0\0\0") && REFUSED("stat\0\0\0\0") && REFUSED("QUIT\1\0\0\0"));
  CHECK(REFUSED("STAT\1\4\0\0") && REFUSED("SEND\16\4\0\0") && REFUSED("DATA\1\0\1\0") && REFUSED("LIST\377\377\377\377"));
  CHECK(REFUSED("STAT\3\0\0\0a\0b") && REFUSED("SEND\2\0\0\0/a") && REFUSED("SEND\5\0\0\0/a,8x") && REFUSED("SEND\5\0\0\0/a,08"));
  CHECK(REFUSED("RCV2\2\0\0\0/aRCV2\0\0\0\200") && REFUSED("RCV2\2\0\0\0/aRECV\0\0\0\0") && REFUSED("SND2\2\0\0\0/aSND2\0\0\0\0\3\0\0\0"));
  guard();
  CHECK(yuglasno_heard(SETTINGS, NULL, 0, TOLD) == YUGLASNO_ANSWER_OK && words_are(0, 0, 0, 0, 0, 0));
}

enum { CAPACITY = 200 };
static uint8_t rec[YUGLASNO_RECORD], rx[CAPACITY], msg[CAPACITY], reply[YUGLASNO_REPLY];

/* What a session is told of these bytes, said again from the words of its reply: the same bytes. */
static int said_again(uint32_t call, const char *bytes, size_t length) {
  if (yuglasno_open(rec, sizeof rec, SETTINGS, NULL, 0, CAPACITY, CAPACITY) != YUGLASNO_ANSWER_OK) return 0;
  if (yuglasno_start(rec, sizeof rec, rx, CAPACITY, msg, CAPACITY, NULL, 0, call, 0, 0, 0, reply, sizeof reply) != YUGLASNO_WHAT_READ) return 0;
  memcpy(rx, bytes, length);
  if (yuglasno_read(rec, sizeof rec, rx, CAPACITY, msg, CAPACITY, NULL, 0, length, reply, sizeof reply) != YUGLASNO_ANSWER_OK) return 0;
  guard();
  uint32_t kind = (uint32_t)yuglasno_word(reply, YUGLASNO_AT_KIND);
  const uint8_t *part = rx + yuglasno_word(reply, YUGLASNO_AT_START);
  size_t part_len = yuglasno_word(reply, YUGLASNO_AT_LENGTH);
  if (yuglasno_speak(SETTINGS, kind, reply + 24, sizeof reply - 24, part, part_len, out, ROOM, TOLD) != YUGLASNO_ANSWER_OK) return 0;
  return yuglasno_word(told, YUGLASNO_SPOKEN_LENGTH) == length && memcmp(out, bytes, length) == 0;
}

#define AGAIN(call, bytes) said_again(YUGLASNO_CALL_##call, bytes, sizeof(bytes) - 1)

static void again(void) {
  CHECK(AGAIN(NEXT_ENTRY, "DENT" STAT1 "\3\0\0\0T98") && AGAIN(NEXT_ENTRY_V2, "DNT2" V2 "\3\0\0\0T98"));
  CHECK(AGAIN(RECV_NEXT, "DATA\7\0\0\0heights") && AGAIN(RECV_NEXT, "DONE" ZEROS_4));
}

int main(void) {
  CHECK(yuglasno_settings(SETTINGS) == YUGLASNO_ANSWER_OK);
  replies();
  largest();
  misplaced();
  orders();
  requests();
  no_requests();
  again();
  printf("%d passed, %d failed\n", passed, failed);
  return failed != 0;
}
