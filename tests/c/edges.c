/* What yuglasno.h says, tried: NULL with length 0, slices at odd addresses, the two forms of a returned number, refusals that change
 * nothing, ids from a file, the reply's layout by kind, what a read still wants, the totals, a call's reads and their ceiling, an index beside a
 * session. Its last line is 'N passed, M failed'. Also compiled as C++. */
#include "yuglasno.h"
#include "check.h"

#include <string.h>

#define PATH "/a"
#define ALL "features=stat_v2,ls_v2,sendrecv_v2"

/* Every slice starts at an odd address. */
enum { CAPACITY = 101, ODD = 1 };
/* When a push starts; where there are no hours it may be any moment. */
enum { ANYTIME = 1998 };
static uint8_t memory[4][CAPACITY + YUGLASNO_RECORD + ODD];
static uint8_t *const rec = memory[0] + ODD, *const rx = memory[1] + ODD, *const msg = memory[2] + ODD, *const out = memory[3] + ODD;
static uint8_t written[CAPACITY];
static size_t writes;
static size_t capacity = CAPACITY; /* of the session that is open */

static uint8_t set[YUGLASNO_SETTINGS + ODD], *const settings = set + ODD;

#define OPEN(settings_len, rx_len, msg_len) yuglasno_open(rec, YUGLASNO_RECORD, settings, settings_len, NULL, 0, rx_len, msg_len)
#define SESSION rec, YUGLASNO_RECORD, rx, capacity, msg, capacity
#define REPLY out, YUGLASNO_REPLY

static uint64_t word(size_t i) { return yuglasno_word(out, i); }

static void open_session(const char *banner) {
  uint32_t told = yuglasno_open(rec, YUGLASNO_RECORD, settings, YUGLASNO_SETTINGS, (const uint8_t *)banner, strlen(banner), capacity,
                                capacity);
  CHECK(told == YUGLASNO_ANSWER_OK);
}

static void keep(const uint8_t *piece, size_t length) {
  memcpy(written + writes, piece, length);
  writes += length;
}

/* Takes what is asked, but for a read: what is returned next. */
static uint32_t follow(uint32_t told, const uint8_t *lent, size_t length) {
  switch (yuglasno_what(told)) {
    case YUGLASNO_WHAT_WRITE_RX: keep(rx + word(0), word(1)); break;
    case YUGLASNO_WHAT_WRITE_LENT: keep(lent + word(0), word(1)); break;
    case YUGLASNO_WHAT_WRITE_BYTES: keep(out + 8, word(0)); break;
    default: break;
  }
  return yuglasno_wrote(SESSION, lent, length, REPLY);
}

static size_t least(size_t m, size_t n) { return m < n ? m : n; }

/* Whether a call that is over tells so many reads, its record has them, and they are under the ceiling: at most 8 more than bytes consumed. */
static int reads_are(uint32_t told, uint64_t reads, uint64_t consumed_before) {
  const uint32_t answer = yuglasno_answer(told);
  const uint64_t most = yuglasno_consumed(rec) - consumed_before + 8;
  const int under = reads <= most || answer == YUGLASNO_ANSWER_CLOSED || answer == YUGLASNO_ANSWER_IO;
  return yuglasno_told_reads(out) == reads && yuglasno_reads(rec) == reads && under;
}

/* A call with this reply, in reads of so many bytes each, in turn, the last of them from then on, and then the end of the channel: the answer's
 * number. Its reads are counted. */
static uint32_t call_in(uint32_t number, const char *path, const char *reply, size_t length, const size_t *cuts, size_t many) {
  const uint8_t *lent = (const uint8_t *)path;
  size_t lent_len = strlen(path), at = 0, reads = 0;
  const uint64_t consumed = yuglasno_consumed(rec);
  writes = 0;
  uint32_t told = yuglasno_start(SESSION, lent, lent_len, number, 0, 0, ANYTIME, REPLY);
  while (yuglasno_what(told) != YUGLASNO_WHAT_TOLD) {
    if (yuglasno_what(told) != YUGLASNO_WHAT_READ) {
      told = follow(told, lent, lent_len);
    } else if (at == length) {
      told = yuglasno_fault(SESSION, lent, lent_len, YUGLASNO_FAULT_CLOSED, 0, REPLY);
    } else {
      size_t count = least(cuts[least(reads++, many - 1)], least(length - at, word(1)));
      memcpy(rx + word(0), reply + at, count);
      at += count;
      told = yuglasno_read(SESSION, lent, lent_len, count, REPLY);
    }
  }
  CHECK(reads_are(told, reads, consumed));
  return yuglasno_answer(told);
}

static uint32_t call(uint32_t number, const char *path, const char *reply, size_t length, size_t cut) {
  return call_in(number, path, reply, length, &cut, 1);
}

#define HEARD(number, path, reply, cut) call(number, path, reply, sizeof(reply) - 1, cut)

static void opening(void) {
  CHECK(yuglasno_settings(settings, YUGLASNO_SETTINGS) == YUGLASNO_ANSWER_OK);
  CHECK(yuglasno_open(NULL, 0, settings, YUGLASNO_SETTINGS, NULL, 0, CAPACITY, CAPACITY) == YUGLASNO_ANSWER_OTHER_LENGTH);
  CHECK(yuglasno_open(rec, YUGLASNO_RECORD, NULL, 0, NULL, 0, CAPACITY, CAPACITY) == YUGLASNO_ANSWER_OTHER_LENGTH);
  CHECK(OPEN(YUGLASNO_SETTINGS, 7, 8) == YUGLASNO_ANSWER_SMALL_BUFFER);
  CHECK(OPEN(YUGLASNO_SETTINGS, 9, 8) == YUGLASNO_ANSWER_SHORT_MESSAGE_BUFFER);
  CHECK(OPEN(YUGLASNO_SETTINGS - 1, 7, 8) == YUGLASNO_ANSWER_SMALL_BUFFER);
  CHECK(OPEN(YUGLASNO_SETTINGS - 1, 8, 8) == YUGLASNO_ANSWER_OTHER_LENGTH);
  CHECK(yuglasno_open(rec, YUGLASNO_RECORD - 1, settings, YUGLASNO_SETTINGS, NULL, 0, 8, 8) == YUGLASNO_ANSWER_OTHER_LENGTH);
  CHECK(OPEN(YUGLASNO_SETTINGS, CAPACITY, CAPACITY) == YUGLASNO_ANSWER_OK);
}

#define PUBLISHED "STAT,STA2,LIST,LIS2,SEND,SND2,RECV,RCV2,DATA,DONE,OKAY,FAIL,DENT,DNT2,QUIT\n"
#define SMALL(dnt2, quit) "stat,sta2,list,lis2,send,snd2,recv,rcv2,data,done,okay,fail,dent," dnt2 "," quit "\n"

static uint32_t load(const char *file, size_t length) { return yuglasno_ids(settings, YUGLASNO_SETTINGS, (const uint8_t *)file, length); }

#define LOAD(file) load(file, sizeof(file) - 1)

/* Ids from a file: what is refused leaves the settings as they were, and a session keeps what it was opened with. */
static void ids(void) {
  uint8_t kept[YUGLASNO_SETTINGS];
  CHECK(yuglasno_settings(NULL, 0) == YUGLASNO_ANSWER_OTHER_LENGTH);
  CHECK(yuglasno_settings(settings, YUGLASNO_SETTINGS - 1) == YUGLASNO_ANSWER_OTHER_LENGTH);
  CHECK(memcmp(settings, "STATSTA2LISTLIS2SENDSND2RECVRCV2DATADONEOKAYFAILDENTDNT2QUIT\0", 61) == 0);
  CHECK(LOAD(PUBLISHED SMALL("dnt2", "quit")) == YUGLASNO_ANSWER_OK && memcmp(settings, "statsta2", 8) == 0);
  memcpy(kept, settings, sizeof kept);
  CHECK(yuglasno_ids(NULL, 0, NULL, 0) == YUGLASNO_ANSWER_OTHER_LENGTH && load(NULL, 0) == YUGLASNO_ANSWER_BAD_IDS);
  CHECK(load(PUBLISHED PUBLISHED, 149) == YUGLASNO_ANSWER_BAD_IDS);
  CHECK(LOAD(PUBLISHED SMALL("dn 2", "stat")) == YUGLASNO_ANSWER_BAD_IDS);
  CHECK(LOAD(PUBLISHED SMALL("dnt2", "stat")) == YUGLASNO_ANSWER_EQUAL_IDS);
  CHECK(memcmp(settings, kept, sizeof kept) == 0);
  open_session("");
  CHECK(LOAD(PUBLISHED PUBLISHED) == YUGLASNO_ANSWER_OK && memcmp(settings, "STATSTA2", 8) == 0);
  CHECK(HEARD(YUGLASNO_CALL_STAT, PATH, "stat\244\201\0\0\316\007\0\0\005\0\0\0", 1) == YUGLASNO_ANSWER_OK);
  CHECK(writes == 10 && memcmp(written, "stat\2\0\0\0" PATH, 10) == 0);
  CHECK(HEARD(YUGLASNO_CALL_STAT, PATH, "STAT\0\0\0\0", 1) == YUGLASNO_ANSWER_UNEXPECTED && word(YUGLASNO_AT_NUMBER) == 0x54415453);
}

/* Settings that no file could have brought about. */
static void bad_settings(void) {
  memcpy(settings + 56, "STAT", 4);
  CHECK(OPEN(YUGLASNO_SETTINGS, 8, 8) == YUGLASNO_ANSWER_EQUAL_IDS);
  CHECK(OPEN(YUGLASNO_SETTINGS, 9, 8) == YUGLASNO_ANSWER_SHORT_MESSAGE_BUFFER);
  settings[59] = 32;
  CHECK(OPEN(YUGLASNO_SETTINGS, 8, 8) == YUGLASNO_ANSWER_BAD_IDS && OPEN(YUGLASNO_SETTINGS - 1, 8, 8) == YUGLASNO_ANSWER_OTHER_LENGTH);
  CHECK(yuglasno_settings(settings, YUGLASNO_SETTINGS) == YUGLASNO_ANSWER_OK && OPEN(YUGLASNO_SETTINGS, 8, 8) == YUGLASNO_ANSWER_OK);
}

/* A refusal, which leaves record and buffers as they were, and tells no reads; with no slice for the reply it tells nothing. */
static uint8_t before[3][sizeof memory[0]];
#define UNTOLD UINT64_C(0xeeeeeeeeeeeeeeee)

static void prepare(void) {
  memcpy(before, memory, sizeof before);
  memset(out + 8 * YUGLASNO_AT_READS, 0xee, 8);
}

static void refused(uint32_t told, uint32_t answer, uint64_t reads, int line) {
  check(told == answer << 8, "the answer", line);
  check(memcmp(before, memory, sizeof before) == 0, "nothing has changed", line);
  check(yuglasno_told_reads(out) == reads, "the reads", line);
}

#define REFUSED(answer, told) (prepare(), refused(told, YUGLASNO_ANSWER_##answer, 0, __LINE__))
#define REFUSED_UNTOLD(answer, told) (prepare(), refused(told, YUGLASNO_ANSWER_##answer, UNTOLD, __LINE__))

/* A path that is too long and has a NUL, in every call that takes a path, with flags that are refused: the NUL comes first. */
static void nul_in_long_path(uint8_t *path, size_t length) {
  const size_t places[] = {0, YUGLASNO_PATH_MOST - 1, YUGLASNO_PATH_MOST, length - 1};
  for (size_t i = 0; i < sizeof places / sizeof *places; i++) {
    path[places[i]] = 0;
    for (uint32_t number = YUGLASNO_CALL_STAT; number <= YUGLASNO_CALL_SEND_V2; number++)
      REFUSED(NUL_IN_PATH, yuglasno_start(SESSION, path, length, number, 0, 3, ANYTIME, REPLY));
    path[places[i]] = 'p';
  }
}

static void refusals(void) {
  static uint8_t path[70000];
  memset(path, 'p', sizeof path);
  open_session("");
  REFUSED_UNTOLD(OTHER_LENGTH, yuglasno_start(SESSION, path, 1, YUGLASNO_CALL_STAT, 0, 0, ANYTIME, NULL, 0));
  REFUSED_UNTOLD(OTHER_LENGTH, yuglasno_start(SESSION, path, 1, YUGLASNO_CALL_STAT, 0, 0, ANYTIME, out, YUGLASNO_REPLY - 1));
  REFUSED(OTHER_LENGTH, yuglasno_start(NULL, 0, rx, CAPACITY, msg, CAPACITY, path, 1, YUGLASNO_CALL_STAT, 0, 0, ANYTIME, REPLY));
  REFUSED(OTHER_LENGTH, yuglasno_start(rec, YUGLASNO_RECORD, NULL, 0, NULL, 0, path, 1, YUGLASNO_CALL_STAT, 0, 0, ANYTIME, REPLY));
  REFUSED(LONG_PATH, yuglasno_start(SESSION, path, YUGLASNO_PATH_MOST + 1, YUGLASNO_CALL_STAT, 0, 0, ANYTIME, REPLY));
  REFUSED(LONG_PATH, yuglasno_start(SESSION, path, sizeof path, YUGLASNO_CALL_RECV_V2, 0, 3, ANYTIME, REPLY));
  REFUSED(NUL_IN_PATH, yuglasno_start(SESSION, (const uint8_t *)"a\0b", 3, YUGLASNO_CALL_STAT, 0, 0, ANYTIME, REPLY));
  nul_in_long_path(path, sizeof path);
  REFUSED(FLAGS, yuglasno_start(SESSION, path, 1, YUGLASNO_CALL_RECV_V2, 0, YUGLASNO_FLAG_DRY_RUN, ANYTIME, REPLY));
  REFUSED(MISSING, yuglasno_start(SESSION, path, 1, YUGLASNO_CALL_LIST_V2, 0, 0, ANYTIME, REPLY));
  CHECK(word(YUGLASNO_AT_KIND) == YUGLASNO_KIND_OTHER && word(YUGLASNO_AT_NUMBER) == YUGLASNO_FEATURE_LS_V2);
  REFUSED(NOT_AWAITED, yuglasno_start(SESSION, NULL, 0, YUGLASNO_CALL_RECV_NEXT + 1, 0, 0, ANYTIME, REPLY));
  REFUSED(NOT_AWAITED, yuglasno_wrote(SESSION, NULL, 0, REPLY));
  CHECK(yuglasno_start(SESSION, path, YUGLASNO_PATH_MOST, YUGLASNO_CALL_STAT, 0, 0, ANYTIME, REPLY) == YUGLASNO_WHAT_WRITE_BYTES);
  CHECK(word(0) == 8 && memcmp(out + 8, "STAT\0\4\0\0", 8) == 0);
}

/* While a read is awaited. */
static void pending(void) {
  open_session("");
  CHECK(yuglasno_what(yuglasno_start(SESSION, NULL, 0, YUGLASNO_CALL_RECV_NEXT, 0, 0, ANYTIME, REPLY)) == YUGLASNO_WHAT_READ);
  CHECK(word(0) == 0 && word(1) == CAPACITY && yuglasno_wanted(rec) == 8);
  CHECK(yuglasno_start(SESSION, NULL, 0, YUGLASNO_CALL_QUIT, 0, 0, ANYTIME, REPLY) == YUGLASNO_ANSWER_PENDING << 8);
  CHECK(yuglasno_read(SESSION, NULL, 0, 0, REPLY) == YUGLASNO_ANSWER_COUNT << 8);
  CHECK(yuglasno_read(SESSION, NULL, 0, CAPACITY + 1, REPLY) == YUGLASNO_ANSWER_COUNT << 8);
  CHECK(yuglasno_read(SESSION, (const uint8_t *)PATH, 2, 1, REPLY) == YUGLASNO_ANSWER_OTHER_LENGTH << 8);
  CHECK(yuglasno_read(SESSION, NULL, 0, 3, REPLY) == YUGLASNO_WHAT_READ);
  CHECK(word(0) == 3 && word(1) == CAPACITY - 3 && yuglasno_wanted(rec) == 5);
  CHECK(yuglasno_fault(SESSION, NULL, 0, YUGLASNO_FAULT_ERROR, 110, REPLY) == YUGLASNO_ANSWER_IO << 8);
  CHECK(word(YUGLASNO_AT_KIND) == YUGLASNO_KIND_OTHER && word(YUGLASNO_AT_NUMBER) == 110 && yuglasno_wanted(rec) == 1);
}

/* Record and buffers moved while a read is awaited: the session goes on where they are then. */
static void moved(void) {
  static uint8_t other[3][sizeof memory[0]];
  open_session("");
  CHECK(yuglasno_start(SESSION, NULL, 0, YUGLASNO_CALL_RECV_NEXT, 0, 0, ANYTIME, REPLY) == YUGLASNO_WHAT_READ);
  memcpy(rx, "DATA\2", 5);
  CHECK(yuglasno_read(SESSION, NULL, 0, 5, REPLY) == YUGLASNO_WHAT_READ && word(0) == 5);
  memcpy(other, memory, sizeof other);
  memset(memory, 0xff, sizeof other);
  memcpy(other[1] + ODD + 5, "\0\0\0no", 5);
  uint32_t told = yuglasno_read(other[0] + ODD, YUGLASNO_RECORD, other[1] + ODD, CAPACITY, other[2] + ODD, CAPACITY, NULL, 0, 5, REPLY);
  CHECK(told == YUGLASNO_ANSWER_OK && word(YUGLASNO_AT_KIND) == YUGLASNO_KIND_CHUNK && word(YUGLASNO_AT_LENGTH) == 2);
  CHECK(memcmp(other[1] + ODD + word(YUGLASNO_AT_START), "no", 2) == 0);
}

static int part_is(const uint8_t *slice, const char *text) {
  return word(YUGLASNO_AT_LENGTH) == strlen(text) && memcmp(slice + word(YUGLASNO_AT_START), text, strlen(text)) == 0;
}

#define STAT1 "\244\201\0\0\316\007\0\0\005\0\0\0"
#define V2(error) error "\0\0\0\1\0\0\0\0\0\0\200\2\0\0\0\0\0\0\0\244\201\0\0\3\0\0\0\4\0\0\0\5\0\0\0\6\0\0\0\0\0\0\200" \
                        "\7\0\0\0\0\0\0\0\377\377\377\377\377\377\377\377\11\0\0\0\0\0\0\0"

static int stat_is_there(void) {
  return word(YUGLASNO_AT_MODE) == 0100644 && word(YUGLASNO_AT_SIZE) == 1998 && word(YUGLASNO_AT_MTIME) == 5;
}

static int stat_v2_is_there(uint64_t error) {
  const uint64_t high = UINT64_C(0x8000000000000000);
  return word(YUGLASNO_AT_V2_ERROR) == error && word(YUGLASNO_AT_V2_DEV) == (high | 1) && word(YUGLASNO_AT_V2_INO) == 2 &&
         word(YUGLASNO_AT_V2_MODE) == 0100644 && word(YUGLASNO_AT_V2_NLINK) == 3 && word(YUGLASNO_AT_V2_UID) == 4 &&
         word(YUGLASNO_AT_V2_GID) == 5 && word(YUGLASNO_AT_V2_SIZE) == (high | 6) && word(YUGLASNO_AT_V2_ATIME) == 7 &&
         (int64_t)word(YUGLASNO_AT_V2_MTIME) == -1 && word(YUGLASNO_AT_V2_CTIME) == 9;
}

static void answered(size_t cut) {
  open_session(ALL);
  CHECK(HEARD(YUGLASNO_CALL_STAT, PATH, "STAT" STAT1, cut) == YUGLASNO_ANSWER_OK && word(YUGLASNO_AT_KIND) == YUGLASNO_KIND_STAT);
  CHECK(stat_is_there() && writes == 10 && memcmp(written, "STAT\2\0\0\0" PATH, 10) == 0);
  CHECK(HEARD(YUGLASNO_CALL_STAT_V2, PATH, "STA2" V2("\0"), cut) == YUGLASNO_ANSWER_OK);
  CHECK(word(YUGLASNO_AT_KIND) == YUGLASNO_KIND_STAT_V2 && stat_v2_is_there(0));
  CHECK(HEARD(YUGLASNO_CALL_NEXT_ENTRY, "", "DENT" STAT1 "\3\0\0\0T98", cut) == YUGLASNO_ANSWER_OK);
  CHECK(word(YUGLASNO_AT_KIND) == YUGLASNO_KIND_ENTRY && stat_is_there() && part_is(rx, "T98"));
  CHECK(HEARD(YUGLASNO_CALL_NEXT_ENTRY_V2, "", "DNT2" V2("\15") "\3\0\0\0T98", cut) == YUGLASNO_ANSWER_OK);
  CHECK(word(YUGLASNO_AT_KIND) == YUGLASNO_KIND_ENTRY_V2 && stat_v2_is_there(13) && part_is(rx, "T98"));
  CHECK(HEARD(YUGLASNO_CALL_RECV_NEXT, "", "DATA\7\0\0\0heights", cut) == YUGLASNO_ANSWER_OK);
  CHECK(word(YUGLASNO_AT_KIND) == YUGLASNO_KIND_CHUNK && part_is(rx, "heights"));
  CHECK(HEARD(YUGLASNO_CALL_RECV_NEXT, "", "DONE\0\0\0\0", cut) == YUGLASNO_ANSWER_OK && word(YUGLASNO_AT_KIND) == YUGLASNO_KIND_END);
  CHECK(HEARD(YUGLASNO_CALL_SEND_DONE, "", "OKAY\0\0\0\0", cut) == YUGLASNO_ANSWER_OK && word(YUGLASNO_AT_KIND) == YUGLASNO_KIND_DONE);
}

static void panels_answers(size_t cut) {
  open_session(ALL);
  CHECK(HEARD(YUGLASNO_CALL_STAT, PATH, "FAIL\2\0\0\0no", cut) == YUGLASNO_ANSWER_FAIL);
  CHECK(word(YUGLASNO_AT_KIND) == YUGLASNO_KIND_OTHER && part_is(msg, "no"));
  CHECK(HEARD(YUGLASNO_CALL_STAT_V2, PATH, "STA2" V2("\2"), cut) == YUGLASNO_ANSWER_ERRNO && word(YUGLASNO_AT_NUMBER) == 2);
  CHECK(HEARD(YUGLASNO_CALL_RECV_NEXT, "", "DATA\377\377\377\377", cut) == YUGLASNO_ANSWER_TOO_LARGE);
  open_session(ALL);
  CHECK(HEARD(YUGLASNO_CALL_STAT, PATH, "LST2\0\0\0\0", cut) == YUGLASNO_ANSWER_UNEXPECTED && word(YUGLASNO_AT_NUMBER) == 0x3254534c);
  open_session(ALL);
  CHECK(HEARD(YUGLASNO_CALL_STAT, PATH, "STA", cut) == YUGLASNO_ANSWER_CLOSED);
}

static void quitting(void) {
  open_session("");
  CHECK(HEARD(YUGLASNO_CALL_QUIT, "", "", 1) == YUGLASNO_ANSWER_OK && writes == 8 && memcmp(written, "QUIT\0\0\0\0", 8) == 0);
  CHECK(yuglasno_start(SESSION, NULL, 0, YUGLASNO_CALL_QUIT, 0, 0, ANYTIME, REPLY) == YUGLASNO_ANSWER_ENDED << 8);
}

/* A record of any other length is none, and not a byte of what is lent changes but that the reply tells no reads. */
static void other_records(void) {
  const size_t lengths[] = {0, 192, 256, 288, 296, YUGLASNO_RECORD - 1, YUGLASNO_RECORD + 1};
  open_session("");
  CHECK(yuglasno_start(SESSION, NULL, 0, YUGLASNO_CALL_RECV_NEXT, 0, 0, ANYTIME, REPLY) == YUGLASNO_WHAT_READ);
  uint8_t as_it_was[YUGLASNO_REPLY];
  memset(as_it_was, 0xee, YUGLASNO_REPLY);
  memset(out, 0xee, YUGLASNO_REPLY);
  for (size_t i = 0; i < sizeof lengths / sizeof *lengths; i++) {
    size_t n = lengths[i];
    REFUSED_UNTOLD(OTHER_LENGTH, yuglasno_open(rec, n, settings, YUGLASNO_SETTINGS, NULL, 0, CAPACITY, CAPACITY) << 8);
    REFUSED(OTHER_LENGTH, yuglasno_start(rec, n, rx, CAPACITY, msg, CAPACITY, NULL, 0, YUGLASNO_CALL_QUIT, 0, 0, ANYTIME, REPLY));
    REFUSED(OTHER_LENGTH, yuglasno_read(rec, n, rx, CAPACITY, msg, CAPACITY, NULL, 0, 1, REPLY));
    REFUSED(OTHER_LENGTH, yuglasno_wrote(rec, n, rx, CAPACITY, msg, CAPACITY, NULL, 0, REPLY));
    REFUSED(OTHER_LENGTH, yuglasno_fault(rec, n, rx, CAPACITY, msg, CAPACITY, NULL, 0, YUGLASNO_FAULT_CLOSED, 0, REPLY));
    CHECK(memcmp(out, as_it_was, 8 * YUGLASNO_AT_READS) == 0);
  }
  CHECK(yuglasno_reads(rec) == 0);
}

static int totals_are(uint64_t received, uint64_t consumed, uint64_t of_pieces) {
  return yuglasno_received(rec) == received && yuglasno_consumed(rec) == consumed && yuglasno_written(rec) == of_pieces;
}

#define LENT (const uint8_t *)PATH, 2

/* A stat, its reply in reads of 3 and 13, and a read of nothing between them. */
static void totals(void) {
  memset(rec, 0xee, YUGLASNO_RECORD);
  open_session("");
  CHECK(totals_are(0, 0, 0) && yuglasno_reads(rec) == 0);
  CHECK(yuglasno_what(yuglasno_start(SESSION, LENT, YUGLASNO_CALL_STAT, 0, 0, ANYTIME, REPLY)) == YUGLASNO_WHAT_WRITE_RX && totals_are(0, 0, 0));
  CHECK(yuglasno_wrote(SESSION, LENT, REPLY) == YUGLASNO_WHAT_READ && totals_are(0, 0, 10));
  memcpy(rx + word(0), "STAT" STAT1, 16);
  CHECK(yuglasno_read(SESSION, LENT, 3, REPLY) == YUGLASNO_WHAT_READ && totals_are(3, 0, 10) && yuglasno_reads(rec) == 1);
  REFUSED(COUNT, yuglasno_read(SESSION, LENT, 0, REPLY));
  REFUSED(PENDING, yuglasno_start(SESSION, LENT, YUGLASNO_CALL_STAT, 0, 0, ANYTIME, REPLY));
  REFUSED(OTHER_LENGTH, yuglasno_read(SESSION, NULL, 0, 13, REPLY));
  CHECK(totals_are(3, 0, 10) && yuglasno_reads(rec) == 1);
  CHECK(yuglasno_read(SESSION, LENT, 13, REPLY) == YUGLASNO_ANSWER_OK && totals_are(16, 16, 10) && reads_are(0, 2, 0));
  REFUSED(NOT_AWAITED, yuglasno_read(SESSION, LENT, 13, REPLY));
  CHECK(yuglasno_reads(rec) == 2);
  CHECK(HEARD(YUGLASNO_CALL_QUIT, "", "", 1) == YUGLASNO_ANSWER_OK && totals_are(16, 16, 18));
  REFUSED(ENDED, yuglasno_wrote(SESSION, NULL, 0, REPLY));
  open_session("");
  CHECK(yuglasno_start(SESSION, LENT, YUGLASNO_CALL_STAT, 0, 0, ANYTIME, REPLY) == YUGLASNO_WHAT_WRITE_RX);
  CHECK(yuglasno_fault(SESSION, LENT, YUGLASNO_FAULT_CLOSED, 0, REPLY) == YUGLASNO_ANSWER_CLOSED << 8 && totals_are(0, 0, 0));
}

/* A FAIL whose text of 20 bytes a buffer of 8 can't hold: what is dropped of it is consumed too. */
static void totals_of_a_fail(void) {
  static const char fail[] = "FAIL\24\0\0\0twenty bytes of text";
  enum { SMALL = 8 };
  size_t at = 0;
  CHECK(OPEN(YUGLASNO_SETTINGS, SMALL, SMALL) == YUGLASNO_ANSWER_OK);
  uint32_t told = yuglasno_start(rec, YUGLASNO_RECORD, rx, SMALL, msg, SMALL, NULL, 0, YUGLASNO_CALL_RECV_NEXT, 0, 0, ANYTIME, REPLY);
  while (yuglasno_what(told) == YUGLASNO_WHAT_READ && at < sizeof fail - 1) {
    size_t count = least(sizeof fail - 1 - at, word(1));
    memcpy(rx + word(0), fail + at, count);
    at += count;
    told = yuglasno_read(rec, YUGLASNO_RECORD, rx, SMALL, msg, SMALL, NULL, 0, count, REPLY);
    CHECK(yuglasno_received(rec) == at);
  }
  CHECK(told == YUGLASNO_ANSWER_FAIL << 8 && part_is(msg, "twenty b") && totals_are(28, 28, 0));
}

/* A call on a fresh session with a buffer of this length: its answer, reads and bytes consumed. */
static int comes_to(size_t room, uint32_t number, const char *reply, size_t length, const size_t *cuts, size_t many, uint32_t answer,
                    uint64_t reads, uint64_t consumed) {
  const char *path = number == YUGLASNO_CALL_STAT ? PATH : "";
  capacity = room;
  open_session("");
  const uint32_t told = call_in(number, path, reply, length, cuts, many);
  return told == answer && yuglasno_told_reads(out) == reads && yuglasno_consumed(rec) == consumed;
}

#define COMES_TO(room, number, reply, cuts, answer, reads, consumed) \
  comes_to(room, YUGLASNO_CALL_##number, reply, sizeof(reply) - 1, cuts, sizeof(cuts) / sizeof *(cuts), YUGLASNO_ANSWER_##answer, reads, consumed)

/* Reads of these lengths; what one brought beyond its call is there for the next, which needs none. */
static void reads(void) {
  const size_t in_two[] = {3, 13}, in_three[] = {1, 6, 1}, in_ones[] = {1}, in_eights[] = {8}, in_one[] = {43};
  CHECK(COMES_TO(16, STAT, "STAT" STAT1, in_two, OK, 2, 16));
  CHECK(COMES_TO(15, STAT, "STAT" STAT1, in_three, TOO_LARGE, 3, 0));
  CHECK(HEARD(YUGLASNO_CALL_STAT, PATH, "", 1) == YUGLASNO_ANSWER_TOO_LARGE && reads_are(YUGLASNO_ANSWER_TOO_LARGE << 8, 0, 0));
  CHECK(COMES_TO(8, RECV_NEXT, "DATA\1\0\0\0x", in_ones, TOO_LARGE, 8, 0));
  CHECK(COMES_TO(8, RECV_NEXT, "FAIL\24\0\0\0twenty bytes of text", in_eights, FAIL, 4, 28));
  CHECK(COMES_TO(64, NEXT_ENTRY, "DENT" STAT1 "\3\0\0\0T98DONE\0\0\0\0\0\0\0\0\0\0\0\0\0\0\0\0", in_one, OK, 1, 23));
  CHECK(HEARD(YUGLASNO_CALL_NEXT_ENTRY, "", "", 1) == YUGLASNO_ANSWER_OK && word(YUGLASNO_AT_KIND) == YUGLASNO_KIND_END && reads_are(0, 0, 23));
  CHECK(COMES_TO(64, STAT, "QUITxxxx", in_ones, UNEXPECTED, 8, 0));
  CHECK(COMES_TO(64, STAT, "STAT", in_two, CLOSED, 2, 0));
  capacity = CAPACITY;
}

/* As if the session had come so far that so many bytes more may be received, and written. */
static void leave_room(uint64_t to_receive, uint64_t to_write) {
  const uint64_t numbers[] = {UINT64_MAX - to_receive, UINT64_MAX - to_receive, UINT64_MAX - to_write};
  for (size_t i = 0; i < 24; i++) rec[8 * YUGLASNO_RECEIVED + i] = (uint8_t)(numbers[i / 8] >> 8 * (i % 8));
}

/* A total may reach 2^64 - 1, and not pass it: 21, behind 3, 6, 5 and 11. */
static void overflow(void) {
  open_session("");
  CHECK(yuglasno_start(SESSION, LENT, YUGLASNO_CALL_STAT, 0, 0, ANYTIME, REPLY) == YUGLASNO_WHAT_WRITE_RX);
  leave_room(15, 9);
  REFUSED(OVERFLOW, yuglasno_wrote(SESSION, LENT, REPLY));
  CHECK(word(YUGLASNO_AT_KIND) == YUGLASNO_KIND_OTHER && word(YUGLASNO_AT_START) == 0 && word(YUGLASNO_AT_LENGTH) == 0);
  REFUSED(OTHER_LENGTH, yuglasno_wrote(SESSION, NULL, 0, REPLY));
  leave_room(15, 10);
  CHECK(yuglasno_wrote(SESSION, LENT, REPLY) == YUGLASNO_WHAT_READ && yuglasno_written(rec) == UINT64_MAX);
  REFUSED(OVERFLOW, yuglasno_read(SESSION, LENT, 16, REPLY));
  REFUSED(OTHER_LENGTH, yuglasno_read(SESSION, NULL, 0, 16, REPLY));
  REFUSED(COUNT, yuglasno_read(SESSION, LENT, 0, REPLY));
  REFUSED(COUNT, yuglasno_read(SESSION, LENT, CAPACITY + 1, REPLY));
  REFUSED(NOT_AWAITED, yuglasno_wrote(SESSION, LENT, REPLY));
  CHECK(yuglasno_read(SESSION, LENT, 15, REPLY) == YUGLASNO_WHAT_READ && yuglasno_received(rec) == UINT64_MAX);
  CHECK(yuglasno_consumed(rec) == UINT64_MAX - 15);
  REFUSED(OVERFLOW, yuglasno_read(SESSION, LENT, 1, REPLY));
  CHECK(yuglasno_fault(SESSION, LENT, YUGLASNO_FAULT_CLOSED, 0, REPLY) == YUGLASNO_ANSWER_CLOSED << 8);
  leave_room(0, 8);
  CHECK(HEARD(YUGLASNO_CALL_QUIT, "", "", 1) == YUGLASNO_ANSWER_OK && yuglasno_written(rec) == UINT64_MAX);
  REFUSED(ENDED, yuglasno_read(SESSION, NULL, 0, 1, REPLY));
}

/* The count of a call's reads may reach 2^64 - 1 too, where a record was altered; a call starts with 0. */
static void overflow_of_reads(void) {
  open_session("");
  memset(rec + 8 * YUGLASNO_READS, 0xff, 8);
  CHECK(yuglasno_start(SESSION, NULL, 0, YUGLASNO_CALL_RECV_NEXT, 0, 0, ANYTIME, REPLY) == YUGLASNO_WHAT_READ && yuglasno_reads(rec) == 0);
  memset(rec + 8 * YUGLASNO_READS, 0xff, 8);
  REFUSED(OVERFLOW, yuglasno_read(SESSION, NULL, 0, 1, REPLY));
  REFUSED(COUNT, yuglasno_read(SESSION, NULL, 0, 0, REPLY));
  rec[8 * YUGLASNO_READS] = 0xfe;
  CHECK(yuglasno_read(SESSION, NULL, 0, 1, REPLY) == YUGLASNO_WHAT_READ && yuglasno_reads(rec) == UINT64_MAX && yuglasno_received(rec) == 1);
  REFUSED(OVERFLOW, yuglasno_read(SESSION, NULL, 0, 1, REPLY));
  CHECK(yuglasno_fault(SESSION, NULL, 0, YUGLASNO_FAULT_CLOSED, 0, REPLY) == YUGLASNO_ANSWER_CLOSED << 8);
  CHECK(reads_are(YUGLASNO_ANSWER_CLOSED << 8, UINT64_MAX, 0));
}

/* An index, whose names have little room. */
enum { AREA = 5 };
static uint8_t slotted[YUGLASNO_SLOTS + ODD], named[AREA + 1 + ODD];
static uint8_t *const slots = slotted + ODD, *const area = named + ODD;

#define SLOTS slots, YUGLASNO_SLOTS

/* Hands over the reply that stands in out: what is answered, and whether slots and area are as they were. */
static uint32_t add(uint32_t told, size_t area_len, size_t reply_len, int *same) {
  static uint8_t slots_before[sizeof slotted], area_before[sizeof named];
  memcpy(slots_before, slotted, sizeof slotted);
  memcpy(area_before, named, sizeof named);
  uint32_t answer = yuglasno_index_add(SLOTS, area, area_len, told, out, reply_len, rx, CAPACITY);
  *same = memcmp(slots_before, slotted, sizeof slotted) == 0 && memcmp(area_before, named, sizeof named) == 0;
  return answer;
}

static int added(void) {
  int same;
  return add(YUGLASNO_WHAT_TOLD, AREA, YUGLASNO_REPLY, &same) == YUGLASNO_ANSWER_OK && !same;
}

static int left_alone(uint32_t answer, uint32_t told, size_t area_len, size_t reply_len) {
  int same;
  return add(told, area_len, reply_len, &same) == answer && same;
}

static int no_entry(uint32_t told) { return left_alone(YUGLASNO_ANSWER_OK, told, AREA, YUGLASNO_REPLY); }

static void index_opening(void) {
  memset(slotted, 0xee, sizeof slotted);
  memset(named, 0xee, sizeof named);
  CHECK(yuglasno_index_open(NULL, 0, AREA) == YUGLASNO_ANSWER_OTHER_LENGTH);
  CHECK(yuglasno_index_open(slots, YUGLASNO_SLOTS - 1, AREA) == YUGLASNO_ANSWER_OTHER_LENGTH && slots[0] == 0xee);
  CHECK(yuglasno_index_between(SLOTS, AREA, 0, 9, REPLY) == YUGLASNO_ANSWER_OTHER_LENGTH);
  CHECK(yuglasno_index_open(SLOTS, AREA) == YUGLASNO_ANSWER_OK);
  CHECK(yuglasno_index_between(SLOTS, AREA, INT64_MIN, INT64_MAX, REPLY) == YUGLASNO_ANSWER_OK && word(YUGLASNO_SPAN_MANY) == 0);
}

/* Entries of both versions, one of them with an errno; replies that are none; and room that runs out. */
static void index_filling(size_t cut) {
  open_session(ALL);
  CHECK(HEARD(YUGLASNO_CALL_NEXT_ENTRY, "", "DENT" STAT1 "\1\0\0\0a", cut) == YUGLASNO_ANSWER_OK && added());
  CHECK(HEARD(YUGLASNO_CALL_NEXT_ENTRY_V2, "", "DNT2" V2("\15") "\2\0\0\0bc", cut) == YUGLASNO_ANSWER_OK && added());
  CHECK(HEARD(YUGLASNO_CALL_STAT, PATH, "STAT" STAT1, cut) == YUGLASNO_ANSWER_OK && no_entry(YUGLASNO_WHAT_TOLD));
  CHECK(HEARD(YUGLASNO_CALL_RECV_NEXT, "", "DATA\1\0\0\0x", cut) == YUGLASNO_ANSWER_OK && no_entry(YUGLASNO_WHAT_TOLD));
  CHECK(HEARD(YUGLASNO_CALL_STAT, PATH, "FAIL\2\0\0\0no", cut) == YUGLASNO_ANSWER_FAIL && no_entry(YUGLASNO_ANSWER_FAIL << 8));
  CHECK(HEARD(YUGLASNO_CALL_NEXT_ENTRY, "", "DENT" STAT1 "\3\0\0\0def", cut) == YUGLASNO_ANSWER_OK && no_entry(YUGLASNO_WHAT_READ));
  CHECK(left_alone(YUGLASNO_ANSWER_INDEX_FULL, 0, AREA, YUGLASNO_REPLY));
  CHECK(left_alone(YUGLASNO_ANSWER_OTHER_LENGTH, 0, AREA + 1, YUGLASNO_REPLY));
  CHECK(left_alone(YUGLASNO_ANSWER_OTHER_LENGTH, 0, AREA - 1, YUGLASNO_REPLY));
  CHECK(left_alone(YUGLASNO_ANSWER_OTHER_LENGTH, 0, AREA, YUGLASNO_REPLY - 1));
  CHECK(yuglasno_index_add(NULL, 0, NULL, 0, 0, NULL, 0, NULL, 0) == YUGLASNO_ANSWER_OTHER_LENGTH);
  CHECK(HEARD(YUGLASNO_CALL_NEXT_ENTRY, "", "DENT" STAT1 "\2\0\0\0gh", cut) == YUGLASNO_ANSWER_OK && added());
  CHECK(memcmp(area, "abcgh\356", AREA + 1) == 0);
}

static int spans(uint32_t told, uint64_t many, uint64_t first) {
  return told == YUGLASNO_ANSWER_OK && word(YUGLASNO_SPAN_MANY) == many && word(YUGLASNO_SPAN_FIRST) == first;
}

/* The entry of a rank, by its name, number and time. */
static int ranks(size_t rank, const char *name, uint64_t number, int64_t mtime) {
  if (yuglasno_index_entry(SLOTS, AREA, rank, REPLY) != YUGLASNO_ANSWER_OK || word(YUGLASNO_ITEM_THERE) != 1) return 0;
  return word(YUGLASNO_ITEM_LENGTH) == strlen(name) && memcmp(area + word(YUGLASNO_ITEM_START), name, strlen(name)) == 0 &&
         word(YUGLASNO_ITEM_NUMBER) == number && (int64_t)word(YUGLASNO_ITEM_MTIME) == mtime;
}

static void index_queries(void) {
  memset(out, 0xee, YUGLASNO_REPLY);
  CHECK(spans(yuglasno_index_between(SLOTS, AREA, -1, 5, REPLY), 3, 0) && spans(yuglasno_index_between(SLOTS, AREA, 0, 5, REPLY), 2, 1));
  CHECK(yuglasno_index_between(SLOTS, AREA, 5, 4, REPLY) == YUGLASNO_ANSWER_OK && word(YUGLASNO_SPAN_MANY) == 0);
  CHECK(spans(yuglasno_index_latest(SLOTS, AREA, INT64_MAX, REPLY), 1, 1) && spans(yuglasno_index_latest(SLOTS, AREA, 4, REPLY), 1, 0));
  CHECK(yuglasno_index_latest(SLOTS, AREA, -2, REPLY) == YUGLASNO_ANSWER_OK && word(YUGLASNO_SPAN_MANY) == 0 && out[16] == 0xee);
  CHECK(ranks(0, "bc", 1, -1) && ranks(1, "a", 0, 5) && ranks(2, "gh", 2, 5) && out[40] == 0xee);
  CHECK(yuglasno_index_entry(SLOTS, AREA, 3, REPLY) == YUGLASNO_ANSWER_OK && word(YUGLASNO_ITEM_THERE) == 0);
  memset(out, 0xee, YUGLASNO_REPLY);
  CHECK(yuglasno_index_between(slots, YUGLASNO_SLOTS - 1, AREA, 0, 9, REPLY) == YUGLASNO_ANSWER_OTHER_LENGTH);
  CHECK(yuglasno_index_latest(SLOTS, AREA + 1, 9, REPLY) == YUGLASNO_ANSWER_OTHER_LENGTH);
  CHECK(yuglasno_index_entry(SLOTS, AREA, 0, out, YUGLASNO_REPLY - 1) == YUGLASNO_ANSWER_OTHER_LENGTH);
  CHECK(yuglasno_index_entry(NULL, 0, 0, 0, NULL, 0) == YUGLASNO_ANSWER_OTHER_LENGTH && word(0) == UINT64_C(0xeeeeeeeeeeeeeeee));
}

int main(void) {
  opening();
  ids();
  bad_settings();
  refusals();
  pending();
  moved();
  for (size_t cut = 1; cut <= CAPACITY; cut += 50) {
    answered(cut);
    panels_answers(cut);
    index_opening();
    index_filling(cut);
    index_queries();
  }
  quitting();
  other_records();
  totals();
  totals_of_a_fail();
  reads();
  overflow();
  overflow_of_reads();
  printf("%d passed, %d failed\n", passed, failed);
  return failed != 0;
}
