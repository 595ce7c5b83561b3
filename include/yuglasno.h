/* The seventeen functions of libexports.a: the host's side of ADB's sync: service (stat, list, pull, push), without I/O, a heap or a clock;
 * an index of a listing's entries by their times; for the panel's side a writer of replies and a reader of requests; and the date of a moment.
 *
 * A session lives in a record and two buffers of the host's. The host starts a call, does what the library asks (read, write, close),
 * reports what came of it, and so on until the call is answered. examples/pull.c and examples/push.c are whole programs.
 *
 * What is lent
 *   rec     the session: YUGLASNO_RECORD bytes, written by yuglasno_open and by no one else
 *   settings  what a session is opened with: YUGLASNO_SETTINGS bytes, written by yuglasno_settings, yuglasno_ids and yuglasno_hours. A
 *           session keeps what it was opened with: settings may change or go once yuglasno_open has returned
 *   file    the bytes of an ids file, or of an hours file
 *   rx      the receive buffer: 8 bytes at least; a reply that it can't hold is answered TOO_LARGE. YUGLASNO_CAPACITY takes any DATA
 *   msg     the message buffer, for the text of a FAIL: at least as long as rx
 *   lent    the path or the data of the call
 *   out     takes the reply: YUGLASNO_REPLY bytes at least
 *   slots   an index: YUGLASNO_SLOTS bytes, written by yuglasno_index_open and yuglasno_index_add and by no one else
 *   area    takes the names of an index, end to end from its front, YUGLASNO_INDEX_NAMES bytes of them at most; what stands behind them is
 *           left alone
 *   reply   the out of a session's call, as the library left it
 *   numbers the numbers of a panel's reply: words of eight bytes, the lowest first; told takes its length: YUGLASNO_REPLY bytes at least
 *   bytes   what a panel has heard of a host
 * A slice crosses as address and length. It needs no alignment; NULL with length 0 is fine. Slices must not overlap. The library keeps
 * no address: it reads and writes inside the slices, and only until it returns. rx and msg have the same lengths in every call and report
 * of a session; from a call's start to its answer lent has the same length and the same bytes. The host alters rec nowhere, and rx only
 * in the window that it is to read into. area has the same length from the opening of its index on, and the host alters neither slots nor
 * the names in it. No address is kept, so record, buffers, slots and area may be moved as plain bytes between two calls.
 * Each function answers every input; two threads may be in the library at once, each with slices of its own.
 *
 * What is returned: two forms of number
 *   yuglasno_settings, yuglasno_ids, yuglasno_hours, yuglasno_may_push, yuglasno_open, the five of the index, the two of the panel's side
 *   and yuglasno_date   the answer's number alone
 *   the other four  what + 256 * number: yuglasno_what() says what is asked (YUGLASNO_WHAT_..), and of WHAT_TOLD yuglasno_answer() is the
 *                   answer's number (YUGLASNO_ANSWER_..). Where something is asked, number is 0 and means nothing.
 *
 * What stands in out: words of eight bytes, the lowest first; yuglasno_word() reads them
 *   WHAT_READ         word 0 where the window starts in rx, word 1 its length: read 1 byte to the whole window, to its front
 *   WHAT_WRITE_RX     word 0 where the piece starts in rx, word 1 its length: write it whole. A panel may be gone by then: on POSIX have
 *                     SIGPIPE ignored, so that this is FAULT_CLOSED and not the program's end
 *   WHAT_WRITE_LENT   the same, in lent
 *   WHAT_WRITE_BYTES  word 0 how many bytes, at most 16; they stand in out from byte 8 on
 *   WHAT_CLOSE        nothing
 *   WHAT_TOLD         word 0 a kind (YUGLASNO_KIND_..), word 1 where a part starts, word 2 its length, then numbers by the kind:
 *     KIND_DONE, KIND_END         none
 *     KIND_STAT, KIND_STAT_V2     the words YUGLASNO_AT_.., YUGLASNO_AT_V2_..
 *     KIND_ENTRY, KIND_ENTRY_V2   the same words; the part is the entry's name, in rx
 *     KIND_CHUNK                  none; the part is data, in rx
 *     KIND_OTHER                  an answer that is not OK. Word 3 is the feature (MISSING), the code that was reported (IO), an id as the
 *                                 number that its four bytes spell, the lowest first (UNEXPECTED), the panel's errno (ERRNO); the part is
 *                                 a FAIL's text, in msg. Other answers have no part and no number
 *     each of them                word AT_READS, behind all others: how many reads the call accepted until it was over; 0 of a refusal
 *   OTHER_LENGTH      out is left alone where it is too short itself; where rec has another length or holds no session, but for word AT_READS
 * A part stands until the next call.
 *
 * What a query of an index puts in out: words too, and no other byte
 *   yuglasno_index_between, yuglasno_index_latest   the words YUGLASNO_SPAN_..: how many entries, and the rank of the first. Ranks count
 *                                                   from 0, in time order, equal times in listing order
 *   yuglasno_index_entry                            the words YUGLASNO_ITEM_..; all 0 where no entry has that rank
 *
 * What the panel's side has: no state, and what is told is words too, and no other byte
 *   yuglasno_speak   the reply at the front of out; in told the word YUGLASNO_SPOKEN_LENGTH
 *   yuglasno_heard   the words YUGLASNO_HEARD_..
 *
 * What stands in out of yuglasno_date: the words YUGLASNO_DATE_.., and no other byte
 *
 * What of the record may be read, whenever none of the functions is at work on it: how many bytes a read still wants, by yuglasno_wanted(); the session's totals, by
 * yuglasno_received(), yuglasno_consumed() and yuglasno_written(); a call's reads, by yuglasno_reads(); the hours, from byte YUGLASNO_HOURS_IN_RECORD on. All else in
 * it is the library's own. */
#ifndef YUGLASNO_H
#define YUGLASNO_H

#include <stddef.h>
#include <stdint.h>

#ifdef __cplusplus
extern "C" {
#endif

#define YUGLASNO_RECORD 328     /* bytes of a record */
#define YUGLASNO_SETTINGS 128   /* bytes of settings */
#define YUGLASNO_REPLY 120      /* bytes of a slice that takes any reply */
#define YUGLASNO_DATA_MOST 65536 /* the most bytes in one DATA message */
#define YUGLASNO_CAPACITY 65544 /* bytes of a receive buffer that takes every DATA message, with its header */
#define YUGLASNO_PATH_MOST 1024 /* the most bytes of a path */
#define YUGLASNO_SLOTS 65568    /* bytes of an index's slots */
#define YUGLASNO_INDEX_ENTRIES 4096 /* the most entries of an index */
#define YUGLASNO_INDEX_NAMES 65536 /* the most bytes of an index's names, together */

/* The calls. lent is the path, or DATA's data; NEXT_ENTRY and the other calls without either may be lent anything, such as NULL.
 * a is the mode of a push or SEND_DONE's time, b the flags of a v2 transfer, moment when a push starts, in Unix seconds; where a call has no
 * use for one it is not looked at. Without hours every moment will do. */
enum {                              /* lent   a     b      moment */
  YUGLASNO_CALL_STAT = 1,           /* path                       */
  YUGLASNO_CALL_STAT_V2 = 2,        /* path                       */
  YUGLASNO_CALL_LIST = 3,           /* path                       */
  YUGLASNO_CALL_LIST_V2 = 4,        /* path                       */
  YUGLASNO_CALL_RECV = 5,           /* path                       */
  YUGLASNO_CALL_RECV_V2 = 6,        /* path         flags         */
  YUGLASNO_CALL_SEND = 7,           /* path   mode         moment */
  YUGLASNO_CALL_SEND_V2 = 8,        /* path   mode  flags  moment */
  YUGLASNO_CALL_DATA = 9,           /* data                       */
  YUGLASNO_CALL_SEND_DONE = 10,     /*        time                */
  YUGLASNO_CALL_QUIT = 11,
  YUGLASNO_CALL_NEXT_ENTRY = 12,    /* after LIST, until KIND_END */
  YUGLASNO_CALL_NEXT_ENTRY_V2 = 13, /* after LIST_V2, until KIND_END */
  YUGLASNO_CALL_RECV_NEXT = 14      /* after RECV or RECV_V2, until KIND_END */
};

/* The flags of a v2 transfer: one packing at most, and DRY_RUN of a push alone. The packing itself is the host's. */
#define YUGLASNO_FLAG_NONE 0x00000000u
#define YUGLASNO_FLAG_BROTLI 0x00000001u
#define YUGLASNO_FLAG_LZ4 0x00000002u
#define YUGLASNO_FLAG_ZSTD 0x00000004u
#define YUGLASNO_FLAG_DRY_RUN 0x80000000u

/* What is asked or told, and how to report it. */
enum {
  YUGLASNO_WHAT_TOLD = 0,        /* the call or the report is answered */
  YUGLASNO_WHAT_READ = 1,        /* yuglasno_read with the count, or yuglasno_fault */
  YUGLASNO_WHAT_WRITE_RX = 2,    /* yuglasno_wrote once it is written whole, or yuglasno_fault */
  YUGLASNO_WHAT_WRITE_LENT = 3,  /* the same */
  YUGLASNO_WHAT_WRITE_BYTES = 4, /* the same */
  YUGLASNO_WHAT_CLOSE = 5        /* yuglasno_wrote once it is closed, or yuglasno_fault */
};

/* The kinds of a fault; any other kind is an error too. */
enum {
  YUGLASNO_FAULT_CLOSED = 0, /* the channel was found closed; code is not looked at */
  YUGLASNO_FAULT_ERROR = 1   /* another fault, with a code of the host's own */
};

/* The answers. 1 to 11 and 18 to 25 change nothing: record, settings, buffers, slots, area and a pending call are as before. Where
 * several apply, the first of 1, 2, then 3, 6, 4, 5, 8, 7, 9, 10, 25 is answered; of a report 3, 6, 5, 11, 21. Of a table of ids
 * it is 22, then 23, behind 1 to 3, and of an opening's hours 24 behind them. Of an index it is 3, then 19. Of a reply it is 3 for told,
 * then the settings' answer (3, 22, 23), then 3 for its kind and numbers, then 20; of a request 3 for out, then the settings' answer, then 18.
 * Of yuglasno_may_push it is 3, 24, 25. docs/ANSWERS.md says what to do. */
enum {
  YUGLASNO_ANSWER_OK = 0,
  YUGLASNO_ANSWER_SMALL_BUFFER = 1,         /* rx is under 8 bytes */
  YUGLASNO_ANSWER_SHORT_MESSAGE_BUFFER = 2, /* msg is shorter than rx */
  YUGLASNO_ANSWER_OTHER_LENGTH = 3,         /* a slice has another length than it must have, or rec holds no session, or slots no index;
                                               or a panel's reply has no such kind, or a number is not there or too wide for its field */
  YUGLASNO_ANSWER_PENDING = 4,              /* a call while one is pending */
  YUGLASNO_ANSWER_NOT_AWAITED = 5,          /* a report that is not awaited, or no such call */
  YUGLASNO_ANSWER_ENDED = 6,                /* a call or report after quit */
  YUGLASNO_ANSWER_LONG_PATH = 7,            /* a path over YUGLASNO_PATH_MOST bytes, none of them NUL */
  YUGLASNO_ANSWER_NUL_IN_PATH = 8,          /* a NUL in the path, however long it is */
  YUGLASNO_ANSWER_FLAGS = 9,                /* flags that no transfer of this kind takes */
  YUGLASNO_ANSWER_MISSING = 10,             /* the banner lacks a feature: word 3 */
  YUGLASNO_ANSWER_COUNT = 11,               /* a read of no bytes, or of more than the window */
  YUGLASNO_ANSWER_CLOSED = 12,              /* the channel is closed */
  YUGLASNO_ANSWER_IO = 13,                  /* another fault of the link: word 3 is its code */
  YUGLASNO_ANSWER_FAIL = 14,                /* the panel's FAIL: its text is a part of msg */
  YUGLASNO_ANSWER_UNEXPECTED = 15,          /* a reply under an id that does not belong there: word 3 */
  YUGLASNO_ANSWER_ERRNO = 16,               /* the panel's errno in a v2 stat: word 3 */
  YUGLASNO_ANSWER_TOO_LARGE = 17,           /* a reply that rx can't hold */
  YUGLASNO_ANSWER_BAD_REQUEST = 18,         /* of yuglasno_heard: the bytes are no request of a host */
  YUGLASNO_ANSWER_INDEX_FULL = 19,          /* slots or name bytes run out: no room for the entry */
  YUGLASNO_ANSWER_LONG_REPLY = 20,          /* of yuglasno_speak: out can't hold the reply, data is over YUGLASNO_DATA_MOST bytes, or a name or
                                               text has 2^32 or more */
  YUGLASNO_ANSWER_OVERFLOW = 21,            /* a read or a write that would take a total, or a read that would take the call's reads, past
                                               2^64 - 1: it is not counted, and is still awaited */
  YUGLASNO_ANSWER_BAD_IDS = 22,             /* a file, or the settings of an opening, is no table of ids */
  YUGLASNO_ANSWER_EQUAL_IDS = 23,           /* two ids of the table are equal */
  YUGLASNO_ANSWER_BAD_HOURS = 24,           /* bad hours, in a file or in settings */
  YUGLASNO_ANSWER_OUTSIDE_HOURS = 25        /* a push outside the hours in which one may start: nothing is written */
};

/* The features of a banner, as answer MISSING numbers them. */
enum {
  YUGLASNO_FEATURE_STAT_V2 = 1,
  YUGLASNO_FEATURE_LS_V2 = 2,
  YUGLASNO_FEATURE_SENDRECV_V2 = 3,
  YUGLASNO_FEATURE_BROTLI = 4,
  YUGLASNO_FEATURE_LZ4 = 5,
  YUGLASNO_FEATURE_ZSTD = 6,
  YUGLASNO_FEATURE_DRY_RUN_SEND = 7
};

/* The kinds of a WHAT_TOLD. */
enum {
  YUGLASNO_KIND_DONE = 0,     /* the call is done */
  YUGLASNO_KIND_END = 1,      /* the listing or the pull is at its end */
  YUGLASNO_KIND_STAT = 2,     /* to STAT */
  YUGLASNO_KIND_STAT_V2 = 3,  /* to STAT_V2 */
  YUGLASNO_KIND_ENTRY = 4,    /* to NEXT_ENTRY */
  YUGLASNO_KIND_ENTRY_V2 = 5, /* to NEXT_ENTRY_V2 */
  YUGLASNO_KIND_CHUNK = 6,    /* to RECV_NEXT */
  YUGLASNO_KIND_OTHER = 7     /* an answer that is not OK */
};

/* Where a WHAT_TOLD has its words: kind and part, then those of KIND_STAT and KIND_ENTRY, then those of KIND_STAT_V2 and KIND_ENTRY_V2; last,
 * whatever the kind, the reads. The times of v2 are signed: (int64_t) of the word. */
enum {
  YUGLASNO_AT_KIND = 0,
  YUGLASNO_AT_START = 1,
  YUGLASNO_AT_LENGTH = 2,
  YUGLASNO_AT_NUMBER = 3, /* of MISSING, IO, UNEXPECTED, ERRNO */
  YUGLASNO_AT_MODE = 3,
  YUGLASNO_AT_SIZE = 4,
  YUGLASNO_AT_MTIME = 5,
  YUGLASNO_AT_V2_ERROR = 3, /* the panel's errno: not 0 only in an entry */
  YUGLASNO_AT_V2_DEV = 4,
  YUGLASNO_AT_V2_INO = 5,
  YUGLASNO_AT_V2_MODE = 6,
  YUGLASNO_AT_V2_NLINK = 7,
  YUGLASNO_AT_V2_UID = 8,
  YUGLASNO_AT_V2_GID = 9,
  YUGLASNO_AT_V2_SIZE = 10,
  YUGLASNO_AT_V2_ATIME = 11,
  YUGLASNO_AT_V2_MTIME = 12,
  YUGLASNO_AT_V2_CTIME = 13,
  YUGLASNO_AT_READS = 14 /* the reads that the call accepted; 0 of a refusal, and of a call that needed none */
};

/* Where a record has a session's totals and a call's reads, which are a host's to read and never to write: the words 32, 33, 34 and 36, of eight
 * bytes each from byte 256 on; word 35 is the library's own. An opening makes them 0. A report that is refused, a fault and the close add nothing.
 * A read is a yuglasno_read that was accepted. A call that is answered anything but CLOSED or IO has accepted at most 8 more of them than it has
 * consumed bytes. What a read brought beyond its call is there for the next, which may so need none. */
enum {
  YUGLASNO_RECEIVED = 32, /* the counts of the reads that were accepted, summed */
  YUGLASNO_CONSUMED = 33, /* of these bytes those that the session is done with, dropped ones too; the others are held in rx */
  YUGLASNO_WRITTEN = 34,  /* the lengths of the pieces that were accepted, summed */
  YUGLASNO_READS = 36     /* the reads of the call that is pending, until now, or of the one that was last over; a call starts with 0 */
};

/* Where hours stand, 32 bytes: in settings, and in a record those that its session was opened with. The first is 1, or 0 where there are no
 * hours; three zeros; then for each day from Monday on the minute it opens and the minute it closes, two bytes each, the lowest first, both 0
 * for a day without hours. */
enum {
  YUGLASNO_HOURS_SIZE = 32,
  YUGLASNO_HOURS_IN_SETTINGS = 60,
  YUGLASNO_HOURS_IN_RECORD = 296
};

/* Where a date has its words. */
enum {
  YUGLASNO_DATE_YEAR = 0,
  YUGLASNO_DATE_MONTH = 1,   /* from 1 */
  YUGLASNO_DATE_DAY = 2,     /* from 1 */
  YUGLASNO_DATE_WEEKDAY = 3, /* 0 is Monday, 6 Sunday */
  YUGLASNO_DATE_MINUTE = 4   /* of the day, from 0 to 1439 */
};

/* Where a query of an index has its words. */
enum {
  YUGLASNO_SPAN_MANY = 0,  /* how many entries; of the latest 0 or 1 */
  YUGLASNO_SPAN_FIRST = 1, /* the rank of the first */
  YUGLASNO_ITEM_THERE = 0, /* 1, or 0 where no entry has that rank */
  YUGLASNO_ITEM_START = 1, /* where its name starts in area */
  YUGLASNO_ITEM_LENGTH = 2,
  YUGLASNO_ITEM_NUMBER = 3, /* how many entries the index held before it: its place in the listing, where none was turned away */
  YUGLASNO_ITEM_MTIME = 4   /* signed: (int64_t) of the word */
};

/* The kinds of a panel's reply. Up to SAY_CHUNK they are the numbers of the kinds of a WHAT_TOLD, so that a stat, an entry or a chunk that a
 * session was told can be said again: numbers is then the reply from its byte 24 on, lent the part. A listing's end is told as KIND_END, and
 * said as SAY_LISTING_END or SAY_LISTING_END_V2. */
enum {                               /* bytes          numbers  lent */
  YUGLASNO_SAY_OKAY = 0,             /* OKAY, 8                      */
  YUGLASNO_SAY_END = 1,              /* DONE, 8                      a pull's end */
  YUGLASNO_SAY_STAT = 2,             /* STAT, 16       3             */
  YUGLASNO_SAY_STAT_V2 = 3,          /* STA2, 72       11            */
  YUGLASNO_SAY_ENTRY = 4,            /* DENT, 20       3        name */
  YUGLASNO_SAY_ENTRY_V2 = 5,         /* DNT2, 76       11       name */
  YUGLASNO_SAY_CHUNK = 6,            /* DATA, 8                 data */
  YUGLASNO_SAY_FAIL = 7,             /* FAIL, 8                 text */
  YUGLASNO_SAY_LISTING_END = 8,      /* DONE, 20                     a listing's end */
  YUGLASNO_SAY_LISTING_END_V2 = 9    /* DONE, 76                     a v2 listing's end */
};

/* Where the panel's side has its words: that of yuglasno_speak in told, those of yuglasno_heard in out. */
enum {
  YUGLASNO_SPOKEN_LENGTH = 0, /* of the reply, in bytes */
  YUGLASNO_HEARD_CALL = 0,    /* the request by its call's number, from CALL_STAT to CALL_QUIT; 0 where more bytes are wanted, and all six are 0 */
  YUGLASNO_HEARD_START = 1,   /* where the path or the data starts in bytes */
  YUGLASNO_HEARD_LENGTH = 2,  /* how long it is; 0 where the request has none */
  YUGLASNO_HEARD_FIRST = 3,   /* the mode of a push, or SEND_DONE's time; else 0 */
  YUGLASNO_HEARD_FLAGS = 4,   /* the flags of a v2 transfer; else 0 */
  YUGLASNO_HEARD_SIZE = 5     /* the length of the whole request: the next one starts behind it */
};

/* Makes settings the published ones: the fifteen ids of the public documents, four bytes each, in the order STAT, STA2, LIST, LIS2, SEND,
 * SND2, RECV, RCV2, DATA, DONE, OKAY, FAIL, DENT, DNT2, QUIT, then zeros: no hours. OK, or OTHER_LENGTH. */
uint32_t yuglasno_settings(uint8_t *settings, size_t settings_len);

/* Puts the ids of a file in the place of those in settings. The file has two lines, each with byte 10 at its end: the published ids, joined
 * by commas in that order, and what is put for each, four bytes from 33 to 126 without a comma, joined likewise. OK; or OTHER_LENGTH for
 * settings, BAD_IDS for a file of another form, EQUAL_IDS for one with two equal values, and settings are as before. */
uint32_t yuglasno_ids(uint8_t *settings, size_t settings_len, const uint8_t *file, size_t file_len);

/* Puts the hours of a file in the place of those in settings, or of none. The file has the line day,open,close and up to seven lines, each
 * with byte 10 at its end: a day, 0 for Monday to 6, and the minutes of that day, in UTC, from which (it is included) and until which (it is
 * not) a push may start, open below close and close at most 1440. Days rise from line to line; the numbers are decimal, without sign, blank
 * or a 0 in front. The first line alone are hours in which no push starts. OK; or OTHER_LENGTH for settings, BAD_HOURS for a file of another
 * form, and settings are as before. */
uint32_t yuglasno_hours(uint8_t *settings, size_t settings_len, const uint8_t *file, size_t file_len);

/* Whether the hours in settings let a push start at a moment, in Unix seconds: OK, also where there are none, or OUTSIDE_HOURS. Ahead of that
 * OTHER_LENGTH for settings, and BAD_HOURS for hours that yuglasno_hours would not have put there. A session that is opened with these
 * settings answers a push alike. */
uint32_t yuglasno_may_push(const uint8_t *settings, size_t settings_len, uint32_t moment);

/* The date of a moment in UTC, by the Gregorian calendar. OK, or OTHER_LENGTH where out has under YUGLASNO_REPLY bytes. */
uint32_t yuglasno_date(uint32_t moment, uint8_t *out, size_t out_len);

/* Opens a session in rec, for buffers of these two lengths, under the ids and with the hours in settings. Of the banner only "features=.."
 * counts. OK; or SMALL_BUFFER, SHORT_MESSAGE_BUFFER, OTHER_LENGTH for rec or settings, then BAD_IDS or EQUAL_IDS where settings have ids that
 * yuglasno_ids would not have put there, then BAD_HOURS where they have such hours. */
uint32_t yuglasno_open(uint8_t *rec, size_t rec_len, const uint8_t *settings, size_t settings_len, const uint8_t *banner, size_t banner_len,
                       size_t rx, size_t msg);

/* Starts a call. A push outside the session's hours is OUTSIDE_HOURS, and nothing is asked; one that has begun goes on past them. */
uint32_t yuglasno_start(uint8_t *rec, size_t rec_len, uint8_t *rx, size_t rx_len, uint8_t *msg, size_t msg_len,
                        const uint8_t *lent, size_t lent_len, uint32_t call, uint32_t a, uint32_t b, uint32_t moment, uint8_t *out,
                        size_t out_len);

/* Reports that count bytes were read to the front of the window. */
uint32_t yuglasno_read(uint8_t *rec, size_t rec_len, uint8_t *rx, size_t rx_len, uint8_t *msg, size_t msg_len,
                       const uint8_t *lent, size_t lent_len, size_t count, uint8_t *out, size_t out_len);

/* Reports that the piece was written whole, or that the channel is closed as asked. */
uint32_t yuglasno_wrote(uint8_t *rec, size_t rec_len, uint8_t *rx, size_t rx_len, uint8_t *msg, size_t msg_len,
                        const uint8_t *lent, size_t lent_len, uint8_t *out, size_t out_len);

/* Reports a fault of what was asked for: YUGLASNO_FAULT_CLOSED, or an error with its code. */
uint32_t yuglasno_fault(uint8_t *rec, size_t rec_len, uint8_t *rx, size_t rx_len, uint8_t *msg, size_t msg_len,
                        const uint8_t *lent, size_t lent_len, uint32_t kind, uint32_t code, uint8_t *out, size_t out_len);

/* Makes slots an index that holds nothing, for an area of this length, which may be any. OK, or OTHER_LENGTH for slots. */
uint32_t yuglasno_index_open(uint8_t *slots, size_t slots_len, size_t area);

/* Adds the entry that a session's call was answered with: told is what yuglasno_start or a report returned, reply its out, rx the receive
 * buffer as it was left. A reply that is no entry adds nothing and is OK, so that every reply of a listing may be handed over, once each. An
 * entry of v2 with an errno is one too. OTHER_LENGTH for slots that are no index of an area of this length, or a reply that no session
 * wrote; INDEX_FULL where YUGLASNO_INDEX_ENTRIES are held, or the name does not fit behind the others. The session is not touched. */
uint32_t yuglasno_index_add(uint8_t *slots, size_t slots_len, uint8_t *area, size_t area_len, uint32_t told, const uint8_t *reply,
                            size_t reply_len, const uint8_t *rx, size_t rx_len);

/* The entries with an mtime from `from` to `to`, both included. Of the area a query is told the length alone. OK, or OTHER_LENGTH, of each of
 * the three. */
uint32_t yuglasno_index_between(const uint8_t *slots, size_t slots_len, size_t area, int64_t from, int64_t to, uint8_t *out,
                                size_t out_len);

/* The latest entry at or before a time; of equal times the first listed. */
uint32_t yuglasno_index_latest(const uint8_t *slots, size_t slots_len, size_t area, int64_t time, uint8_t *out, size_t out_len);

/* The entry of a rank. OTHER_LENGTH also where the host altered slots so that the name is none of those in the area. */
uint32_t yuglasno_index_entry(const uint8_t *slots, size_t slots_len, size_t area, size_t rank, uint8_t *out, size_t out_len);

/* Writes one reply of a panel to the front of out, under the ids in settings. numbers are those of a stat or an entry, in the order of the words
 * AT_MODE to AT_MTIME, or AT_V2_ERROR to AT_V2_CTIME, from numbers' front; bytes behind them are not looked at. lent is an entry's name, a
 * chunk's data or a FAIL's text, any bytes, also none. Behind the id of OKAY and DONE all is 0. OK, and out's bytes behind the reply are as
 * they were; or OTHER_LENGTH, BAD_IDS, EQUAL_IDS, LONG_REPLY, and so are all of out and told. */
uint32_t yuglasno_speak(const uint8_t *settings, size_t settings_len, uint32_t kind, const uint8_t *numbers, size_t numbers_len,
                        const uint8_t *lent, size_t lent_len, uint8_t *out, size_t out_len, uint8_t *told, size_t told_len);

/* Reads the request at the front of bytes, under the ids in settings. OK, also where more bytes are wanted; or OTHER_LENGTH, BAD_IDS,
 * EQUAL_IDS, BAD_REQUEST, and out is as it was. */
uint32_t yuglasno_heard(const uint8_t *settings, size_t settings_len, const uint8_t *bytes, size_t bytes_len, uint8_t *out,
                        size_t out_len);

/* What is asked, of a number that yuglasno_start or a report returned. */
static inline uint32_t yuglasno_what(uint32_t returned) { return returned & 255; }

/* The answer's number, of one whose what is YUGLASNO_WHAT_TOLD. */
static inline uint32_t yuglasno_answer(uint32_t returned) { return returned >> 8; }

/* Word i of a reply or a record. */
static inline uint64_t yuglasno_word(const uint8_t *bytes, size_t i) {
  uint64_t word = 0;
  for (size_t k = 8; k-- > 0;) word = word << 8 | bytes[8 * i + k];
  return word;
}

/* The totals of the session in a record, in bytes. */
static inline uint64_t yuglasno_received(const uint8_t *rec) { return yuglasno_word(rec, YUGLASNO_RECEIVED); }
static inline uint64_t yuglasno_consumed(const uint8_t *rec) { return yuglasno_word(rec, YUGLASNO_CONSUMED); }
static inline uint64_t yuglasno_written(const uint8_t *rec) { return yuglasno_word(rec, YUGLASNO_WRITTEN); }

/* The reads of the call that is pending in a record, or was last over; and those that a WHAT_TOLD tells in out. */
static inline uint64_t yuglasno_reads(const uint8_t *rec) { return yuglasno_word(rec, YUGLASNO_READS); }
static inline uint64_t yuglasno_told_reads(const uint8_t *out) { return yuglasno_word(out, YUGLASNO_AT_READS); }

/* How many bytes the read that is asked for still wants, at least 1: a host may gather reads up to it (and to the window's end) before
 * it reports. A hint: any count from one to the window may be reported. It is the record's word 9 less its word 3. */
static inline size_t yuglasno_wanted(const uint8_t *rec) {
  uint64_t until = yuglasno_word(rec, 9), tail = yuglasno_word(rec, 3);
  return until > tail ? (size_t)(until - tail) : 1;
}

#ifdef __cplusplus
}
#endif

#endif
