/*
 * The turnout works desk, for firmware in C (C99) or C++.
 *
 * Four archives, built by `tools/archives NAME`:
 *   libworks_desk_journal.a  levels Halt, Junction and Line: sheets and their copies, records, journals, replaying a
 *                            journal, both questions after one
 *   libworks_desk_unit.a     levels Halt, Junction and Line: a desk of 520 bytes, heard one record at a time, and both
 *                            questions of it
 *   libworks_desk_signals.a  level Line alone: verdicts for works on signals
 *   libworks_desk_panel.a    a cabin panel, a product of its own: reading a sheet within its limits
 * They may be linked together in any mix and order. They need memcpy and memset, allocate nothing and keep nothing
 * between calls.
 *
 * For every call:
 *   - No check is needed before it: every function takes any bytes, of any length, and any numbers, and is proved to
 *     return.
 *   - A buffer goes as a pointer and its length in bytes. The pointer is not NULL, also where the length is 0.
 *   - Of one call, a buffer that is written overlaps no other buffer of that call. Buffers that are only read may
 *     overlap.
 *   - The code that comes back is 0 if the call was accepted, else the first check that failed (enum desk_number). Only
 *     desk_journal_count has no code.
 *   - A refusal leaves every buffer as it was.
 *   - Several values come back packed in one number, the code in its lowest byte; the functions at each call take
 *     them apart.
 *
 * Numbers in buffers are big-endian. A set of turnouts is 64 bits; bit n is turnout n. Turnouts, routes, zones and
 * records count from 0.
 */
#ifndef WORKS_DESK_H
#define WORKS_DESK_H

#include <stddef.h>
#include <stdint.h>

#ifdef __cplusplus
extern "C" {
#endif

/*
 * The version of this interface, raised when a call, a code, a packing, a field of a record or what an answer says
 * changes.
 */
#define DESK_INTERFACE_VERSION 7

/* The version of a desk's 520 bytes, their byte 0. */
#define DESK_BYTES_VERSION 1

/* Sizes, in bytes. */
enum {
    DESK_SHEET_MOST = 2312,       /* a sheet has 8 + 3 x turnouts + 33 x routes; most with 64 of each */
    DESK_RECORD_BYTES = 32,       /* a record */
    DESK_JOURNAL_HEAD = 16,       /* a journal has 16 + 32 x count; what stands after that is not looked at */
    DESK_JOURNAL_RECORDS = 1024,  /* the most records that a journal holds */
    DESK_JOURNAL_MOST = 32784,    /* a full journal */
    DESK_ANSWER_BYTES = 5,        /* an answer of a replay: code (1), minutes (4) */
    UNIT_DESK_BYTES = 520,        /* the desk of a unit */
    PANEL_SHEET_MOST = 320        /* a sheet that a panel accepts; most with 16 turnouts and 8 routes */
};

/* A panel's limits: it has lamps for so many. */
enum { PANEL_TURNOUTS = 16, PANEL_ROUTES = 8 };

/* The codes: the numbers that the calls return. */
enum desk_number {
    DESK_E_ACCEPTED = 0,
    DESK_E_SHEET_LENGTH = 1,   /* sheet: length */
    DESK_E_SHEET_MARK = 2,     /* sheet: mark */
    DESK_E_SHEET_VERSION = 3,  /* sheet: version neither 1 nor 2 */
    DESK_E_SHEET_COUNTS = 4,   /* sheet: counts */
    DESK_E_SHEET_TURNOUT = 5,  /* sheet: bad turnout, with the record's index; a wrong group with that of the first
                                  turnout that carries its number */
    DESK_E_SHEET_ROUTE = 6,    /* sheet: bad route, with the record's index */
    DESK_E_NO_SHEET = 7,       /* writing a sheet: no sheet describes the station; no call here gives it, since a
                                  station comes from a sheet */
    DESK_E_SHEET_BUFFER = 8,   /* writing a sheet: the buffer is shorter than the sheet */
    DESK_E_PANEL_LIMITS = 9,   /* panel: more than 16 turnouts or 8 routes; panel_sheet alone gives it */
    DESK_E_RECORD_LENGTH = 10, /* a record, or the buffer for one, is not 32 bytes */
    DESK_E_KIND = 11,          /* kind not 1 to 13 */
    DESK_E_ZONE = 12,          /* zone not below the station's count */
    DESK_E_FIELD = 13,         /* a field breaks its rule; writing a message that no record carries; a question about
                                  no turnout */
    DESK_E_TIME = 14,          /* time before the zone's last accepted */
    DESK_E_NO_ID = 15,         /* no work or movement under this id */
    DESK_E_OCCUPIED = 16,      /* work, a movement, a clearance or a release key is there already */
    DESK_E_PLACE = 17,         /* turnouts or route that the message may not name */
    DESK_E_STAGE = 18,         /* the work or the movement is at another stage */
    DESK_E_CONFLICT = 19,      /* a standing movement names a turnout of the work; a cleared turnout would be opened */
    DESK_E_CLEARANCE = 20,     /* a clearance that does not fit its turnout: position, drive, clamp or ends */
    DESK_E_MEDIUM = 21,        /* voice without a working recorder, or written with one */
    DESK_E_NOT_ALLOWED = 22,   /* not allowed under this form or this regime */
    DESK_E_KEY = 23,           /* a release key that may not be used on that turnout: any on a run-over one, Tcl in the
                                  exit zone */
    DESK_E_NO_JOURNAL = 30,    /* no journal: its length, mark, version, count or zeros */
    DESK_E_JOURNAL_FULL = 31,  /* the journal is full: 1,024 records, or under 32 bytes left */
    DESK_E_NO_RECORD = 32,     /* record n not below the journal's count */
    DESK_E_SIGNAL_RANGE = 33,  /* works on signals: line, signal or flags out of range */
    DESK_E_SMALL_BUFFER = 60,  /* replaying: the buffer has under 5 bytes for each record's answer */
    DESK_E_NOT_A_DESK = 61     /* unit: not the bytes of a desk, or not 520 of them */
};

/* Under which signals a movement may be ordered. */
enum desk_regime_number {
    DESK_REGIME_HELD = 0,   /* a turnout of the route under agreed work has neither clearance nor release key; also with
                               every refusal */
    DESK_REGIME_CLEAR = 1,  /* each of them is declared efficient or has a key: signals clear */
    DESK_REGIME_DANGER = 2  /* each has a clearance or a key, and one without a key is not efficient: at danger */
};

/* The lowest turnout where none lacks both a clearance and a key. */
enum { DESK_NO_TURNOUT = 255 };

/* Verdicts for works on signals. */
enum desk_signal_verdict {
    DESK_VERDICT_NONE = 0,           /* refused */
    DESK_VERDICT_AT_DANGER = 1,      /* form M.45, the signal at danger */
    DESK_VERDICT_DARK = 2,           /* form M.45, the signal dark */
    DESK_VERDICT_DARK_BLOCK_OUT = 3, /* dark, the block out */
    DESK_VERDICT_ANY_BLOCK_OUT = 4,  /* any aspect, the block out */
    DESK_VERDICT_CLOSURE = 5,        /* closure only */
    DESK_VERDICT_NO_SIGNAL = 6       /* no such signal */
};

/*
 * A record, 32 bytes: kind (1), zone (1), time in seconds (4), id (4), set a (8), set b (8), details d0 to d5 (1
 * each). Id is the form of the work (kinds 1 to 4, 10, 11) or the train (5 to 9, 13), not 0; for kind 12 it is 0.
 * What a kind does not use is 0.
 */
enum desk_kind {
    DESK_KIND_WORK_ASKED = 1,      /* a: turnouts; d0: 1 form M.45, 2 recorded verbal */
    DESK_KIND_AGREED = 2,
    DESK_KIND_WITHDRAWN = 3,
    DESK_KIND_DETECTION_OFF = 4,   /* a: detection lost; b: portable device */
    DESK_KIND_MOVEMENT_ASKED = 5,  /* d0: route, 0 to 63 */
    DESK_KIND_CLEARED = 6,         /* d0: turnout, 0 to 63; d1: declaration, 1 to 9; d2: 0 normal, 1 reverse;
                                      d3: 0 no clamp, 1 clamp, 2 attended; d4: 1 voice, 2 written;
                                      d5: 1 where declaration 1 or 2 is given for a turnout of a group (a crossover is
                                      a group of two) and covers the whole group, which it must there; else 0 */
    DESK_KIND_ORDERED = 7,         /* d0: 1 signals clear, 2 at danger */
    DESK_KIND_PASSED = 8,
    DESK_KIND_CANCELLED = 9,
    DESK_KIND_PART_RESTORED = 10,  /* a: turnouts */
    DESK_KIND_ALL_RESTORED = 11,
    DESK_KIND_RECORDER = 12,       /* d0: 0 out, 1 working */
    DESK_KIND_KEY_USED = 13        /* d0: turnout, 0 to 63; d1: 1 Tcl, 2 Es. The turnout needs no clearance for the
                                      train and stays open to work; the key lapses when the train passes or the
                                      movement is cancelled */
};

/* The dispatcher's release keys: either may be used on a flank turnout, Es also on one in the exit zone. */
enum desk_key {
    DESK_KEY_TCL = 1,
    DESK_KEY_ES = 2
};

/* The code of any packed answer. */
static inline uint8_t desk_code(uint64_t answer) { return (uint8_t)(answer & 255u); }

/* ---- libworks_desk_journal.a ---- */

/*
 * A sheet: the letters SPT, version (2 bytes, 1 or 2), counts P of turnouts (1 to 64), R of routes (0 to 64) and Z of
 * zones (1 to 8), a byte each; P turnouts of 3 bytes: zone, below Z; in version 2 the number of its group, 0 to 31, or
 * 255 for alone, in version 1 its partner, the other end of its crossover, or 255 for none; drive, 0 electric or 1 hand
 * with key lock; R routes of 33 bytes: zone, then the sets run over, flank, exit zone and reverse. A group has 2 to 8
 * turnouts of one zone and one drive. The crossovers of version 1 become groups of two, numbered from 0 in the order of
 * their lower turnouts.
 *
 * Reads a sheet (8 + 3P + 33R bytes, at most 2,312) of either version. Codes: 0, 1 to 6, in the order length under 8,
 * mark, version, counts, length, turnouts, routes; never 9. Back come the code and the index of the bad turnout or
 * route (0 unless the code is 5 or 6).
 */
uint32_t desk_sheet(const uint8_t *sheet, size_t sheet_len);

/* Of the answers of desk_sheet, desk_copy_sheet and panel_sheet. */
static inline uint8_t desk_sheet_index(uint32_t answer) { return (uint8_t)(answer >> 8); }

/*
 * Reads a sheet of either version and writes it into the buffer, which may be longer, in version 2: checks a corrected
 * sheet and copies it, byte for byte where it is of version 2; one of version 1 is turned into the sheet of version 2,
 * of the same length, that reads as the same station. Codes: 0, the sheet's (1 to 6), 8. It never gives 7. Back come
 * the code and the index, as by desk_sheet. If accepted, the sheet's bytes stand at the start of the buffer and the
 * bytes past them stay; if refused, every byte stays.
 */
uint32_t desk_copy_sheet(const uint8_t *sheet, size_t sheet_len, uint8_t *buffer, size_t buffer_len);

/*
 * Reads a record (32 bytes). Codes: 0, 10, 11, 13. What depends on the station or on earlier messages is for the desk
 * to check.
 */
uint8_t desk_record(const uint8_t *record, size_t record_len);

/* Writes a message as a record into the buffer (32 bytes), if accepted. Codes: 0, 10, 13. */
uint8_t desk_write_record(uint8_t kind, uint8_t zone, uint32_t time, uint32_t id, uint64_t a, uint64_t b, uint8_t d0,
                          uint8_t d1, uint8_t d2, uint8_t d3, uint8_t d4, uint8_t d5, uint8_t *buffer,
                          size_t buffer_len);

/*
 * Hears every record of a journal (16 + 32 x count bytes or more), from a fresh desk, and writes an answer for each
 * into `answers` (5 x count bytes or more; those past them stay): its code (0, 11 to 23), its minutes. Minutes are
 * those from the agreement to an accepted kind 11, to the nearest, an exact half minute to the even one (30 s: 0,
 * 90 s: 2, 150 s: 2); else 0. Codes of the call: 0, the sheet's, 30, 60; if it is not 0 nothing is written.
 */
uint8_t desk_replay(const uint8_t *sheet, size_t sheet_len, const uint8_t *journal, size_t journal_len,
                    uint8_t *answers, size_t answers_len);

/* Answer n of a replay, n below the journal's count. */
static inline uint8_t desk_answer_code(const uint8_t *answers, size_t n) { return answers[DESK_ANSWER_BYTES * n]; }

static inline uint32_t desk_answer_minutes(const uint8_t *answers, size_t n)
{
    const uint8_t *at = answers + DESK_ANSWER_BYTES * n + 1;
    return (uint32_t)at[0] << 24 | (uint32_t)at[1] << 16 | (uint32_t)at[2] << 8 | (uint32_t)at[3];
}

/*
 * The movement question after a journal: may this train's movement in this zone be ordered, under which signals.
 * Codes: 0, the sheet's, 30, 12, 15. Back come the code, the regime, the lowest turnout that lacks a clearance and
 * has no key (255 for none), how many such there are; with a refusal: held, 255, 0.
 */
uint64_t desk_movement(const uint8_t *sheet, size_t sheet_len, const uint8_t *journal, size_t journal_len, uint8_t zone,
                       uint32_t train);

/* Of the answers of desk_movement and unit_movement. */
static inline uint8_t desk_regime(uint64_t answer) { return (uint8_t)(answer >> 8 & 255u); }
static inline uint8_t desk_lowest(uint64_t answer) { return (uint8_t)(answer >> 16 & 255u); }
static inline uint8_t desk_count(uint64_t answer) { return (uint8_t)(answer >> 24 & 255u); }

/*
 * The work question after a journal: is this turnout open to work. Codes: 0, the sheet's, 30, 13. Back come the code
 * and yes or no.
 */
uint32_t desk_work(const uint8_t *sheet, size_t sheet_len, const uint8_t *journal, size_t journal_len, uint8_t turnout);

/* Of the answers of desk_work and unit_work: 1 yes, 0 no and with every refusal. */
static inline int desk_yes(uint32_t answer) { return (int)(answer >> 8 & 1u); }

/*
 * A journal: the letters WKJ, version (2 bytes, 1), count (4, at most 1,024), seven zeros, then its records. The 16
 * bytes of an empty one are 'W' 'K' 'J' 0 1 and eleven zeros.
 */

/* Checks a journal's head and that its records are there; the records themselves are not read. Codes: 0, 30. */
uint8_t desk_journal_check(const uint8_t *journal, size_t journal_len);

/* How many records a journal holds, 0 to 1,024; 0 for what is no journal. */
uint32_t desk_journal_count(const uint8_t *journal, size_t journal_len);

/* Record n of a journal. Codes: 0, 30, 32. Back come the code and the place in the journal where the record starts. */
uint64_t desk_journal_record(const uint8_t *journal, size_t journal_len, uint32_t n);

/* 16 + 32 x n; 0 with a refusal. */
static inline size_t desk_record_place(uint64_t answer) { return (size_t)(answer >> 8); }

/*
 * Adds a record (32 bytes) to a journal, whose buffer goes whole, with the room for further records. If accepted, the
 * 32 bytes after the last record and the count are written, no other byte. Codes: 0, 10, 11, 13, 30, 31.
 */
uint8_t desk_journal_add(uint8_t *journal, size_t journal_len, const uint8_t *record, size_t record_len);

/* ---- libworks_desk_unit.a ---- */

/*
 * A unit keeps its desk in 520 bytes and may store them anywhere, as they are, from one message to the next. They are
 * of use with the station's sheet alone, which goes with each call: with a changed sheet, begin with a fresh desk.
 *
 * place  size
 *     0     1  version, 1 (DESK_BYTES_VERSION)
 *     1     7  0
 *     8    64  zone 0; zones 1 to 7 follow at 72, 136, 200, 264, 328, 392, 456. Zones that the station has not stay
 *              as they began.
 *
 * A zone, place from its start:
 *     0     1  work: 0 none, 1 asked, 2 agreed
 *     1     1  manner: 1 form M.45, 2 recorded verbal
 *     2     4  form (the id)
 *     6     8  set of the turnouts of the work
 *    14     4  time at which it was agreed
 *    18     8  set of the turnouts open to work
 *    26     1  movement: 0 none, 1 one stands
 *    27     1  route
 *    28     1  order: 0 not ordered, 1 signals clear, 2 at danger
 *    29     4  train (the id)
 *    33     8  set of the turnouts cleared for the train
 *    41     8  set of those of them that were declared efficient
 *    49     1  recorder: 0 out, 1 working
 *    50     4  time of the last accepted message, in seconds
 *    54     8  set of the turnouts on which a release key was used for the train
 *    62     2  0
 *
 * What a zone has not is 0: with no work all of 1 to 25, with work asked 14 to 25, with no movement 27 to 48 and 54
 * to 61. Bytes that break this, a version or a reserved byte, or that have another stage, movement or recorder, are
 * no desk: 61. Other damage does not show, so a unit that stores its desk should guard it with a sum of its own. A
 * fresh desk is 1, and 1 at place 49 of each zone, else 0.
 *
 * In bytes that were stored under interface versions up to 5 the place of the keys is 0: they are a desk without
 * keys. A unit of such a version refuses bytes with keys by 61.
 */

/* Writes the fresh desk (520 bytes): no work, no movement, recorders working, times 0. Codes: 0, 61. */
uint8_t unit_fresh(uint8_t *desk, size_t desk_len);

/*
 * Hears a record (32 bytes). If accepted, the desk (520 bytes) is written as it then stands; if refused, it stays as
 * it was. Codes: 0, the sheet's, 61, 10 to 23, in that order. Back come the code and the minutes, as desk_replay
 * writes them: of an accepted kind 11, else 0. Records heard one by one from a fresh desk get the codes and minutes
 * that desk_replay gives for their journal.
 */
uint64_t unit_apply(const uint8_t *sheet, size_t sheet_len, uint8_t *desk, size_t desk_len, const uint8_t *record,
                    size_t record_len);

/* Of the answers of unit_apply. */
static inline uint32_t desk_minutes(uint64_t answer) { return (uint32_t)(answer >> 8); }

/* The movement question of a desk, packed as by desk_movement. Codes: 0, the sheet's, 61, 12, 15. */
uint64_t unit_movement(const uint8_t *sheet, size_t sheet_len, const uint8_t *desk, size_t desk_len, uint8_t zone,
                       uint32_t train);

/* The work question of a desk, packed as by desk_work. Codes: 0, the sheet's, 61, 13. */
uint32_t unit_work(const uint8_t *sheet, size_t sheet_len, const uint8_t *desk, size_t desk_len, uint8_t turnout);

/* ---- libworks_desk_signals.a ---- */

/*
 * The verdict for works on a signal. Codes: 0, 33. Back come the code and the verdict (0 if refused).
 * Line: 1 axle-counter, manual or telephone block, 2 coded-current automatic block, 3 without train protection.
 * Signal: 0 distant, 1 outer or only home, 2 inner home, 3 starting, 4 block post (on line 2 one that guards a
 * crossing or singular place or serves as distant), 5 other automatic block post.
 * Flags, added up: 1 can be held at danger, 2 day, 4 SSC fitted, 8 its danger message ensured, 16 auxiliary lights
 * touched, 32 those cannot light wrongly.
 */
uint32_t desk_verdict(uint8_t line, uint8_t signal, uint8_t flags);

static inline uint8_t desk_verdict_value(uint32_t answer) { return (uint8_t)(answer >> 8); }

/* ---- libworks_desk_panel.a ---- */

/*
 * Reads a sheet of either version for a cabin panel, which takes at most 16 turnouts and 8 routes (so at most 320
 * bytes), and as many zones as the desk. Codes: 0, 1 to 6, 9, in the order length under 8, mark, version, counts, 9,
 * length, turnouts, routes. Back come the code and the index, as by desk_sheet; with 9 the index is 0. Whatever does
 * not get 9 gets the answer that desk_sheet gives; so what panel_sheet accepts, desk_sheet accepts too.
 */
uint32_t panel_sheet(const uint8_t *sheet, size_t sheet_len);

#ifdef __cplusplus
}
#endif

#endif
