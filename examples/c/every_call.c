/*
 * every_call: calls every function of works_desk.h on small inputs whose answers are known by hand. It prints 'every
 * call: as expected' and returns 0, or prints each call that differs and returns 1. It needs all four archives.
 */
#include <inttypes.h>
#include <stdio.h>
#include <string.h>

#include "works_desk.h"

enum { MESSAGES = 6, STANDING = 4 };

/* A station of one zone, with turnouts 0 and 1 and one route that runs over both: 8 + 3 x 2 + 33 x 1 bytes. */
static const uint8_t sheet[47] = {'S', 'P', 'T', 0, 1, 2, 1, 1, 0, 255, 0, 0, 255, 0, 0, 0, 0, 0, 0, 0, 0, 0, 3};

/*
 * A conversation about work on turnout 1, every message of it accepted. After the first four (STANDING) the turnout
 * is open to work and train 512 lacks its clearance; at the end all is restored, a minute and a half after the
 * agreement: 2 minutes.
 */
static const struct {
    uint8_t kind;
    uint32_t time, id;
    uint64_t a;
    uint8_t d0;
    uint32_t minutes;
} messages[MESSAGES] = {
    {DESK_KIND_WORK_ASKED, 0, 7, 2, 1, 0},
    {DESK_KIND_AGREED, 60, 7, 0, 0, 0},
    {DESK_KIND_DETECTION_OFF, 60, 7, 2, 0, 0},
    {DESK_KIND_MOVEMENT_ASKED, 60, 512, 0, 0, 0},
    {DESK_KIND_CANCELLED, 120, 512, 0, 0, 0},
    {DESK_KIND_ALL_RESTORED, 150, 7, 0, 0, 2},
};

static uint8_t record[DESK_RECORD_BYTES];
static uint8_t journal[DESK_JOURNAL_HEAD + MESSAGES * DESK_RECORD_BYTES] = {'W', 'K', 'J', 0, 1};
static uint8_t answers[MESSAGES * DESK_ANSWER_BYTES];
static uint8_t desk[UNIT_DESK_BYTES];

static int differences;

static void check(const char *call, uint64_t value, uint64_t expected)
{
    if (value != expected) {
        printf("%s: %" PRIu64 ", not %" PRIu64 "\n", call, value, expected);
        differences++;
    }
}

#define CHECK(call, expected) check(#call, (uint64_t)(call), (uint64_t)(expected))

/* Copies the sheet, and one whose turnout 1 is bad, into a buffer of 255s that is a byte longer. */
static void check_copy(const uint8_t *bad)
{
    uint8_t copy[sizeof sheet + 1];
    memset(copy, 255, sizeof copy);
    CHECK(desk_code(desk_copy_sheet(bad, sizeof sheet, copy, 0)), DESK_E_SHEET_TURNOUT);
    CHECK(desk_sheet_index(desk_copy_sheet(bad, sizeof sheet, copy, sizeof copy)), 1);
    CHECK(desk_copy_sheet(sheet, sizeof sheet, copy, sizeof sheet - 1), DESK_E_SHEET_BUFFER);
    CHECK(copy[0], 255);
    CHECK(desk_copy_sheet(sheet, sizeof sheet, copy, sizeof copy), DESK_E_ACCEPTED);
    CHECK(copy[4], 2); /* the low byte of the version: a copy is of version 2 */
    copy[4] = sheet[4];
    CHECK(memcmp(copy, sheet, sizeof sheet), 0);
    CHECK(copy[sizeof sheet], 255);
}

static void check_sheet(void)
{
    uint8_t bad[sizeof sheet];
    memcpy(bad, sheet, sizeof sheet);
    bad[11] = 1; /* turnout 1 in a zone that the station has not */
    CHECK(desk_sheet(sheet, 0), DESK_E_SHEET_LENGTH);
    CHECK(desk_sheet(sheet, sizeof sheet), DESK_E_ACCEPTED);
    CHECK(desk_code(desk_sheet(bad, sizeof bad)), DESK_E_SHEET_TURNOUT);
    CHECK(desk_sheet_index(desk_sheet(bad, sizeof bad)), 1);
    check_copy(bad);
}

/* Writes message n as a record. */
static uint8_t write_message(size_t n, size_t record_len)
{
    return desk_write_record(messages[n].kind, 0, messages[n].time, messages[n].id, messages[n].a, 0, messages[n].d0,
                             0, 0, 0, 0, 0, record, record_len);
}

static void check_record(void)
{
    CHECK(desk_record(record, 0), DESK_E_RECORD_LENGTH);
    CHECK(desk_record(record, sizeof record), DESK_E_KIND);
    CHECK(write_message(0, 31), DESK_E_RECORD_LENGTH);
    CHECK(write_message(0, sizeof record), DESK_E_ACCEPTED);
    CHECK(record[0], DESK_KIND_WORK_ASKED);
    CHECK(desk_record(record, sizeof record), DESK_E_ACCEPTED);
}

/* Leaves the journal full. */
static void check_journal(void)
{
    CHECK(desk_journal_check(journal, 15), DESK_E_NO_JOURNAL);
    CHECK(desk_journal_check(journal, sizeof journal), DESK_E_ACCEPTED);
    CHECK(desk_journal_count(journal, sizeof journal), 0);
    CHECK(desk_journal_record(journal, sizeof journal, 0), DESK_E_NO_RECORD);
    for (size_t n = 0; n < MESSAGES; n++) {
        CHECK(write_message(n, sizeof record), DESK_E_ACCEPTED);
        CHECK(desk_journal_add(journal, sizeof journal, record, sizeof record), DESK_E_ACCEPTED);
    }
    CHECK(desk_journal_add(journal, sizeof journal, record, sizeof record), DESK_E_JOURNAL_FULL);
    CHECK(desk_journal_count(journal, sizeof journal), MESSAGES);
    CHECK(desk_code(desk_journal_record(journal, sizeof journal, 5)), DESK_E_ACCEPTED);
    CHECK(desk_record_place(desk_journal_record(journal, sizeof journal, 5)), 16 + 32 * 5);
}

static void check_replay(void)
{
    CHECK(desk_replay(sheet, sizeof sheet, journal, sizeof journal, answers, sizeof answers - 1), DESK_E_SMALL_BUFFER);
    CHECK(desk_replay(sheet, sizeof sheet, journal, sizeof journal, answers, sizeof answers), DESK_E_ACCEPTED);
    for (size_t n = 0; n < MESSAGES; n++) {
        CHECK(desk_answer_code(answers, n), DESK_E_ACCEPTED);
        CHECK(desk_answer_minutes(answers, n), messages[n].minutes);
    }
}

/*
 * The answers while the movement stands: held, for turnout 1 lacks a clearance and no other does; turnout 1 is open
 * to work.
 */
static void check_standing(uint64_t movement, uint32_t work)
{
    CHECK(desk_code(movement), DESK_E_ACCEPTED);
    CHECK(desk_regime(movement), DESK_REGIME_HELD);
    CHECK(desk_lowest(movement), 1);
    CHECK(desk_count(movement), 1);
    CHECK(desk_code(work), DESK_E_ACCEPTED);
    CHECK(desk_yes(work), 1);
}

/* Both questions after the whole journal, and after its first four records. */
static void check_questions(void)
{
    uint64_t movement = desk_movement(sheet, sizeof sheet, journal, sizeof journal, 0, 512);
    CHECK(desk_code(movement), DESK_E_NO_ID);
    CHECK(desk_lowest(movement), DESK_NO_TURNOUT);
    CHECK(desk_work(sheet, sizeof sheet, journal, sizeof journal, 1), DESK_E_ACCEPTED);
    journal[8] = STANDING; /* the count's last byte */
    check_standing(desk_movement(sheet, sizeof sheet, journal, sizeof journal, 0, 512),
                   desk_work(sheet, sizeof sheet, journal, sizeof journal, 1));
}

static void check_unit(void)
{
    CHECK(unit_fresh(desk, sizeof desk - 1), DESK_E_NOT_A_DESK);
    CHECK(unit_fresh(desk, sizeof desk), DESK_E_ACCEPTED);
    CHECK(desk[0], DESK_BYTES_VERSION);
    CHECK(unit_work(sheet, sizeof sheet, desk, sizeof desk, 64), DESK_E_FIELD);
    CHECK(desk_code(unit_movement(sheet, sizeof sheet, desk, sizeof desk, 1, 512)), DESK_E_ZONE);
    CHECK(unit_apply(sheet, sizeof sheet, desk, sizeof desk, record, 0), DESK_E_RECORD_LENGTH);
    for (size_t n = 0; n < MESSAGES; n++) {
        if (n == STANDING) {
            check_standing(unit_movement(sheet, sizeof sheet, desk, sizeof desk, 0, 512),
                           unit_work(sheet, sizeof sheet, desk, sizeof desk, 1));
        }
        write_message(n, sizeof record);
        uint64_t answer = unit_apply(sheet, sizeof sheet, desk, sizeof desk, record, sizeof record);
        CHECK(desk_code(answer), DESK_E_ACCEPTED);
        CHECK(desk_minutes(answer), messages[n].minutes);
    }
}

/*
 * Writes a clearance of turnout 0 for train 512: declaration 1 (all efficient), normal position, no clamp, by voice;
 * covers is 1 if it covers the whole group of the turnout.
 */
static uint8_t write_clearance(uint8_t covers)
{
    return desk_write_record(DESK_KIND_CLEARED, 0, 60, 512, 0, 0, 0, 1, 0, 0, 1, covers, record, sizeof record);
}

/* The station with turnouts 0 and 1 as a crossover: work is on both ends, and declaration 1 must cover both. */
static void check_crossover(void)
{
    uint8_t crossover[sizeof sheet];
    memcpy(crossover, sheet, sizeof sheet);
    crossover[9] = 1;  /* turnout 0's partner */
    crossover[12] = 0; /* turnout 1's partner */
    CHECK(unit_fresh(desk, sizeof desk), DESK_E_ACCEPTED);
    for (size_t n = 0; n < STANDING; n++) {
        write_message(n, sizeof record);
        record[17] = messages[n].a != 0 ? 3 : 0; /* the last byte of a */
        CHECK(unit_apply(crossover, sizeof crossover, desk, sizeof desk, record, sizeof record), DESK_E_ACCEPTED);
    }
    CHECK(write_clearance(2), DESK_E_FIELD);
    CHECK(write_clearance(0), DESK_E_ACCEPTED);
    CHECK(unit_apply(crossover, sizeof crossover, desk, sizeof desk, record, sizeof record), DESK_E_CLEARANCE);
    CHECK(desk_lowest(unit_movement(crossover, sizeof crossover, desk, sizeof desk, 0, 512)), 0);
    CHECK(write_clearance(1), DESK_E_ACCEPTED);
    CHECK(unit_apply(crossover, sizeof crossover, desk, sizeof desk, record, sizeof record), DESK_E_ACCEPTED);
    check_standing(unit_movement(crossover, sizeof crossover, desk, sizeof desk, 0, 512),
                   unit_work(crossover, sizeof crossover, desk, sizeof desk, 1));
}

/*
 * The same station in version 2, its turnouts 0 and 1 being a group: work on one of them alone is refused. A copy of
 * the sheet of version 1 is that sheet. A group of one is wrong, at the turnout that carries its number.
 */
static void check_group(void)
{
    uint8_t first[sizeof sheet], second[sizeof sheet], copy[sizeof sheet];
    memcpy(first, sheet, sizeof sheet);
    first[9] = 1; /* turnout 0's partner */
    first[12] = 0; /* turnout 1's partner */
    memcpy(second, sheet, sizeof sheet);
    second[4] = 2; /* the version's low byte */
    second[9] = 0; /* turnouts 0 and 1 carry number 0 */
    second[12] = 0;
    CHECK(desk_sheet(second, sizeof second), DESK_E_ACCEPTED);
    CHECK(desk_copy_sheet(first, sizeof first, copy, sizeof copy), DESK_E_ACCEPTED);
    CHECK(memcmp(copy, second, sizeof second), 0);
    CHECK(unit_fresh(desk, sizeof desk), DESK_E_ACCEPTED);
    write_message(0, sizeof record);
    record[17] = 1; /* the last byte of a: turnout 0 */
    CHECK(unit_apply(second, sizeof second, desk, sizeof desk, record, sizeof record), DESK_E_PLACE);
    record[17] = 3; /* turnouts 0 and 1 */
    CHECK(unit_apply(second, sizeof second, desk, sizeof desk, record, sizeof record), DESK_E_ACCEPTED);
    second[9] = 31; /* now each of them carries a number alone */
    CHECK(desk_code(desk_sheet(second, sizeof second)), DESK_E_SHEET_TURNOUT);
    CHECK(desk_sheet_index(desk_sheet(second, sizeof second)), 0);
}

/* Writes the use of a release key on turnout 1 for train 512. */
static uint8_t write_key(uint8_t key)
{
    return desk_write_record(DESK_KIND_KEY_USED, 0, 60, 512, 0, 0, 1, key, 0, 0, 0, 0, record, sizeof record);
}

/*
 * The station with turnout 1 in the exit zone of the route: Tcl may not be used on it, Es may; the train then lacks
 * nothing.
 */
static void check_key(void)
{
    uint8_t exits[sizeof sheet];
    memcpy(exits, sheet, sizeof sheet);
    exits[22] = 1; /* the last byte of run over: turnout 0 */
    exits[38] = 2; /* the last byte of exit zone: turnout 1 */
    CHECK(unit_fresh(desk, sizeof desk), DESK_E_ACCEPTED);
    for (size_t n = 0; n < STANDING; n++) {
        write_message(n, sizeof record);
        CHECK(unit_apply(exits, sizeof exits, desk, sizeof desk, record, sizeof record), DESK_E_ACCEPTED);
    }
    CHECK(write_key(3), DESK_E_FIELD);
    CHECK(write_key(DESK_KEY_TCL), DESK_E_ACCEPTED);
    CHECK(unit_apply(exits, sizeof exits, desk, sizeof desk, record, sizeof record), DESK_E_KEY);
    check_standing(unit_movement(exits, sizeof exits, desk, sizeof desk, 0, 512),
                   unit_work(exits, sizeof exits, desk, sizeof desk, 1));
    CHECK(write_key(DESK_KEY_ES), DESK_E_ACCEPTED);
    CHECK(unit_apply(exits, sizeof exits, desk, sizeof desk, record, sizeof record), DESK_E_ACCEPTED);
    CHECK(unit_apply(exits, sizeof exits, desk, sizeof desk, record, sizeof record), DESK_E_OCCUPIED);
    CHECK(desk_regime(unit_movement(exits, sizeof exits, desk, sizeof desk, 0, 512)), DESK_REGIME_CLEAR);
    CHECK(desk_lowest(unit_movement(exits, sizeof exits, desk, sizeof desk, 0, 512)), DESK_NO_TURNOUT);
    CHECK(desk_yes(unit_work(exits, sizeof exits, desk, sizeof desk, 1)), 1);
    CHECK(desk[8 + 61], 2); /* the last byte of zone 0's keys */
}

static void check_verdict(void)
{
    CHECK(desk_verdict(4, 0, 0), DESK_E_SIGNAL_RANGE);
    CHECK(desk_code(desk_verdict(1, 0, 1)), DESK_E_ACCEPTED);
    CHECK(desk_verdict_value(desk_verdict(1, 0, 1)), DESK_VERDICT_AT_DANGER);
}

/* One turnout and one route past a panel's limits. */
enum { PLAIN_MOST = PANEL_SHEET_MOST + 3 + 33 };

/*
 * Writes a sheet of one zone, whose turnouts are alone and electric and whose routes run over turnout 0; gives its
 * length.
 */
static size_t plain_sheet(uint8_t *to, uint8_t turnouts, uint8_t routes)
{
    const uint8_t head[8] = {'S', 'P', 'T', 0, 1, turnouts, routes, 1};
    size_t len = sizeof head;
    memset(to, 0, PLAIN_MOST);
    memcpy(to, head, sizeof head);
    for (size_t n = 0; n < turnouts; n++) {
        to[len + 1] = 255;
        len += 3;
    }
    for (size_t n = 0; n < routes; n++) {
        to[len + 8] = 1;
        len += 33;
    }
    return len;
}

/* Within a panel's limits its answers are the desk's: a sheet that is accepted, its length, a bad turnout. */
static void check_panel(void)
{
    uint8_t plain[PLAIN_MOST];
    size_t len = plain_sheet(plain, PANEL_TURNOUTS, PANEL_ROUTES);
    CHECK(len, PANEL_SHEET_MOST);
    CHECK(panel_sheet(plain, len), DESK_E_ACCEPTED);
    CHECK(panel_sheet(plain, len - 1), DESK_E_SHEET_LENGTH);
    plain[53] = 1; /* turnout 15 in a zone that the station has not */
    CHECK(desk_code(panel_sheet(plain, len)), DESK_E_SHEET_TURNOUT);
    CHECK(desk_sheet_index(panel_sheet(plain, len)), 15);
    CHECK(panel_sheet(plain, len), desk_sheet(plain, len));
}

/* Past the limits: a turnout more, a route more. The counts come before 9, the length and the records after it. */
static void check_panel_limits(void)
{
    uint8_t plain[PLAIN_MOST];
    size_t len = plain_sheet(plain, PANEL_TURNOUTS, PANEL_ROUTES + 1);
    CHECK(panel_sheet(plain, len), DESK_E_PANEL_LIMITS);
    CHECK(desk_sheet(plain, len), DESK_E_ACCEPTED);
    len = plain_sheet(plain, PANEL_TURNOUTS + 1, PANEL_ROUTES);
    CHECK(panel_sheet(plain, len), DESK_E_PANEL_LIMITS);
    CHECK(desk_sheet(plain, len), DESK_E_ACCEPTED);
    CHECK(panel_sheet(plain, len - 1), DESK_E_PANEL_LIMITS);
    CHECK(desk_sheet(plain, len - 1), DESK_E_SHEET_LENGTH);
    plain[11] = 1; /* turnout 1 in a zone that the station has not */
    CHECK(panel_sheet(plain, len), DESK_E_PANEL_LIMITS);
    CHECK(desk_sheet_index(desk_sheet(plain, len)), 1);
    plain[7] = 0; /* no zones */
    CHECK(panel_sheet(plain, len), DESK_E_SHEET_COUNTS);
}

int main(void)
{
    check_sheet();
    check_record();
    check_journal();
    check_replay();
    check_questions();
    check_unit();
    check_crossover();
    check_group();
    check_key();
    check_verdict();
    check_panel();
    check_panel_limits();
    if (differences != 0) {
        return 1;
    }
    puts("every call: as expected");
    return fflush(stdout) == 0 ? 0 : 1;
}
