/*
 * station_k FOLDER: a unit in C. It hears the records of the file `journal` one by one, over the desk in its 520
 * bytes, for the station of the file `sheet`, and prints what the desk program prints: a line for each record, its
 * number from 1, the code, the minutes; or the number alone of a refused sheet, else of a refused journal. Then it
 * asks its desk both questions once, on stderr.
 */
#include <stdio.h>

#include "works_desk.h"

/* The files' bytes, and the unit's desk. One byte past the longest sheet shows a sheet that is too long. */
static uint8_t sheet[DESK_SHEET_MOST + 1];
static uint8_t journal[DESK_JOURNAL_MOST];
static uint8_t desk[UNIT_DESK_BYTES];

/* Opens FOLDER/name; NULL if that fails or the path is too long. */
static FILE *open_file(const char *folder, const char *name)
{
    char path[4096];
    int length = snprintf(path, sizeof path, "%s/%s", folder, name);
    if (length < 0 || (size_t)length >= sizeof path) {
        return NULL;
    }
    return fopen(path, "rb");
}

/* Reads a file as far as the buffer holds it; returns how many bytes. One that cannot be read counts as empty. */
static size_t read_file(const char *folder, const char *name, uint8_t *buffer, size_t size)
{
    FILE *file = open_file(folder, name);
    if (file == NULL) {
        return 0;
    }
    size_t length = fread(buffer, 1, size, file);
    if (ferror(file)) {
        length = 0;
    }
    fclose(file);
    return length;
}

/* Hears record n and prints its line. */
static void hear(size_t sheet_len, size_t journal_len, uint32_t n)
{
    size_t place = desk_record_place(desk_journal_record(journal, journal_len, n));
    uint64_t answer = unit_apply(sheet, sheet_len, desk, sizeof desk, journal + place, DESK_RECORD_BYTES);
    printf("%lu %u %lu\n", (unsigned long)n + 1, (unsigned)desk_code(answer), (unsigned long)desk_minutes(answer));
}

/* Both questions, for turnout 0 and for train 512 in zone 0. */
static void ask(size_t sheet_len)
{
    uint32_t work = unit_work(sheet, sheet_len, desk, sizeof desk, 0);
    uint64_t movement = unit_movement(sheet, sheet_len, desk, sizeof desk, 0, 512);
    fprintf(stderr, "work, turnout 0: code %u, open to work %s\n", (unsigned)desk_code(work),
            desk_yes(work) ? "yes" : "no");
    fprintf(stderr, "movement, zone 0, train 512: code %u, regime %u, lowest %u, count %u\n",
            (unsigned)desk_code(movement), (unsigned)desk_regime(movement), (unsigned)desk_lowest(movement),
            (unsigned)desk_count(movement));
}

/* The number that refuses the sheet, else the journal; 0 if both are good. */
static unsigned refusal(size_t sheet_len, size_t journal_len)
{
    unsigned code = desk_code(desk_sheet(sheet, sheet_len));
    return code != DESK_E_ACCEPTED ? code : desk_journal_check(journal, journal_len);
}

static void run(size_t sheet_len, size_t journal_len)
{
    unsigned code = refusal(sheet_len, journal_len);
    if (code != DESK_E_ACCEPTED) {
        printf("%u\n", code);
        return;
    }
    uint32_t count = desk_journal_count(journal, journal_len);
    unit_fresh(desk, sizeof desk);
    for (uint32_t n = 0; n < count; n++) {
        hear(sheet_len, journal_len, n);
    }
    ask(sheet_len);
}

int main(int argc, char **argv)
{
    if (argc != 2) {
        fprintf(stderr, "usage: station_k FOLDER, with the files 'sheet' and 'journal' in it\n");
        return 2;
    }
    size_t sheet_len = read_file(argv[1], "sheet", sheet, sizeof sheet);
    size_t journal_len = read_file(argv[1], "journal", journal, sizeof journal);
    run(sheet_len, journal_len);
    return fflush(stdout) == 0 ? 0 : 1;
}
