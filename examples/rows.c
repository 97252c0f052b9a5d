/*
 * Shows a login table as an app on the floor reads it: title, user name and days, a line a row.
 *
 *   gcc -O2 -Iinclude examples/rows.c target/staticlib/libtalcfeather.a -o target/rows
 *   target/rows examples/floor.table
 */
#include <stdio.h>

#include "talcfeather.h"

enum { ROWS = 1000 };

/* One byte more than the longest table that it takes, so that a longer one is seen. */
static uint8_t table[ROWS * TALC_ROW_SIZE + 1];

/* Whether it could be read. A folder opens like a file, and fails when it is read. */
static bool read_table(const char *name, size_t *length)
{
    FILE *in = fopen(name, "rb");
    if (in == NULL)
        return false;
    *length = fread(table, 1, sizeof table, in);
    bool failed = ferror(in);
    fclose(in);
    return !failed && *length < sizeof table;
}

/* A text ends by its length: one that fills its room has no zero after it. */
static void print_text(const uint8_t *text, uint64_t length)
{
    for (uint64_t i = 0; i < length; i++)
        putchar(text[i] < 0x20 || text[i] == 0x7f ? '?' : text[i]);
    putchar('\t');
}

static void print_row(const uint8_t *row, const uint8_t answer[TALC_ROW_ANSWER])
{
    int64_t days = (int64_t)talc_number(answer + TALC_ROW_AT_DAYS);
    print_text(row + TALC_ROW_TITLE, talc_number(answer + TALC_ROW_AT_TITLE_LENGTH));
    print_text(row + TALC_ROW_USER, talc_number(answer + TALC_ROW_AT_USER_LENGTH));
    if (days == TALC_NO_EXPIRY)
        printf("no expiry\n");
    else
        printf("%d\n", (int)days);
}

int main(int count, char **arguments)
{
    if (count != 2) {
        fprintf(stderr, "rows TABLE\n");
        return 64;
    }
    size_t length;
    if (!read_table(arguments[1], &length)) {
        fprintf(stderr, "%s: can't be read, or has over %d rows\n", arguments[1], ROWS);
        return 66;
    }
    /* The whole table first: nothing of one that is cut or damaged is shown. */
    uint8_t rows[TALC_IMPORT_ANSWER], answer[TALC_ROW_ANSWER];
    uint32_t refusal = talc_import(table, length, rows);
    if (refusal != TALC_OK)
        fprintf(stderr, "%s: refused, %u: row %llu\n", arguments[1], (unsigned)refusal,
                (unsigned long long)talc_number(rows + TALC_IMPORT_AT_ROW));
    for (size_t i = 0; i < talc_number(rows + TALC_IMPORT_AT_ROWS); i++)
        if (talc_row(table, length, i, answer) == TALC_OK)
            print_row(table + i * TALC_ROW_SIZE, answer);
    return (int)refusal;
}
