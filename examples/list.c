/*
 * Lists the logins of a safe: title and user, a line each.
 *
 *   gcc -O2 -Iinclude examples/list.c target/staticlib/libtalcfeather.a -o target/list
 *   target/list examples/floor.psafe3 "a whole floor of lathes"
 *
 * A passphrase on the command line is for an example alone: others can see it there.
 */
#include <stdio.h>
#include <string.h>

#include "talcfeather.h"

/* One byte more than the longest file, so that a longer one is refused. */
static uint8_t file[TALC_FILE_MAX + 1];
static uint8_t workspace[TALC_BODY_MAX];

/* Whether it could be read. A folder opens like a file, and fails when it is read. */
static bool read_file(const char *name, size_t *length)
{
    FILE *in = fopen(name, "rb");
    if (in == NULL)
        return false;
    *length = fread(file, 1, sizeof file, in);
    bool failed = ferror(in);
    fclose(in);
    return !failed;
}

static void print_text(const uint8_t *data, size_t length)
{
    for (size_t i = 0; i < length; i++)
        putchar(data[i] < 0x20 || data[i] == 0x7f ? '?' : data[i]);
}

/* Walks the body from its start; every field comes once, in order. */
static uint32_t list(const uint8_t *body, size_t length)
{
    uint8_t answer[TALC_WALK_ANSWER];
    size_t place = 0;
    bool in_record = false;
    for (;;) {
        uint32_t refusal = talc_walk(body, length, place, in_record, answer);
        if (refusal != TALC_OK || talc_number(answer + TALC_WALK_AT_FIELD) == 0)
            return refusal;
        uint64_t type = talc_number(answer + TALC_WALK_AT_TYPE);
        const uint8_t *data = body + talc_number(answer + TALC_WALK_AT_PLACE) + 5;
        if (in_record && (type == TALC_RECORD_TITLE || type == TALC_RECORD_USER)) {
            print_text(data, talc_number(answer + TALC_WALK_AT_LENGTH));
            putchar('\t');
        } else if (in_record && type == TALC_END) {
            putchar('\n');
        }
        place = talc_number(answer + TALC_WALK_AT_NEXT_PLACE);
        in_record = talc_number(answer + TALC_WALK_AT_NEXT_IN_RECORD) != 0;
    }
}

int main(int count, char **arguments)
{
    if (count != 3) {
        fprintf(stderr, "list FILE PASSPHRASE\n");
        return 64;
    }
    if (talc_version() != TALC_VERSION) {
        fprintf(stderr, "the archive is not the header's\n");
        return 70;
    }
    size_t length;
    if (!read_file(arguments[1], &length)) {
        fprintf(stderr, "%s: can't be read\n", arguments[1]);
        return 66;
    }
    const uint8_t *passphrase = (const uint8_t *)arguments[2];
    uint8_t answer[TALC_READ_ANSWER];
    uint32_t refusal = talc_read(file, length, passphrase, strlen(arguments[2]), 1000000,
                                 workspace, sizeof workspace, answer);
    talc_clear_stack();
    talc_wipe(answer, sizeof answer);
    if (refusal == TALC_OK)
        refusal = list(workspace, length - TALC_AROUND);
    talc_wipe(workspace, sizeof workspace);
    if (refusal != TALC_OK)
        fprintf(stderr, "%s: refused, %u: %s\n", arguments[1], (unsigned)refusal,
                talc_refusal_text(refusal));
    return (int)refusal;
}
