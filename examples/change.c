/*
 * Changes the password of the login with that title, and writes the safe to OUT. Every other field stays
 * as it was, with its fill.
 *
 *   gcc -O2 -Iinclude examples/change.c target/staticlib/libtalcfeather.a -o target/change
 *   target/change examples/floor.psafe3 "a whole floor of lathes" "Lathe 3" NEW changed.psafe3
 *
 * Secrets on the command line are for an example alone: others can see them there.
 */
#include <stdio.h>
#include <string.h>

#include "talcfeather.h"

/* One byte more than the longest file, so that a longer one is refused. */
static uint8_t file[TALC_FILE_MAX + 1];
static uint8_t body[TALC_BODY_MAX], changed[TALC_BODY_MAX];
/* Fresh salt, K, L, initial vector, and fill for the new password. The library makes no random values. */
static uint8_t fresh[32 + 32 + 32 + 16 + 15];

typedef struct {
    size_t place, length, next;
    bool in_record, next_in_record;
    uint8_t type;
} Field;

/* The field after this one; false at the end. A body that was read is never refused here. */
static bool step(Field *field, size_t body_len)
{
    uint8_t answer[TALC_WALK_ANSWER];
    field->place = field->next;
    field->in_record = field->next_in_record;
    uint32_t refusal = talc_walk(body, body_len, field->place, field->in_record, answer);
    if (refusal != TALC_OK || talc_number(answer + TALC_WALK_AT_FIELD) == 0)
        return false;
    field->type = (uint8_t)talc_number(answer + TALC_WALK_AT_TYPE);
    field->length = talc_number(answer + TALC_WALK_AT_LENGTH);
    field->next = talc_number(answer + TALC_WALK_AT_NEXT_PLACE);
    field->next_in_record = talc_number(answer + TALC_WALK_AT_NEXT_IN_RECORD) != 0;
    return true;
}

/* Where the first record with that title starts; 0, where none does, if there is none. */
static size_t titled(const char *title, size_t body_len)
{
    Field field = {0, 0, 0, false, false, 0};
    size_t start = 0;
    while (step(&field, body_len)) {
        bool is_title = field.in_record && field.type == TALC_RECORD_TITLE;
        if (is_title && field.length == strlen(title) &&
            memcmp(body + field.place + 5, title, field.length) == 0)
            return start;
        if (field.type == TALC_END)
            start = field.next;
    }
    return 0;
}

/* All fields, one after the other, but for the password of the record that starts there. */
static uint32_t change(size_t start, const char *password, size_t body_len, size_t *place)
{
    Field field = {0, 0, 0, false, false, 0};
    bool within = false;
    uint32_t refusal = TALC_OK;
    while (refusal == TALC_OK && step(&field, body_len)) {
        const uint8_t *data = body + field.place + 5, *fill = data + field.length;
        uint8_t next[8];
        within = within || field.place == start;
        if (within && field.type == TALC_RECORD_PASSWORD) {
            data = (const uint8_t *)password;
            field.length = strlen(password);
            fill = fresh + 112;
        }
        refusal = talc_append(changed, sizeof changed, *place, field.type, data, field.length, fill,
                              TALC_FILL_NEEDED(field.length), next);
        *place = talc_number(next);
        within = within && field.type != TALC_END;
    }
    return refusal;
}

static uint32_t open_safe(const char *passphrase, size_t file_len)
{
    uint8_t answer[TALC_READ_ANSWER];
    uint32_t refusal = talc_read(file, file_len, (const uint8_t *)passphrase, strlen(passphrase),
                                 16777216, body, sizeof body, answer);
    talc_clear_stack();
    talc_wipe(answer, sizeof answer);
    return refusal;
}

/* With the ITER of the file that was read, and all else fresh. */
static uint32_t make_safe(const char *passphrase, size_t body_len)
{
    uint32_t iter = 0;
    for (int i = 3; i >= 0; i--)
        iter = iter << 8 | file[TALC_FILE_ITER + i];
    uint32_t refusal = talc_write((const uint8_t *)passphrase, strlen(passphrase), fresh, iter,
                                  fresh + 32, fresh + 64, fresh + 96, changed, body_len, file,
                                  body_len + TALC_AROUND);
    talc_clear_stack();
    return refusal;
}

/* Reads the whole of a file, or as much as there is room for. */
static bool take(const char *name, uint8_t *bytes, size_t room, size_t *length)
{
    FILE *in = fopen(name, "rb");
    if (in == NULL)
        return false;
    *length = fread(bytes, 1, room, in);
    bool failed = ferror(in);
    fclose(in);
    return !failed;
}

static bool put(const char *name, const uint8_t *bytes, size_t length)
{
    FILE *out = fopen(name, "wb");
    if (out == NULL)
        return false;
    bool whole = fwrite(bytes, 1, length, out) == length;
    return fclose(out) == 0 && whole;
}

/* The exit status: 0, the number of a refusal, or 64 and above. */
static int run(char **arguments)
{
    size_t file_len, random, start, place = 0;
    if (talc_version() != TALC_VERSION)
        return 70;
    if (!take(arguments[1], file, sizeof file, &file_len) ||
        !take("/dev/urandom", fresh, sizeof fresh, &random) || random < sizeof fresh)
        return 66;
    uint32_t refusal = open_safe(arguments[2], file_len);
    if (refusal == TALC_OK && (start = titled(arguments[3], file_len - TALC_AROUND)) == 0)
        return 67;
    if (refusal == TALC_OK)
        refusal = change(start, arguments[4], file_len - TALC_AROUND, &place);
    if (refusal == TALC_OK)
        refusal = make_safe(arguments[2], place);
    if (refusal == TALC_OK && !put(arguments[5], file, place + TALC_AROUND))
        return 73;
    return (int)refusal;
}

static const char *meaning(int status)
{
    switch (status) {
    case 66: return "the file can't be read, or there is no random source";
    case 67: return "no login has this title";
    case 70: return "the archive is not the header's";
    case 73: return "the new file can't be written";
    default: return talc_refusal_text((uint32_t)status);
    }
}

int main(int count, char **arguments)
{
    if (count != 6) {
        fprintf(stderr, "change FILE PASSPHRASE TITLE PASSWORD OUT\n");
        return 64;
    }
    int status = run(arguments);
    talc_wipe(body, sizeof body);
    talc_wipe(changed, sizeof changed);
    talc_wipe(fresh, sizeof fresh);
    if (status == 0)
        printf("%s: changed\n", arguments[3]);
    else
        fprintf(stderr, "%s: %d: %s\n", arguments[1], status, meaning(status));
    return status;
}
