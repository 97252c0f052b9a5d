/*
 * Makes a new safe with one login in it.
 *
 *   gcc -O2 -Iinclude examples/new.c target/staticlib/libtalcfeather.a -o target/new
 *   target/new new.psafe3 PASSPHRASE TITLE USER PASSWORD
 *
 * Secrets on the command line are for an example alone: others can see them there.
 */
#include <stdio.h>
#include <string.h>

#include "talcfeather.h"

static uint8_t body[4096];
static uint8_t file[sizeof body + TALC_AROUND];
static size_t place;

/* The library makes no random values: the program that uses it does. */
static bool random_bytes(uint8_t *bytes, size_t length)
{
    FILE *source = fopen("/dev/urandom", "rb");
    if (source == NULL)
        return false;
    bool whole = fread(bytes, 1, length, source) == length;
    fclose(source);
    return whole;
}

static uint32_t add(uint8_t type, const void *data, size_t length, const uint8_t fill[15])
{
    uint8_t next[8];
    uint32_t refusal = talc_append(body, sizeof body, place, type, (const uint8_t *)data, length,
                                   fill, TALC_FILL_NEEDED(length), next);
    if (refusal == TALC_OK)
        place = talc_number(next);
    return refusal;
}

/* Header, then one record; `random` has its UUID and the fill of each field. */
static uint32_t make_body(char **texts, const uint8_t random[128])
{
    static const uint8_t version[2] = {0x0e, 0x03};
    const struct { uint8_t type; const void *data; size_t length; } fields[] = {
        {TALC_HEADER_VERSION, version, 2},
        {TALC_END, NULL, 0},
        {TALC_RECORD_UUID, random, 16},
        {TALC_RECORD_TITLE, texts[0], strlen(texts[0])},
        {TALC_RECORD_USER, texts[1], strlen(texts[1])},
        {TALC_RECORD_PASSWORD, texts[2], strlen(texts[2])},
        {TALC_END, NULL, 0},
    };
    uint32_t refusal = TALC_OK;
    for (size_t i = 0; i < sizeof fields / sizeof *fields && refusal == TALC_OK; i++)
        refusal = add(fields[i].type, fields[i].data, fields[i].length, random + 16 + 15 * i);
    return refusal;
}

/* Salt, keys and initial vector are fresh. */
static uint32_t make_file(const char *passphrase, const uint8_t random[112])
{
    uint32_t refusal = talc_write((const uint8_t *)passphrase, strlen(passphrase), random, 262144,
                                  random + 32, random + 64, random + 96, body, place, file,
                                  place + TALC_AROUND);
    talc_clear_stack();
    return refusal;
}

static bool write_file(const char *name, size_t length)
{
    FILE *out = fopen(name, "wb");
    if (out == NULL)
        return false;
    bool whole = fwrite(file, 1, length, out) == length;
    return fclose(out) == 0 && whole;
}

int main(int count, char **arguments)
{
    static uint8_t random[240];
    if (count != 6) {
        fprintf(stderr, "new FILE PASSPHRASE TITLE USER PASSWORD\n");
        return 64;
    }
    if (talc_version() != TALC_VERSION) {
        fprintf(stderr, "the archive is not the header's\n");
        return 70;
    }
    if (!random_bytes(random, sizeof random)) {
        fprintf(stderr, "no random source\n");
        return 66;
    }
    uint32_t refusal = make_body(arguments + 3, random);
    if (refusal == TALC_OK)
        refusal = make_file(arguments[2], random + 128);
    talc_wipe(random, sizeof random);
    talc_wipe(body, sizeof body);
    if (refusal != TALC_OK) {
        fprintf(stderr, "refused, %u: %s: %s\n", (unsigned)refusal, talc_refusal_text(refusal),
                talc_refusal_advice(refusal));
        return (int)refusal;
    }
    if (!write_file(arguments[1], place + TALC_AROUND)) {
        fprintf(stderr, "%s: can't be written\n", arguments[1]);
        return 73;
    }
    printf("%s: %u bytes\n", arguments[1], (unsigned)(place + TALC_AROUND));
    return 0;
}
