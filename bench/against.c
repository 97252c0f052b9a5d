/*
 * This tree's library beside another's, in one run: SHA-256, stretching and Twofish; whole
 * readings; the HMAC over the fields of a body, judging it, walking it, finding in it, reading and
 * writing it. Both are linked, each under names of its own (the Makefile's `against`); the HMAC's is
 * a function inside the library, and not part of its face.
 */
#include <stdbool.h>
#include <stdio.h>
#include <string.h>

#include "contenders.h"
#include "contest.h"

/* The library's own functions take a slice as its start and its length. */
#define SIDE(side)                                                                                 \
    void side##_mac(uint8_t out[32], const uint8_t l[32], const uint8_t *body, size_t n);          \
    uint32_t side##_talc_judge(const uint8_t *body, size_t n, uint8_t answer[16]);                 \
    uint32_t side##_talc_walk(const uint8_t *body, size_t n, size_t place, bool in_record,         \
                              uint8_t answer[72]);                                                 \
    uint32_t side##_talc_find(const uint8_t *body, size_t n, const uint8_t uuid[16],               \
                              uint8_t answer[32]);                                                 \
    uint32_t side##_talc_read(const uint8_t *file, size_t n, const uint8_t *p, size_t p_len,       \
                              uint32_t ceiling, uint8_t *space, size_t room, uint8_t out[96]);     \
    uint32_t side##_talc_write(const uint8_t *p, size_t p_len, const uint8_t salt[32],             \
                               uint32_t iter, const uint8_t k[32], const uint8_t l[32],            \
                               const uint8_t iv[16], const uint8_t *body, size_t n, uint8_t *out,  \
                               size_t room);                                                       \
    void side##_probe_hash(const uint8_t *m, size_t n, uint8_t out[32]);                           \
    void side##_probe_pieces(const uint8_t *m, size_t n, size_t piece, uint8_t out[32]);           \
    uint64_t side##_probe_stretch(const uint8_t *p, size_t n, const uint8_t salt[32],              \
                                  uint32_t iter, uint8_t out[32]);                                 \
    static void side##_hashes(uint8_t out[32]) { side##_probe_hash(message, MESSAGE, out); }       \
    static void side##_pieces(uint8_t out[32])                                                     \
    {                                                                                              \
        side##_probe_pieces(message, MESSAGE, PIECE, out);                                         \
    }                                                                                              \
    static void side##_stretches(uint8_t out[32])                                                  \
    {                                                                                              \
        side##_probe_stretch(message, 8, salt, CHAIN, out);                                        \
    }                                                                                              \
    static void side##_macs(uint8_t out[32])                                                       \
    {                                                                                              \
        uint8_t l[32];                                                                             \
        key_number(l, 2);                                                                          \
        side##_mac(out, l, body, body_len);                                                        \
        if (memcmp(out, safe + body_len + 168, 32) != 0)                                           \
            stop("the HMAC differs from the safe's");                                              \
    }                                                                                              \
    static void side##_judges(uint8_t out[32])                                                     \
    {                                                                                              \
        if (side##_talc_judge(body, body_len, out) != 0)                                           \
            stop("a body was refused");                                                            \
    }                                                                                              \
    static void side##_walks(uint8_t out[32])                                                      \
    {                                                                                              \
        uint64_t a[9] = {1};                                                                       \
        for (a[1] = 0, a[2] = 0; a[0] != 0;) {                                                     \
            memcpy(out, a, 32);                                                                    \
            if (side##_talc_walk(body, body_len, a[1], a[2], (uint8_t *)a) != 0)                   \
                stop("a walk was refused");                                                        \
        }                                                                                          \
    }                                                                                              \
    static void side##_finds(uint8_t out[32])                                                      \
    {                                                                                              \
        static const uint8_t absent[16] = {0xff, 0xff, 0xff, 0xff, 0xff, 0xff, 0xff, 0xff};        \
        uint8_t answer[32];                                                                        \
        if (side##_talc_find(body, body_len, absent, answer) != 0 || answer[0] != 0)               \
            stop("a UUID was found that is not there");                                            \
        memcpy(out, answer, 24); /* an older library has no count behind this */                   \
    }                                                                                              \
    static void side##_reads(uint8_t out[32])                                                      \
    {                                                                                              \
        uint8_t answer[96];                                                                        \
        uint32_t number = side##_talc_read(safe, body_len + 200, message, 8, UINT32_MAX,           \
                                           workspace, body_len, answer);                           \
        if (number != 0)                                                                           \
            stop("a safe was refused");                                                            \
        memcpy(out, answer + 64, 32);                                                              \
    }                                                                                              \
    static void side##_writes(uint8_t out[32])                                                     \
    {                                                                                              \
        uint8_t k[32], l[32];                                                                      \
        key_number(k, 1), key_number(l, 2);                                                        \
        uint32_t number = side##_talc_write(message, 8, salt, 2048, k, l, iv, body, body_len,      \
                                            safe, body_len + 200);                                 \
        if (number != 0)                                                                           \
            stop("a body was refused");                                                            \
        memcpy(out, safe + body_len + 168, 32);                                                    \
    }

SIDE(here)
SIDE(there)

typedef uint64_t decrypts(const uint8_t key[32], const uint8_t iv[16], uint8_t *text, size_t n);
typedef void encrypts(const uint8_t key[32], const uint8_t iv[16], const uint8_t *from, size_t n,
                      uint8_t *to, size_t room);

static void decrypt_text(decrypts *decrypt, uint8_t out[32])
{
    uint8_t key[32];
    key_number(key, 1);
    memcpy(workspace, message, TEXT);
    decrypt(key, iv, workspace, TEXT);
    memcpy(out, workspace + TEXT - 32, 32);
}

static void encrypt_text(encrypts *encrypt, uint8_t out[32])
{
    uint8_t key[32];
    key_number(key, 1);
    encrypt(key, iv, message, TEXT, workspace, TEXT);
    memcpy(out, workspace + TEXT - 32, 32);
}

static void many_keys(decrypts *decrypt, size_t n, uint8_t out[32])
{
    uint8_t key[32], t[64] = {0};
    for (int i = 0; i < KEYS; i++) {
        key_number(key, i);
        decrypt(key, iv, t, n);
    }
    memcpy(out, t, 16);
}

#define CIPHER(side)                                                                               \
    decrypts side##_probe_decrypt;                                                                 \
    encrypts side##_probe_encrypt;                                                                 \
    static void side##_decrypts(uint8_t out[32]) { decrypt_text(side##_probe_decrypt, out); }      \
    static void side##_encrypts(uint8_t out[32]) { encrypt_text(side##_probe_encrypt, out); }      \
    static void side##_keys(uint8_t out[32]) { many_keys(side##_probe_decrypt, 16, out); }         \
    static void side##_keys_4(uint8_t out[32]) { many_keys(side##_probe_decrypt, 64, out); }

CIPHER(here)
CIPHER(there)

#define BOTH(f) {{"here", here_##f, 0}, {"there", there_##f, 0}}

static void hold(const char *what, size_t notes, int small)
{
    struct contest contests[] = {
        {"HMAC over all fields", "MB/s", 0, 41, NULL, BOTH(macs)},
        {"Judging", "MB/s", 0, 21, NULL, BOTH(judges)},
        {"Walking, with the values", "MB/s", 0, 21, NULL, BOTH(walks)},
        {"Finding a UUID that is not there", "MB/s", 0, 21, NULL, BOTH(finds)},
        {"Reading, ITER 2,048", "MB/s", 0, 5, NULL, BOTH(reads)},
        {"Writing, ITER 2,048", "MB/s", 0, 5, NULL, BOTH(writes)},
    };
    make_body(LONG, notes, small);
    make_safe(2048);
    printf("\n%s\n", what);
    for (size_t i = 0; i < sizeof contests / sizeof contests[0]; i++) {
        contests[i].work = (double)body_len / 1e6;
        contest_hold(&contests[i]);
    }
}

/* Layers, and whole readings. */
static void hold_lower(void)
{
    struct contest contests[] = {
        {"SHA-256, one long message", "MB/s", MESSAGE / 1e6, 21, NULL, BOTH(hashes)},
        {"SHA-256, the same in pieces of 50 bytes", "MB/s", MESSAGE / 1e6, 21, NULL, BOTH(pieces)},
        {"Stretching: hashes of 32 bytes", "M/s", CHAIN / 1e6, 21, NULL, BOTH(stretches)},
        {"Twofish, CBC decryption", "MB/s", TEXT / 1e6, 21, NULL, BOTH(decrypts)},
        {"Twofish, CBC encryption", "MB/s", TEXT / 1e6, 21, NULL, BOTH(encrypts)},
        {"Twofish, key set-up and one block", "k/s", KEYS / 1e3, 21, NULL, BOTH(keys)},
        {"Twofish, key set-up and four blocks", "k/s", KEYS / 1e3, 21, NULL, BOTH(keys_4)},
        {"Reading the shortest body, ITER 2,048", "/s", 1, 99, shortest, BOTH(reads)},
        {"Reading a body of 1 MB, ITER 2,048", "/s", 1, 9, short_at_once, BOTH(reads)},
        {"Reading a body of 1 MB, ITER 262,144", "/s", 1, 9, short_stretched, BOTH(reads)},
        {"Reading a body of 4 MB, ITER 2,048", "/s", 1, 5, long_at_once, BOTH(reads)},
        {"Reading a body of 4 MB, ITER 262,144", "/s", 1, 5, long_stretched, BOTH(reads)},
    };
    for (size_t i = 0; i < sizeof contests / sizeof contests[0]; i++)
        contest_hold(&contests[i]);
}

int main(void)
{
    fill_message();
    printf("best of several rounds, interleaved; the last column is the speed as a multiple of\n"
           "the speed here\n");
    hold_lower();
    hold("4 MB of small fields", 0, 4);
    hold("4 MB of records with notes of 400 bytes", 400, 4);
    return 0;
}
