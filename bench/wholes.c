/* Reading whole files, and judging a body. */
#define OPENSSL_SUPPRESS_DEPRECATED
#include <stdio.h>
#include <stdlib.h>
#include <string.h>

#include "../include/talcfeather.h"
#include "contenders.h"

#ifdef HAVE_OPENSSL
#include <openssl/sha.h>
#endif
#ifdef HAVE_GCRYPT
#include <gcrypt.h>
#endif

uint8_t body[TALC_BODY_MAX];
uint8_t safe[TALC_FILE_MAX];
uint8_t workspace[TALC_BODY_MAX];
size_t body_len;

void stop(const char *what)
{
    fprintf(stderr, "bench: %s\n", what);
    exit(1);
}

void add_field(uint8_t type, const void *data, size_t n)
{
    static const uint8_t fill[15] = {0};
    uint8_t next[8];
    if (talc_append(body, sizeof body, body_len, type, data, n, fill, 15 - (n + 4) % 16, next) != 0)
        stop("a field was refused");
    body_len = talc_number(next);
}

/* Records up to about that many bytes, each with notes of that length and some small fields. */
void make_body(size_t length, size_t notes, int small)
{
    static const uint8_t version[2] = {0x0e, 0x03};
    uint8_t uuid[16] = {0};
    body_len = 0;
    add_field(0x00, version, 2);
    add_field(0xff, NULL, 0);
    for (size_t record = 0; body_len + notes + 16 * (size_t)small + 160 < length; record++) {
        memcpy(uuid, &record, sizeof record);
        add_field(0x01, uuid, 16);
        add_field(0x03, "Title", 5);
        add_field(0x06, "password", 8);
        if (notes > 0)
            add_field(0x05, message, notes);
        for (int i = 0; i < small; i++)
            add_field(0x02, "user", 4); /* Text in a record, and it would be in the header */
        add_field(0xff, NULL, 0);
    }
}

void make_safe(uint32_t iter)
{
    uint8_t k[32], l[32];
    key_number(k, 1);
    key_number(l, 2);
    if (talc_write(message, 8, salt, iter, k, l, iv, body, body_len, safe, sizeof safe) != 0)
        stop("a safe was refused");
}

static void safe_of(size_t length, uint32_t iter)
{
    make_body(length, 400, 4);
    make_safe(iter);
}

void shortest(void) { safe_of(0, 2048); }
void short_at_once(void) { safe_of(SHORT, 2048); }
void short_stretched(void) { safe_of(SHORT, 262144); }
void long_at_once(void) { safe_of(LONG, 2048); }
void long_stretched(void) { safe_of(LONG, 262144); }

void read_proved(uint8_t out[32])
{
    uint8_t answer[TALC_READ_ANSWER];
    uint32_t number = talc_read(safe, body_len + 200, message, 8, UINT32_MAX, workspace,
                                sizeof workspace, answer);
    if (number != 0)
        stop("a safe was refused");
    memcpy(out, answer + 64, 16);
}

void judge_proved(uint8_t out[32])
{
    if (talc_judge(body, body_len, out) != 0)
        stop("a body was refused");
}

#if defined HAVE_OPENSSL && defined HAVE_GCRYPT
/* The same work without the format's rules: stretching, both ciphers, HMAC over all data. */

static void stretch_others(uint8_t x[32], uint8_t check[32])
{
    uint8_t joined[40];
    uint32_t iter = safe[36] | safe[37] << 8 | safe[38] << 16 | (uint32_t)safe[39] << 24;
    first(joined);
    SHA256(joined, 40, check);
    for (uint32_t i = 0; i <= iter; i++) {
        SHA256_CTX c;
        memcpy(x, check, 32);
        SHA256_Init(&c);
        SHA256_Update(&c, x, 32);
        SHA256_Final(check, &c);
    }
}

static void unwrap_others(const uint8_t x[32], uint8_t keys[64])
{
    gcry_cipher_hd_t ecb;
    gcry_cipher_open(&ecb, GCRY_CIPHER_TWOFISH, GCRY_CIPHER_MODE_ECB, 0);
    gcry_cipher_setkey(ecb, x, 32);
    gcry_cipher_decrypt(ecb, keys, 64, safe + 72, 64);
    gcry_cipher_close(ecb);
}

/* The number of ENDs; stops if the HMAC differs. */
static uint64_t fields_others(const uint8_t l[32])
{
    uint64_t ends = 0;
    gcry_md_hd_t mac;
    gcry_md_open(&mac, GCRY_MD_SHA256, GCRY_MD_FLAG_HMAC);
    gcry_md_setkey(mac, l, 32);
    for (size_t at = 0; at < body_len;) {
        const uint8_t *f = workspace + at;
        size_t n = f[0] | f[1] << 8 | f[2] << 16;
        gcry_md_write(mac, f + 5, n);
        ends += f[4] == 0xff;
        at += (n + 20) / 16 * 16;
    }
    if (memcmp(gcry_md_read(mac, 0), safe + body_len + 168, 32) != 0)
        stop("the HMAC differs");
    gcry_md_close(mac);
    return ends;
}

void read_others(uint8_t out[32])
{
    uint8_t x[32], check[32], keys[64];
    stretch_others(x, check);
    if (memcmp(check, safe + 40, 32) != 0)
        stop("the check differs");
    unwrap_others(x, keys);
    memcpy(workspace, safe + 152, body_len);
    decrypt_gcrypt(keys, workspace, body_len);
    uint64_t counts[2] = {1, fields_others(keys + 32) - 1}; /* the Version; the records */
    memcpy(out, counts, 16);
}
#endif
