/*
 * The proved lower layers against libgcrypt and nettle: 1,100 random keys, messages of 1 to 256
 * blocks, encrypted and decrypted; and as many hashes and HMACs of 0 to 4,095 bytes. Libraries
 * that are not there are left out. Fails at the first difference.
 */
#include <stdio.h>
#include <stdlib.h>
#include <string.h>

#include "contenders.h"

#ifdef HAVE_GCRYPT
#include <gcrypt.h>
#endif
#ifdef HAVE_NETTLE
#include <nettle/cbc.h>
#include <nettle/hmac.h>
#include <nettle/twofish.h>
#endif

#define CASES 1100
#define LONGEST 4096

void probe_hmac(const uint8_t *key, size_t key_len, const uint8_t *m, size_t n, uint8_t out[32]);

static uint8_t text[LONGEST], encrypted[LONGEST], decrypted[LONGEST];
static uint8_t key[32], vector[16];

/* The same in every run. */
static void fill(uint8_t *p, size_t n)
{
    static uint64_t x = 88172645463325252u;
    for (size_t i = 0; i < n; i++) {
        x ^= x << 13, x ^= x >> 7, x ^= x << 17;
        p[i] = (uint8_t)(x >> 32);
    }
}

static void same(const char *who, const char *what, const uint8_t *a, const uint8_t *b, size_t n)
{
    if (memcmp(a, b, n) == 0)
        return;
    fprintf(stderr, "%s: another %s for %zu bytes\n", who, what, n);
    exit(1);
}

#ifdef HAVE_GCRYPT
static void cipher_gcrypt(size_t n)
{
    uint8_t theirs[LONGEST];
    gcry_cipher_hd_t c;
    gcry_cipher_open(&c, GCRY_CIPHER_TWOFISH, GCRY_CIPHER_MODE_CBC, 0);
    gcry_cipher_setkey(c, key, 32);
    gcry_cipher_setiv(c, vector, 16);
    gcry_cipher_encrypt(c, theirs, n, text, n);
    same("libgcrypt", "encryption", encrypted, theirs, n);
    gcry_cipher_setiv(c, vector, 16);
    gcry_cipher_decrypt(c, theirs, n, text, n);
    same("libgcrypt", "decryption", decrypted, theirs, n);
    gcry_cipher_close(c);
}

static void hash_and_hmac_gcrypt(size_t n, const uint8_t hash[32], const uint8_t tag[32])
{
    uint8_t theirs[32];
    gcry_md_hd_t mac;
    gcry_md_hash_buffer(GCRY_MD_SHA256, theirs, text, n);
    same("libgcrypt", "hash", hash, theirs, 32);
    gcry_md_open(&mac, GCRY_MD_SHA256, GCRY_MD_FLAG_HMAC);
    gcry_md_setkey(mac, key, 32);
    gcry_md_write(mac, text, n);
    same("libgcrypt", "HMAC", tag, gcry_md_read(mac, 0), 32);
    gcry_md_close(mac);
}
#endif

#ifdef HAVE_NETTLE
static void cipher_nettle(size_t n)
{
    uint8_t theirs[LONGEST], chained[16];
    struct twofish_ctx c;
    twofish_set_key(&c, 32, key);
    memcpy(chained, vector, 16);
    cbc_encrypt(&c, (nettle_cipher_func *)twofish_encrypt, 16, chained, n, theirs, text);
    same("nettle", "encryption", encrypted, theirs, n);
    memcpy(chained, vector, 16);
    cbc_decrypt(&c, (nettle_cipher_func *)twofish_decrypt, 16, chained, n, theirs, text);
    same("nettle", "decryption", decrypted, theirs, n);
}

static void hash_and_hmac_nettle(size_t n, const uint8_t hash[32], const uint8_t tag[32])
{
    uint8_t theirs[32];
    struct sha256_ctx c;
    struct hmac_sha256_ctx mac;
    sha256_init(&c);
    sha256_update(&c, n, text);
    sha256_digest(&c, 32, theirs);
    same("nettle", "hash", hash, theirs, 32);
    hmac_sha256_set_key(&mac, 32, key);
    hmac_sha256_update(&mac, n, text);
    hmac_sha256_digest(&mac, 32, theirs);
    same("nettle", "HMAC", tag, theirs, 32);
}
#endif

static void compare_ciphers(size_t n)
{
    probe_encrypt(key, vector, text, n, encrypted, n);
    memcpy(decrypted, text, n);
    uint64_t count = probe_decrypt(key, vector, decrypted, n), expected = n / 16;
    same("proved", "count", (uint8_t *)&count, (uint8_t *)&expected, sizeof count);
#ifdef HAVE_GCRYPT
    cipher_gcrypt(n);
#endif
#ifdef HAVE_NETTLE
    cipher_nettle(n);
#endif
}

static void compare_hashes(size_t n)
{
    uint8_t hash[32], tag[32];
    probe_hash(text, n, hash);
    probe_hmac(key, 32, text, n, tag);
#ifdef HAVE_GCRYPT
    hash_and_hmac_gcrypt(n, hash, tag);
#endif
#ifdef HAVE_NETTLE
    hash_and_hmac_nettle(n, hash, tag);
#endif
}

int main(void)
{
    size_t blocks = 0;
#ifdef HAVE_GCRYPT
    gcry_check_version(NULL);
    gcry_control(GCRYCTL_INITIALIZATION_FINISHED, 0);
    printf("libgcrypt %s\n", gcry_check_version(NULL));
#endif
#ifdef HAVE_NETTLE
    printf("nettle\n");
#endif
    for (int i = 0; i < CASES; i++) {
        size_t n = 16 * (1 + (size_t)i % 256);
        fill(key, 32);
        fill(vector, 16);
        fill(text, LONGEST);
        compare_ciphers(n);
        compare_hashes((size_t)i * 2654435761u % LONGEST);
        blocks += n / 16;
    }
#if !defined HAVE_GCRYPT && !defined HAVE_NETTLE
    fprintf(stderr, "nothing to compare with\n");
    return 1;
#endif
    printf("the same for %d keys, %zu blocks each way, %d hashes and %d HMACs\n", CASES, blocks,
           CASES, CASES);
    return 0;
}
