/* Twofish: CBC over one long text, both ways, and short texts decrypted, under a new key each. */
#include <string.h>

#include "contenders.h"

#ifdef HAVE_GCRYPT
#include <gcrypt.h>
#endif
#ifdef HAVE_NETTLE
#include <nettle/cbc.h>
#include <nettle/twofish.h>
#endif
#ifdef HAVE_BOTAN
#include <botan/ffi.h>
#endif

static uint8_t text[TEXT];

static void outcome_of(const uint8_t *t, size_t n, uint8_t out[32])
{
    memcpy(out, t, 16);
    memcpy(out + 16, t + n - 16, 16);
}

typedef void decrypts(const uint8_t *key, uint8_t *t, size_t n);
typedef void encrypts(const uint8_t *key, const uint8_t *from, uint8_t *t, size_t n);

static void one_text(decrypts *decrypt, uint8_t out[32])
{
    uint8_t key[32];
    key_number(key, 1);
    memcpy(text, message, TEXT);
    decrypt(key, text, TEXT);
    outcome_of(text, TEXT, out);
}

static void one_encrypted(encrypts *encrypt, uint8_t out[32])
{
    uint8_t key[32];
    key_number(key, 1);
    encrypt(key, message, text, TEXT);
    outcome_of(text, TEXT, out);
}

static void many_keys(decrypts *decrypt, size_t n, uint8_t out[32])
{
    uint8_t key[32], t[64] = {0};
    for (int i = 0; i < KEYS; i++) {
        key_number(key, i);
        decrypt(key, t, n);
    }
    outcome_of(t, n, out);
}

/* What is timed of each library: the body of a file, decrypted and encrypted; a key for one block;
   for two, as the shortest body is; for four, as K and L are. */
#define TIMED(who)                                                                                 \
    void cbc_##who(uint8_t out[32]) { one_text(decrypt_##who, out); }                              \
    void encrypted_##who(uint8_t out[32]) { one_encrypted(encrypt_##who, out); }                   \
    void keys_##who(uint8_t out[32]) { many_keys(decrypt_##who, 16, out); }                        \
    void keys_2_##who(uint8_t out[32]) { many_keys(decrypt_##who, 32, out); }                      \
    void keys_4_##who(uint8_t out[32]) { many_keys(decrypt_##who, 64, out); }

static void decrypt_proved(const uint8_t *key, uint8_t *t, size_t n)
{
    probe_decrypt(key, iv, t, n);
}

static void encrypt_proved(const uint8_t *key, const uint8_t *from, uint8_t *t, size_t n)
{
    probe_encrypt(key, iv, from, n, t, n);
}

TIMED(proved)

#ifdef HAVE_GCRYPT
static gcry_cipher_hd_t opened_gcrypt(const uint8_t *key)
{
    gcry_cipher_hd_t cipher;
    gcry_cipher_open(&cipher, GCRY_CIPHER_TWOFISH, GCRY_CIPHER_MODE_CBC, 0);
    gcry_cipher_setkey(cipher, key, 32);
    gcry_cipher_setiv(cipher, iv, 16);
    return cipher;
}

void decrypt_gcrypt(const uint8_t *key, uint8_t *t, size_t n)
{
    gcry_cipher_hd_t cipher = opened_gcrypt(key);
    gcry_cipher_decrypt(cipher, t, n, NULL, 0);
    gcry_cipher_close(cipher);
}

static void encrypt_gcrypt(const uint8_t *key, const uint8_t *from, uint8_t *t, size_t n)
{
    gcry_cipher_hd_t cipher = opened_gcrypt(key);
    gcry_cipher_encrypt(cipher, t, n, from, n);
    gcry_cipher_close(cipher);
}

TIMED(gcrypt)
#endif

#ifdef HAVE_NETTLE
static void decrypt_nettle(const uint8_t *key, uint8_t *t, size_t n)
{
    struct twofish_ctx c;
    uint8_t chained[16];
    memcpy(chained, iv, 16);
    twofish_set_key(&c, 32, key);
    cbc_decrypt(&c, (nettle_cipher_func *)twofish_decrypt, 16, chained, n, t, t);
}

static void encrypt_nettle(const uint8_t *key, const uint8_t *from, uint8_t *t, size_t n)
{
    struct twofish_ctx c;
    uint8_t chained[16];
    memcpy(chained, iv, 16);
    twofish_set_key(&c, 32, key);
    cbc_encrypt(&c, (nettle_cipher_func *)twofish_encrypt, 16, chained, n, t, from);
}

TIMED(nettle)
#endif

#ifdef HAVE_BOTAN
static void through_botan(const uint8_t *key, int way, const uint8_t *from, uint8_t *t, size_t n)
{
    botan_cipher_t c;
    size_t written, taken;
    botan_cipher_init(&c, "Twofish/CBC/NoPadding", way);
    botan_cipher_set_key(c, key, 32);
    botan_cipher_start(c, iv, 16);
    botan_cipher_update(c, BOTAN_CIPHER_UPDATE_FLAG_FINAL, t, n, &written, from, n, &taken);
    botan_cipher_destroy(c);
}

static void decrypt_botan(const uint8_t *key, uint8_t *t, size_t n)
{
    through_botan(key, BOTAN_CIPHER_INIT_FLAG_DECRYPT, t, t, n);
}

static void encrypt_botan(const uint8_t *key, const uint8_t *from, uint8_t *t, size_t n)
{
    through_botan(key, BOTAN_CIPHER_INIT_FLAG_ENCRYPT, from, t, n);
}

TIMED(botan)
#endif

#ifdef HAVE_TOMCRYPT
TIMED(tomcrypt)
#endif
