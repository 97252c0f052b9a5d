/* SHA-256: one long message, the same in pieces, and stretching. */
#define OPENSSL_SUPPRESS_DEPRECATED
#include <string.h>

#include "contenders.h"
#include "portable.h"

#ifdef HAVE_OPENSSL
#include <openssl/sha.h>
#endif
#ifdef HAVE_GCRYPT
#include <gcrypt.h>
#endif
#ifdef HAVE_NETTLE
#include <nettle/sha2.h>
#endif

static size_t piece_at(size_t at)
{
    return MESSAGE - at < PIECE ? MESSAGE - at : PIECE;
}

/* Stretching: the first hash, then hashes of 32 bytes. */

typedef void hashes(const uint8_t *m, size_t n, uint8_t out[32]);

void first(uint8_t joined[40])
{
    memcpy(joined, message, 8);
    memcpy(joined + 8, salt, 32);
}

static void chain(hashes *hash, uint8_t out[32])
{
    uint8_t joined[40];
    first(joined);
    hash(joined, 40, out);
    for (int i = 0; i < CHAIN; i++)
        hash(out, 32, out);
}

/* The proved code. */

void hash_proved(uint8_t out[32]) { probe_hash(message, MESSAGE, out); }
void pieces_proved(uint8_t out[32]) { probe_pieces(message, MESSAGE, PIECE, out); }
void chain_proved(uint8_t out[32]) { probe_stretch(message, 8, salt, CHAIN, out); }

/* Portable C. */

static void portable(const uint8_t *m, size_t n, uint8_t out[32])
{
    struct portable p;
    portable_start(&p);
    portable_take(&p, m, n);
    portable_finish(&p, out);
}

void hash_portable(uint8_t out[32]) { portable(message, MESSAGE, out); }
void chain_portable(uint8_t out[32]) { chain(portable, out); }

void pieces_portable(uint8_t out[32])
{
    struct portable p;
    portable_start(&p);
    for (size_t at = 0; at < MESSAGE; at += PIECE)
        portable_take(&p, message + at, piece_at(at));
    portable_finish(&p, out);
}

#ifdef HAVE_OPENSSL
static void openssl(const uint8_t *m, size_t n, uint8_t out[32])
{
    SHA256_CTX c;
    SHA256_Init(&c);
    SHA256_Update(&c, m, n);
    SHA256_Final(out, &c);
}

void hash_openssl(uint8_t out[32]) { openssl(message, MESSAGE, out); }
void chain_openssl(uint8_t out[32]) { chain(openssl, out); }

void pieces_openssl(uint8_t out[32])
{
    SHA256_CTX c;
    SHA256_Init(&c);
    for (size_t at = 0; at < MESSAGE; at += PIECE)
        SHA256_Update(&c, message + at, piece_at(at));
    SHA256_Final(out, &c);
}
#endif

#ifdef HAVE_GCRYPT
static void gcrypt(const uint8_t *m, size_t n, uint8_t out[32])
{
    gcry_md_hash_buffer(GCRY_MD_SHA256, out, m, n);
}

void hash_gcrypt(uint8_t out[32]) { gcrypt(message, MESSAGE, out); }
void chain_gcrypt(uint8_t out[32]) { chain(gcrypt, out); }

void pieces_gcrypt(uint8_t out[32])
{
    gcry_md_hd_t md;
    gcry_md_open(&md, GCRY_MD_SHA256, 0);
    for (size_t at = 0; at < MESSAGE; at += PIECE)
        gcry_md_write(md, message + at, piece_at(at));
    memcpy(out, gcry_md_read(md, GCRY_MD_SHA256), 32);
    gcry_md_close(md);
}
#endif

#ifdef HAVE_NETTLE
static void nettle(const uint8_t *m, size_t n, uint8_t out[32])
{
    struct sha256_ctx c;
    sha256_init(&c);
    sha256_update(&c, n, m);
    sha256_digest(&c, 32, out);
}

void hash_nettle(uint8_t out[32]) { nettle(message, MESSAGE, out); }
void chain_nettle(uint8_t out[32]) { chain(nettle, out); }

void pieces_nettle(uint8_t out[32])
{
    struct sha256_ctx c;
    sha256_init(&c);
    for (size_t at = 0; at < MESSAGE; at += PIECE)
        sha256_update(&c, piece_at(at), message + at);
    sha256_digest(&c, 32, out);
}
#endif
