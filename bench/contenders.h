/* What is timed. Each function does its work once; libraries that are not there have none. */
#ifndef CONTENDERS_H
#define CONTENDERS_H

#include <stddef.h>
#include <stdint.h>

#define MESSAGE (4u << 20)
#define TEXT (1u << 20)
#define PIECE 50
#define CHAIN 200000
#define KEYS 2000
#define RECORDS 1000000u
#define SMALL_LOGIN 80u
#define COMMON_LOGIN 160u
#define FILLED_LOGIN 352u
#define SHORT (1u << 20)
#define LONG 4194096u

/* The proved lower layers. */
void probe_hash(const uint8_t *m, size_t n, uint8_t out[32]);
void probe_pieces(const uint8_t *m, size_t n, size_t piece, uint8_t out[32]);
uint64_t probe_stretch(const uint8_t *passphrase, size_t n, const uint8_t salt[32], uint32_t iter,
                       uint8_t out[32]);
uint64_t probe_decrypt(const uint8_t key[32], const uint8_t iv[16], uint8_t *text, size_t n);
void probe_encrypt(const uint8_t key[32], const uint8_t iv[16], const uint8_t *from, size_t n,
                   uint8_t *to, size_t room);

/* The message that all take; its first 8 bytes are the passphrase. */
extern uint8_t message[MESSAGE];
extern const uint8_t salt[32];
extern const uint8_t iv[16];
void fill_message(void);

/* Passphrase and salt, which the first hash takes. */
void first(uint8_t joined[40]);
/* A key for each number. */
void key_number(uint8_t key[32], int i);
void decrypt_gcrypt(const uint8_t *key, uint8_t *t, size_t n);
void decrypt_tomcrypt(const uint8_t *key, uint8_t *t, size_t n);
void encrypt_tomcrypt(const uint8_t *key, const uint8_t *from, uint8_t *t, size_t n);

typedef void runs(uint8_t outcome[32]);

runs hash_proved, hash_portable, hash_openssl, hash_gcrypt, hash_nettle;
runs pieces_proved, pieces_portable, pieces_openssl, pieces_gcrypt, pieces_nettle;
runs chain_proved, chain_portable, chain_openssl, chain_gcrypt, chain_nettle;
runs cbc_proved, cbc_gcrypt, cbc_nettle, cbc_botan, cbc_tomcrypt;
runs encrypted_proved, encrypted_gcrypt, encrypted_nettle, encrypted_botan, encrypted_tomcrypt;
runs keys_proved, keys_gcrypt, keys_nettle, keys_botan, keys_tomcrypt;
runs keys_2_proved, keys_2_gcrypt, keys_2_nettle, keys_2_botan, keys_2_tomcrypt;
runs keys_4_proved, keys_4_gcrypt, keys_4_nettle, keys_4_botan, keys_4_tomcrypt;
runs read_proved, read_others, judge_proved;
runs replay_proved, replay_sqlite;
runs export_proved, judge_records, import_proved;

/* A body of records up to about that many bytes, each with notes of that length and some small
   fields; and a safe around it. They stay for the contenders above. */
extern uint8_t body[], safe[], workspace[];
extern size_t body_len;
void make_body(size_t length, size_t notes, int small);
void make_safe(uint32_t iter);
/* A body without records, or of SHORT or LONG bytes, with notes of 400 bytes; and a safe around it,
   of 2,048 or, where it says stretched, 262,144 steps. */
void shortest(void), short_at_once(void), short_stretched(void);
void long_at_once(void), long_stretched(void);
/* Adds one field to the body. */
void add_field(uint8_t type, const void *data, size_t n);

/* A trace of RECORDS records over that many UUIDs, random ones or counted up from 0. It stays for
   the contenders above. */
void make_trace(size_t uuids, int counted);

/* A body up to that many bytes, of logins that take so many each, and its table: SMALL_LOGIN has no
   field that may be left out, COMMON_LOGIN every field that a table has, and in FILLED_LOGIN all
   texts fill their rooms. */
void make_logins(size_t length, size_t login);

/* Ends the run. */
void stop(const char *what);

#endif
