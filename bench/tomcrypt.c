/* LibTomCrypt's Twofish, in a file of its own: its names are nettle's too. */
#ifdef HAVE_TOMCRYPT
#include <tomcrypt.h>

#include "contenders.h"

static symmetric_CBC opened(const uint8_t *key)
{
    symmetric_CBC c;
    cbc_start(register_cipher(&twofish_desc), iv, key, 32, 0, &c);
    return c;
}

void decrypt_tomcrypt(const uint8_t *key, uint8_t *t, size_t n)
{
    symmetric_CBC c = opened(key);
    cbc_decrypt(t, t, n, &c);
    cbc_done(&c);
}

void encrypt_tomcrypt(const uint8_t *key, const uint8_t *from, uint8_t *t, size_t n)
{
    symmetric_CBC c = opened(key);
    cbc_encrypt(from, t, n, &c);
    cbc_done(&c);
}
#endif
