/* SHA-256 by FIPS 180-2, plain portable C, to compare with. */
#ifndef PORTABLE_H
#define PORTABLE_H

#include <stddef.h>
#include <stdint.h>

struct portable {
    uint32_t state[8];
    uint64_t length;
    uint8_t rest[64];
};

void portable_start(struct portable *p);
void portable_take(struct portable *p, const uint8_t *data, size_t n);
void portable_finish(struct portable *p, uint8_t out[32]);

#endif
