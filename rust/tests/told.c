/*
 * What the header says by itself: for each argument, a line. A number's refusal in words, or the fill and
 * the size of a field of that length; whether the archive is the header's; and whether what was wiped is
 * zero, and nothing else.
 */
#include <stdio.h>
#include <stdlib.h>
#include <string.h>

#include "talcfeather.h"

/* Both are constants, so that memory can be set aside by them. */
static const uint8_t field[TALC_FIELD_SIZE(12)] = {12};
static const uint8_t fill[TALC_FILL_NEEDED(12)] = {9};

/* Of every width, and no compiler has anything to say about it. */
static int of_any_width(uint8_t one, uint16_t two, uint32_t four, size_t eight)
{
    return TALC_FIELD_SIZE(one) == 16 && TALC_FIELD_SIZE(two) == 32 && TALC_FIELD_SIZE(four) == 48 &&
           TALC_FIELD_SIZE(eight) == 48 && TALC_FILL_NEEDED(one) == 0 && TALC_FIELD_BLOCKS(two) == 2;
}

static int wiped(void)
{
    uint8_t bytes[6] = {1, 2, 3, 4, 5, 6};
    static const uint8_t after[6] = {1, 0, 0, 0, 0, 6};
    talc_wipe(bytes + 1, 4);
    talc_wipe(NULL, 0);
    return memcmp(bytes, after, sizeof after) == 0;
}

int main(int count, char **arguments)
{
    for (int i = 2; i < count; i++) {
        unsigned long long number = strtoull(arguments[i], NULL, 10);
        if (strcmp(arguments[1], "refusals") == 0)
            printf("%s: %s\n", talc_refusal_text((uint32_t)number),
                   talc_refusal_advice((uint32_t)number));
        else
            printf("%llu %llu\n", (unsigned long long)TALC_FILL_NEEDED(number),
                   (unsigned long long)TALC_FIELD_SIZE(number));
    }
    printf("%u %u %u\n", (unsigned)sizeof field, (unsigned)sizeof fill, (unsigned)(field[0] + fill[0]));
    printf("%d %d %d\n", talc_version() == TALC_VERSION, wiped(), of_any_width(11, 12, 28, 43));
    return 0;
}
