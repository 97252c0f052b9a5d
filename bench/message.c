/* What every contender is given. */
#include "contenders.h"

uint8_t message[MESSAGE];
const uint8_t salt[32] = {1, 2, 3};
const uint8_t iv[16] = {4, 5, 6};

void fill_message(void)
{
    for (size_t i = 0; i < MESSAGE; i++)
        message[i] = (uint8_t)(i * 2654435761u >> 13);
}

void key_number(uint8_t key[32], int i)
{
    for (int j = 0; j < 32; j++)
        key[j] = 7;
    key[0] = (uint8_t)i, key[1] = (uint8_t)(i >> 8);
}
