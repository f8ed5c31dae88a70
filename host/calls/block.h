/* The head of a block: four tag bytes and the big-endian size. */
#ifndef BLOCK_H
#define BLOCK_H

#include <stdint.h>
#include <string.h>

static void put_head(uint8_t *at, const char *tag, uint32_t size)
{
    memcpy(at, tag, 4);
    at[4] = (uint8_t)(size >> 24);
    at[5] = (uint8_t)(size >> 16);
    at[6] = (uint8_t)(size >> 8);
    at[7] = (uint8_t)size;
}

#endif
