#include "empty.h"

#include <string.h>

/* docs/FORMAT.md has the offsets. */
enum { HEADER = 56, INFO = 40, PHYSICAL_ROOT = 0x40000002, OMAP = 11, ROOT_LEAF_FIXED = 7 };

static void put(uint8_t *at, uint64_t x, int bytes)
{
    for (int i = 0; i < bytes; i++)
        at[i] = (uint8_t)(x >> 8 * i);
}

void put_u16(uint8_t *at, uint64_t x) { put(at, x, 2); }
void put_u32(uint8_t *at, uint64_t x) { put(at, x, 4); }
void put_u64(uint8_t *at, uint64_t x) { put(at, x, 8); }

uint64_t get_u64(const uint8_t *at)
{
    uint64_t x = 0;
    for (int i = 0; i < 8; i++)
        x |= (uint64_t)at[i] << 8 * i;
    return x;
}

void seal(uint8_t *block, size_t size)
{
    const uint64_t m = 0xFFFFFFFF;
    uint64_t s1 = 0, s2 = 0;
    for (size_t i = 8; i < size; i += 4) {
        uint64_t word = (uint64_t)block[i] | (uint64_t)block[i + 1] << 8 | (uint64_t)block[i + 2] << 16 | (uint64_t)block[i + 3] << 24;
        s1 = (s1 + word) % m;
        s2 = (s2 + s1) % m;
    }
    uint64_t c1 = m - (s1 + s2) % m;
    uint64_t c2 = m - (s1 + c1) % m;
    put_u64(block, c2 << 32 | c1);
}

void empty_omap(uint8_t *image, size_t size, uint64_t address)
{
    uint8_t *block = image + address * size, *info = block + size - INFO;
    size_t space = size - HEADER - INFO;
    size_t contents = (space / (4 + 16 + 16) + 7) / 8 * 8 * 4;
    memset(block, 0, size);
    put_u64(block + 8, address); /* a physical node's id is its address */
    put_u32(block + 24, PHYSICAL_ROOT);
    put_u32(block + 28, OMAP);
    put_u16(block + 32, ROOT_LEAF_FIXED);
    put_u16(block + 42, contents);
    put_u16(block + 46, space - contents); /* free space */
    put_u16(block + 48, 0xFFFF);           /* no free list, of keys and of values */
    put_u16(block + 52, 0xFFFF);
    put_u32(info + 4, size);
    put_u32(info + 8, 16);
    put_u32(info + 12, 16);
    put_u64(info + 32, 1); /* one node, no keys */
    seal(block, size);
}
