/* An empty tree: its root, packed and sealed into a block. The library edits trees; it does not make the first one. */
#ifndef EMPTY_H
#define EMPTY_H

#include <stddef.h>
#include <stdint.h>

/* Little-endian fields. */
void put_u16(uint8_t *at, uint64_t x);
void put_u32(uint8_t *at, uint64_t x);
void put_u64(uint8_t *at, uint64_t x);
uint64_t get_u64(const uint8_t *at);

/* Stores a block's Fletcher sum in its first 8 bytes. */
void seal(uint8_t *block, size_t size);

/* Packs an empty root leaf of a physical object map (keys and values of 16 bytes) into the block at `address` of an image. */
void empty_omap(uint8_t *image, size_t size, uint64_t address);

#endif
