/* An image with an empty root: opened, put to, flushed, opened again and read, with the calls that look at their slots; then refusals. */
#include "empty.h"
#include "moachest.h"

#include <stdio.h>
#include <stdlib.h>
#include <string.h>

enum { BLOCKS = 64, SIZE = 512, SLOTS = 32, ENTRIES = 40 };

static uint8_t image[BLOCKS * SIZE], bitmap[SIZE], out[4096];
static uint64_t tree[MOACHEST_TREE_WORDS], answer[MOACHEST_ANSWER_WORDS], freed[SLOTS], removed[SLOTS], ids[SLOTS], places[SLOTS];
static const uint32_t counts[1] = {BLOCKS};
static uint32_t unused[1] = {BLOCKS - 1};
static uint64_t *heads;
static uint8_t *bytes, *scratch;
static size_t heads_words, bytes_length, scratch_length;

static void expect(const char *what, uint64_t got, uint64_t wanted)
{
    if (got == wanted)
        return;
    printf("roundtrip: %s is %llu (%s), not %llu\n", what, (unsigned long long)got, moachest_refusal_sentence(got), (unsigned long long)wanted);
    exit(1);
}

static void workspace(void)
{
    heads_words = moachest_workspace_words(SLOTS);
    bytes_length = moachest_workspace_bytes(SLOTS, SIZE);
    scratch_length = moachest_scratch_bytes(SLOTS, SIZE);
    expect("words", heads_words, 19 * SLOTS);
    expect("bytes", bytes_length, 8 * SLOTS * SIZE);
    expect("scratch", scratch_length, (2 * SLOTS + 2) * SIZE);
    expect("words of no slots", moachest_workspace_words(0), 0);
    expect("bytes of a size that is none", moachest_workspace_bytes(SLOTS, 513), 0);
    expect("scratch of too many slots", moachest_scratch_bytes(MOACHEST_MOST_SLOTS + 1, SIZE), 0);
    heads = calloc(heads_words, 8);
    bytes = malloc(bytes_length); /* open needs nothing of it */
    scratch = malloc(scratch_length);
    if (!heads || !bytes || !scratch)
        exit(2);
}

static uint64_t open_at(uint64_t root)
{
    return moachest_open(tree, MOACHEST_TREE_WORDS, image, sizeof image, heads, heads_words, bytes, bytes_length, SIZE, SLOTS, 0, 0, root,
        MOACHEST_PAIR, 1);
}

static void put_all(void)
{
    for (uint64_t i = 0; i < ENTRIES; i++) {
        uint64_t r = moachest_omap_put(tree, MOACHEST_TREE_WORDS, image, sizeof image, heads, heads_words, bytes, bytes_length, scratch,
            scratch_length, SIZE, SLOTS, 0, 0, i * 7 % ENTRIES, 3, 1000 + i, SIZE);
        expect("a put", r, MOACHEST_ACCEPTED);
        expect("the number of keys", tree[MOACHEST_TREE_KEYS], i + 1);
    }
}

static uint64_t flush(void)
{
    uint64_t r = moachest_flush(tree, MOACHEST_TREE_WORDS, image, sizeof image, bitmap, sizeof bitmap, counts, 1, unused, 1, heads, heads_words,
        bytes, bytes_length, freed, SLOTS, removed, SLOTS, ids, SLOTS, places, SLOTS, SIZE, SLOTS, 0, 0, 3, 0, answer, MOACHEST_ANSWER_WORDS);
    expect("a flush", r, MOACHEST_ACCEPTED);
    expect("the keys flushed", answer[MOACHEST_FLUSH_KEYS], ENTRIES);
    expect("the blocks freed", answer[MOACHEST_FLUSH_FREED], 1);
    expect("the block freed", freed[0], 0);
    return answer[MOACHEST_FLUSH_ROOT];
}

static uint64_t get(uint64_t id, uint64_t xid, size_t out_length)
{
    uint8_t key[16];
    put_u64(key, id);
    put_u64(key + 8, xid);
    return moachest_get(tree, MOACHEST_TREE_WORDS, image, sizeof image, heads, heads_words, bytes, bytes_length, SIZE, SLOTS, 0, 0, key,
        sizeof key, out, out_length, answer, MOACHEST_ANSWER_WORDS);
}

static void get_all(void)
{
    for (uint64_t i = 0; i < ENTRIES; i++) {
        expect("a get", get(i * 7 % ENTRIES, 3, sizeof out), MOACHEST_ACCEPTED);
        expect("what a key holds", answer[MOACHEST_GET_KIND], MOACHEST_VALUE);
        expect("a value's length", answer[MOACHEST_GET_LENGTH], 16);
        expect("an address", get_u64(out + 8), 1000 + i);
    }
    expect("the get of a key that is not there", get(5, 4, sizeof out), MOACHEST_ACCEPTED);
    expect("what it holds", answer[MOACHEST_GET_KIND], MOACHEST_NONE);
}

static void range_all(void)
{
    uint8_t lo[16], hi[16];
    memset(lo, 0, sizeof lo);
    memset(hi, 0xFF, sizeof hi);
    uint64_t r = moachest_range(tree, MOACHEST_TREE_WORDS, image, sizeof image, heads, heads_words, bytes, bytes_length, SIZE, SLOTS, 0, 0, lo,
        sizeof lo, hi, sizeof hi, out, sizeof out, answer, MOACHEST_ANSWER_WORDS);
    expect("a range", r, MOACHEST_ACCEPTED);
    expect("its entries", answer[MOACHEST_RANGE_ENTRIES], ENTRIES);
    expect("their bytes", answer[MOACHEST_RANGE_LENGTH], ENTRIES * (MOACHEST_RECORD_HEAD + 16 + 16));
    for (uint64_t i = 0; i < ENTRIES; i++)
        expect("an id of the range", get_u64(out + i * 36 + MOACHEST_RECORD_HEAD), i);
}

static void remove_one(uint64_t id, uint64_t found)
{
    uint8_t key[16];
    put_u64(key, id);
    put_u64(key + 8, 3);
    uint64_t r = moachest_remove(tree, MOACHEST_TREE_WORDS, image, sizeof image, heads, heads_words, bytes, bytes_length, scratch, scratch_length,
        SIZE, SLOTS, 0, 0, key, sizeof key, answer, MOACHEST_ANSWER_WORDS);
    expect("a remove", r, MOACHEST_ACCEPTED);
    expect("whether a key was there", answer[MOACHEST_REMOVE_FOUND], found);
}

static uint64_t drop_with(size_t length)
{
    return moachest_omap_drop(tree, MOACHEST_TREE_WORDS, image, sizeof image, heads, heads_words, bytes, bytes_length, scratch, length, SIZE, SLOTS,
        0, 0, 9);
}

/* Refused calls change nothing: the same get is accepted after each. */
static void refusals(uint64_t root)
{
    expect("open outside the image", open_at(BLOCKS), MOACHEST_ADDRESS);
    expect("a get with a short output", get(7, 3, 15), MOACHEST_OUTPUT);
    expect("that get with room", get(7, 3, 16), MOACHEST_ACCEPTED);
    uint64_t used = tree[MOACHEST_TREE_USED];
    tree[MOACHEST_TREE_USED] = SLOTS + 1;
    expect("a get with too many slots in use", get(7, 3, 16), MOACHEST_LENT);
    tree[MOACHEST_TREE_USED] = used;
    expect("that get again", get(7, 3, 16), MOACHEST_ACCEPTED);
    expect("a drop with a short scratch", drop_with(scratch_length - 1), MOACHEST_LENT);
    expect("the keys after it", tree[MOACHEST_TREE_KEYS], ENTRIES);
    expect("that drop with the scratch", drop_with(scratch_length), MOACHEST_ACCEPTED);
    expect("the keys after it", tree[MOACHEST_TREE_KEYS], ENTRIES - 1);
    image[root * SIZE + 200] ^= 1;
    expect("open of a damaged root", open_at(root), MOACHEST_FLETCHER);
    image[root * SIZE + 200] ^= 1;
    expect("open of the root", open_at(root), MOACHEST_ACCEPTED);
    expect("open with too few words for a tree",
        moachest_open(tree, MOACHEST_TREE_WORDS - 1, image, sizeof image, heads, heads_words, bytes, bytes_length, SIZE, SLOTS, 0, 0, root,
            MOACHEST_PAIR, 1),
        MOACHEST_LENT);
}

int main(void)
{
    workspace();
    empty_omap(image, SIZE, 0);
    bitmap[0] = 1;
    expect("open of the empty root", open_at(0), MOACHEST_ACCEPTED);
    expect("its keys", tree[MOACHEST_TREE_KEYS], 0);
    put_all();
    uint64_t root = flush();
    expect("open of the new root", open_at(root), MOACHEST_ACCEPTED);
    expect("its keys", tree[MOACHEST_TREE_KEYS], ENTRIES);
    get_all();
    range_all();
    remove_one(7, 1);
    remove_one(7, 0);
    expect("open of the new root", open_at(root), MOACHEST_ACCEPTED);
    refusals(root);
    free(heads);
    free(bytes);
    free(scratch);
    puts("roundtrip: passed");
    return 0;
}
