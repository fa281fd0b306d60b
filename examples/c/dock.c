/* The program `dock` (docs/RULES.md#dock) in C over the library: reads (new), (put ID XID ADDRESS) and (flush XID) from standard input.
 * It trusts its own slots: nothing but the calls below writes them. */
#include "empty.h"
#include "moachest.h"

#include <inttypes.h>
#include <stdio.h>
#include <string.h>

enum { BLOCKS = 32, SIZE = 512, SLOTS = 16 };

static uint8_t image[BLOCKS * SIZE], bitmap[SIZE], bytes[8 * SLOTS * SIZE], scratch[(2 * SLOTS + 2) * SIZE];
static uint64_t tree[MOACHEST_TREE_WORDS], heads[19 * SLOTS], answer[MOACHEST_ANSWER_WORDS];
static uint64_t freed[SLOTS], removed[SLOTS], ids[SLOTS], places[SLOTS];
static const uint32_t counts[1] = {BLOCKS};
static uint32_t unused[1];
static int is_open;

static void open_at(uint64_t root, uint64_t xid)
{
    uint64_t r = moachest_open(tree, MOACHEST_TREE_WORDS, image, sizeof image, heads, 19 * SLOTS, bytes, sizeof bytes, SIZE, SLOTS, 0, 0, root,
        MOACHEST_PAIR, xid);
    is_open = r == MOACHEST_ACCEPTED;
}

static void make(void)
{
    memset(image, 0, sizeof image);
    memset(bitmap, 0, sizeof bitmap);
    empty_omap(image, SIZE, 0);
    bitmap[0] = 1;
    unused[0] = BLOCKS - 1;
    open_at(0, 0);
    printf("(image %d %d)\n", BLOCKS, SIZE);
}

static void put(uint64_t id, uint64_t xid, uint64_t address)
{
    uint64_t r = moachest_omap_put_trusted(tree, MOACHEST_TREE_WORDS, image, sizeof image, heads, 19 * SLOTS, bytes, sizeof bytes, scratch,
        sizeof scratch, SIZE, SLOTS, 0, 0, id, xid, address, SIZE);
    printf("(put %" PRIu64 " %" PRIu64 ")\n", r, tree[MOACHEST_TREE_KEYS]);
}

static void flush(uint64_t xid)
{
    uint64_t r = moachest_flush_trusted(tree, MOACHEST_TREE_WORDS, image, sizeof image, bitmap, sizeof bitmap, counts, 1, unused, 1, heads,
        19 * SLOTS, bytes, sizeof bytes, freed, SLOTS, removed, SLOTS, ids, SLOTS, places, SLOTS, SIZE, SLOTS, 0, 0, xid, 0, answer,
        MOACHEST_ANSWER_WORDS);
    if (r != MOACHEST_ACCEPTED) {
        printf("(flush %" PRIu64 ")\n", r);
        return;
    }
    printf("(flush 0 %" PRIu64 " %" PRIu64 " %" PRIu64 " %" PRIu64 " %" PRIu64 ")\n", answer[MOACHEST_FLUSH_ROOT],
        answer[MOACHEST_FLUSH_ALLOCATED], answer[MOACHEST_FLUSH_FREED], answer[MOACHEST_FLUSH_KEYS], answer[MOACHEST_FLUSH_FILL]);
    open_at(answer[MOACHEST_FLUSH_ROOT], xid);
}

int main(void)
{
    char line[256];
    uint64_t a, b, c;
    while (fgets(line, sizeof line, stdin)) {
        if (strcmp(line, "(new)\n") == 0)
            make();
        else if (is_open && sscanf(line, "(put %" SCNu64 " %" SCNu64 " %" SCNu64 ")", &a, &b, &c) == 3)
            put(a, b, c);
        else if (is_open && sscanf(line, "(flush %" SCNu64 ")", &a) == 1)
            flush(a);
        else
            puts("(error)");
    }
    return 0;
}
