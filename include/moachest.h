/* moachest.h: the proved B-tree editor for APFS disks, as a C library (C99, x86-64 Linux).
 *
 * Link with libmoachest.a, which tools/build makes. The library allocates nothing, keeps nothing between calls and does no input or output:
 * a call works on what it is lent. The rules of each call are in docs/RULES.md, the bytes and words in docs/FORMAT.md.
 *
 * Every call but the three sizes answers 0 (accepted) or the number of a refusal. A refused call changes nothing that it was lent,
 * except for parts of the workspace that are unused (docs/FORMAT.md#unused), and may be made again.
 *
 * Lent memory. A slice is passed as a pointer and a length, counted in elements. For every slice the caller sees to it that
 *   - the pointer is not null, also where the length is 0, and is aligned for its element;
 *   - that many elements can be read there, and written where the pointer is not const;
 *   - a slice that is written overlaps no other slice of the same call, and no other thread touches it during the call.
 * Of the slices' contents a call without _trusted in its name requires nothing: any bytes and words will do. */
#ifndef MOACHEST_H
#define MOACHEST_H

#include <stddef.h>
#include <stdint.h>

#ifdef __cplusplus
extern "C" {
#endif

/* Why a call is refused. moachest_refusal_sentence has the sentence of each. */
enum moachest_refusal {
    MOACHEST_ACCEPTED = 0,
    MOACHEST_LENT = 1,       /* A lent size or number is wrong, or the slots do not hold together. */
    MOACHEST_ADDRESS = 2,    /* An address lies outside the image. */
    MOACHEST_FLETCHER = 3,   /* A block's Fletcher sum is wrong. */
    MOACHEST_KIND = 4,       /* A block is no B-tree node. */
    MOACHEST_HASHED = 5,     /* A node is hashed. */
    MOACHEST_LAYOUT = 6,     /* A node's layout, level, flags or id is not what its place asks for. */
    MOACHEST_LEVEL = 7,      /* A node is not one level below its parent. */
    MOACHEST_ENTRY = 8,      /* A node's entry lies outside its block, or its entries are not a node's. */
    MOACHEST_KEYS = 9,       /* A node's keys do not rise, lie outside their bounds or have a wrong length. */
    MOACHEST_ROOT = 10,      /* The root's storage class or stored node size is wrong. */
    MOACHEST_NO_SLOT = 11,   /* No slot is free. */
    MOACHEST_ARGUMENT = 12,  /* A key or value has a length that the tree does not take, or the tree is no object map. */
    MOACHEST_SINGLE = 13,    /* A single entry is too large for a node. */
    MOACHEST_NO_CUT = 14,    /* No cut leaves two parts that fit. */
    MOACHEST_NEW_ROOT = 15,  /* The new root above a cut root would not fit, or would be at level 33. */
    MOACHEST_FULL = 16,      /* There are fewer usable blocks than nodes to write. */
    MOACHEST_COUNT = 17,     /* A count or an id would leave its range. */
    MOACHEST_UNMAPPED = 18,  /* The object map has no mapping of an id. */
    MOACHEST_ENCRYPTED = 19, /* A node is encrypted. */
    MOACHEST_OUTPUT = 20     /* The output is too short for the answer. */
};

/* The sentence of an answer, without a full stop; of a number that is none, "no refusal has this number". */
static inline const char *moachest_refusal_sentence(uint64_t number)
{
    switch (number) {
    case MOACHEST_ACCEPTED: return "accepted";
    case MOACHEST_LENT: return "a lent size or number is wrong, or the slots do not hold together";
    case MOACHEST_ADDRESS: return "an address lies outside the image";
    case MOACHEST_FLETCHER: return "a block's Fletcher sum is wrong";
    case MOACHEST_KIND: return "a block is no B-tree node";
    case MOACHEST_HASHED: return "a node is hashed";
    case MOACHEST_LAYOUT: return "a node's layout, level, flags or id is not what its place asks for";
    case MOACHEST_LEVEL: return "a node is not one level below its parent";
    case MOACHEST_ENTRY: return "a node's entry lies outside its block, or its entries are not a node's";
    case MOACHEST_KEYS: return "a node's keys do not rise, lie outside their bounds or have a wrong length";
    case MOACHEST_ROOT: return "the root's storage class or stored node size is wrong";
    case MOACHEST_NO_SLOT: return "no slot is free";
    case MOACHEST_ARGUMENT: return "a key or value has a length that the tree does not take, or the tree is no object map";
    case MOACHEST_SINGLE: return "a single entry is too large for a node";
    case MOACHEST_NO_CUT: return "no cut leaves two parts that fit";
    case MOACHEST_NEW_ROOT: return "the new root above a cut root would not fit, or would be at level 33";
    case MOACHEST_FULL: return "there are fewer usable blocks than nodes to write";
    case MOACHEST_COUNT: return "a count or an id would leave its range";
    case MOACHEST_UNMAPPED: return "the object map has no mapping of an id";
    case MOACHEST_ENCRYPTED: return "a node is encrypted";
    case MOACHEST_OUTPUT: return "the output is too short for the answer";
    default: return "no refusal has this number";
    }
}

/* Orders of keys. */
enum moachest_order {
    MOACHEST_PAIR = 0, /* Keys of 16 bytes: two little-endian u64, compared as numbers, the first one first. */
    MOACHEST_BYTE = 1  /* Keys of any length, compared byte by byte; a prefix comes before what it begins. */
};

/* Words of an open tree. Open writes them; the other calls read and write them. */
enum moachest_tree_word {
    MOACHEST_TREE_ROOT = 0,          /* the root's slot */
    MOACHEST_TREE_USED = 1,          /* slots in use */
    MOACHEST_TREE_FLAGS = 2,         /* flags of the tree info */
    MOACHEST_TREE_NODE_SIZE = 3,     /* bytes of a node */
    MOACHEST_TREE_KEY_SIZE = 4,      /* fixed key length, 0 if lengths are variable */
    MOACHEST_TREE_VALUE_SIZE = 5,    /* fixed value length */
    MOACHEST_TREE_LONGEST_KEY = 6,
    MOACHEST_TREE_LONGEST_VALUE = 7,
    MOACHEST_TREE_KEYS = 8,          /* entries in the leaves */
    MOACHEST_TREE_NODES = 9,
    MOACHEST_TREE_BY_ID = 10,        /* 0: physical, nodes are named by address; else virtual, by id */
    MOACHEST_TREE_SUBTYPE = 11,
    MOACHEST_TREE_ORDER = 12,        /* enum moachest_order */
    MOACHEST_TREE_XID = 13,          /* the transaction that the tree was opened at */
    MOACHEST_TREE_WORDS = 14         /* how many words `tree` has, at least */
};

/* Words of an answer. Only the words named for a call are written, and only where it is accepted. */
enum moachest_answer_word {
    MOACHEST_GET_KIND = 0,        /* enum moachest_kind */
    MOACHEST_GET_LENGTH = 1,      /* the value's length, written only for a value; its bytes are at the start of `out` */
    MOACHEST_FLOOR_FOUND = 0,     /* 0 none, 1 an entry */
    MOACHEST_FLOOR_LENGTH = 1,    /* the record's length, written only for an entry; the record is at the start of `out` */
    MOACHEST_RANGE_ENTRIES = 0,   /* how many entries */
    MOACHEST_RANGE_LENGTH = 1,    /* bytes of their records, which stand at the start of `out` */
    MOACHEST_REMOVE_FOUND = 0,    /* 1 if the key was there, else 0 */
    MOACHEST_FLUSH_ROOT = 0,      /* the root: its address, or its id */
    MOACHEST_FLUSH_ALLOCATED = 1, /* blocks written */
    MOACHEST_FLUSH_FREED = 2,     /* addresses in `freed` */
    MOACHEST_FLUSH_REMOVED = 3,   /* ids in `removed` */
    MOACHEST_FLUSH_MOVED = 4,     /* pairs: ids[i] is now at places[i] */
    MOACHEST_FLUSH_KEYS = 5,      /* entries */
    MOACHEST_FLUSH_FILL = 6,      /* how full the root is, in percent, rounded down */
    MOACHEST_FLUSH_NEXT = 7,      /* the next id left over */
    MOACHEST_ANSWER_WORDS = 8     /* how many words `answer` has, at least */
};

/* What a key holds. */
enum moachest_kind { MOACHEST_NONE = 0, MOACHEST_GHOST = 1, MOACHEST_VALUE = 2 };

/* Records, in the outputs of floor and range, one after another: key length (u16), mark (u16), key, value; little-endian.
 * The mark is the value's length, or MOACHEST_MARK_GHOST for an entry without a value. */
enum moachest_record { MOACHEST_RECORD_HEAD = 4, MOACHEST_MARK_GHOST = 0xFFFF };

/* The least and the most of what open accepts. A block size is a power of two; an image is whole blocks. */
enum moachest_limit {
    MOACHEST_LEAST_SIZE = 512,
    MOACHEST_MOST_SIZE = 65536,
    MOACHEST_MOST_SLOTS = 4096,
    MOACHEST_MOST_BLOCKS = 1048576
};

/* ---- Sizes. Each is 0 where the number of slots or the block size is none that open accepts. */

/* How many u64 words `heads` has, exactly: 19 a slot. */
uint64_t moachest_workspace_words(size_t slots);
/* How many bytes `bytes` has, exactly: eight blocks a slot. */
uint64_t moachest_workspace_bytes(size_t slots, size_t size);
/* How many bytes `scratch` has, exactly: two blocks a slot, and two. */
uint64_t moachest_scratch_bytes(size_t slots, size_t size);

/* ---- Calls. The arguments that all of them share:
 *   tree            MOACHEST_TREE_WORDS words or more: the open tree. Open needs nothing of them and writes them.
 *   image           the disk, 1 to MOACHEST_MOST_BLOCKS blocks
 *   heads, bytes    the workspace, of the sizes above. Open needs nothing of it.
 *   scratch         lent to edits; of the size above. It holds nothing between calls.
 *   size, slots     the block size, and the number of slots: 1 to MOACHEST_MOST_SLOTS, one for each node that is loaded or made
 *   mapped, map     mapped is 0: no object map is lent, and the tree is physical. Else map is the address of the object map's root.
 *   answer          MOACHEST_ANSWER_WORDS words or more
 * A tree is used with the same size, slots, mapped and map as it was opened with. Its image may not get shorter, and the blocks of the tree
 * and of its map stay as they are until the tree is flushed. */

/* Opens the tree whose root is `root`: an address, or an id where a map is lent. `order` is one of enum moachest_order.
 * `xid` is the transaction from which the object map is looked at. Refused: 1, 2 to 9, 10, 18, 19. */
uint64_t moachest_open(uint64_t *tree, size_t tree_words, const uint8_t *image, size_t image_length, uint64_t *heads, size_t heads_words,
    uint8_t *bytes, size_t bytes_length, size_t size, size_t slots, uint64_t mapped, uint64_t map, uint64_t root, uint64_t order, uint64_t xid);

/* What a key holds: nothing, a ghost, or a value, which it copies to `out`. Refused: 1, 12, loads, 20. */
uint64_t moachest_get(uint64_t *tree, size_t tree_words, const uint8_t *image, size_t image_length, uint64_t *heads, size_t heads_words,
    uint8_t *bytes, size_t bytes_length, size_t size, size_t slots, uint64_t mapped, uint64_t map, const uint8_t *key, size_t key_length,
    uint8_t *out, size_t out_length, uint64_t *answer, size_t answer_words);

/* The entry with the last key that is not above `key`, as a record in `out`. Refused: 1, 12, loads, 20. */
uint64_t moachest_floor(uint64_t *tree, size_t tree_words, const uint8_t *image, size_t image_length, uint64_t *heads, size_t heads_words,
    uint8_t *bytes, size_t bytes_length, size_t size, size_t slots, uint64_t mapped, uint64_t map, const uint8_t *key, size_t key_length,
    uint8_t *out, size_t out_length, uint64_t *answer, size_t answer_words);

/* The entries with lo <= key < hi, in order, as records in `out`. Refused: 1, 12, loads, 20. */
uint64_t moachest_range(uint64_t *tree, size_t tree_words, const uint8_t *image, size_t image_length, uint64_t *heads, size_t heads_words,
    uint8_t *bytes, size_t bytes_length, size_t size, size_t slots, uint64_t mapped, uint64_t map, const uint8_t *lo, size_t lo_length,
    const uint8_t *hi, size_t hi_length, uint8_t *out, size_t out_length, uint64_t *answer, size_t answer_words);

/* Replaces what a key holds, or inserts the entry: a ghost where is_ghost is not 0, else the value. Refused: 1, 12, loads, 17, 13 to 15, 11. */
uint64_t moachest_upsert(uint64_t *tree, size_t tree_words, const uint8_t *image, size_t image_length, uint64_t *heads, size_t heads_words,
    uint8_t *bytes, size_t bytes_length, uint8_t *scratch, size_t scratch_length, size_t size, size_t slots, uint64_t mapped, uint64_t map,
    const uint8_t *key, size_t key_length, uint64_t is_ghost, const uint8_t *value, size_t value_length);

/* Takes a key out, and answers whether it was there. Refused: 1, 12, loads, 17, 13 to 15, 11. */
uint64_t moachest_remove(uint64_t *tree, size_t tree_words, const uint8_t *image, size_t image_length, uint64_t *heads, size_t heads_words,
    uint8_t *bytes, size_t bytes_length, uint8_t *scratch, size_t scratch_length, size_t size, size_t slots, uint64_t mapped, uint64_t map,
    const uint8_t *key, size_t key_length, uint64_t *answer, size_t answer_words);

/* Of an object map: takes out all versions of an id and puts one, with flags 0. `length` is the object's size in bytes. As one call. */
uint64_t moachest_omap_put(uint64_t *tree, size_t tree_words, const uint8_t *image, size_t image_length, uint64_t *heads, size_t heads_words,
    uint8_t *bytes, size_t bytes_length, uint8_t *scratch, size_t scratch_length, size_t size, size_t slots, uint64_t mapped, uint64_t map,
    uint64_t id, uint64_t xid, uint64_t address, uint64_t length);

/* Of an object map: takes out all versions of an id. */
uint64_t moachest_omap_drop(uint64_t *tree, size_t tree_words, const uint8_t *image, size_t image_length, uint64_t *heads, size_t heads_words,
    uint8_t *bytes, size_t bytes_length, uint8_t *scratch, size_t scratch_length, size_t size, size_t slots, uint64_t mapped, uint64_t map,
    uint64_t id);

/* Writes every changed node to a free block, children before their parent, with transaction `xid`, and ends the tree: open it again.
 *   bitmap       one block for each chunk of 8 * size blocks; bit i % 8 of byte i / 8 is block i, 1 means used
 *   counts, free each chunk's block count and free count
 *   freed, removed, ids, places   report lists, each exactly `slots` long
 *   next         the next free id, for new nodes of a virtual tree
 * Bits of freed blocks stay set: it is for the caller to clear them once the new root is in use. Refused: 1, 16, 17. */
uint64_t moachest_flush(const uint64_t *tree, size_t tree_words, uint8_t *image, size_t image_length, uint8_t *bitmap, size_t bitmap_length,
    const uint32_t *counts, size_t counts_length, uint32_t *free, size_t free_length, uint64_t *heads, size_t heads_words,
    const uint8_t *bytes, size_t bytes_length, uint64_t *freed, size_t freed_length, uint64_t *removed, size_t removed_length,
    uint64_t *ids, size_t ids_length, uint64_t *places, size_t places_length, size_t size, size_t slots, uint64_t mapped, uint64_t map,
    uint64_t xid, uint64_t next, uint64_t *answer, size_t answer_words);

/* ---- Trusted twins: the same arguments and answers, without looking at the slots first. Refusal 1 of the slots is left out.
 *
 * They TRUST that `tree`, `heads` and `bytes` are what the last call on this tree left, beginning with an accepted moachest_open, that no one
 * else wrote them, that the workspace and the scratch have the sizes above, that size, slots, mapped and map are those of that call, and
 * that the image is whole blocks, 1 to MOACHEST_MOST_BLOCKS of them. With anything else their behaviour is undefined. */
uint64_t moachest_get_trusted(uint64_t *tree, size_t tree_words, const uint8_t *image, size_t image_length, uint64_t *heads, size_t heads_words,
    uint8_t *bytes, size_t bytes_length, size_t size, size_t slots, uint64_t mapped, uint64_t map, const uint8_t *key, size_t key_length,
    uint8_t *out, size_t out_length, uint64_t *answer, size_t answer_words);
uint64_t moachest_floor_trusted(uint64_t *tree, size_t tree_words, const uint8_t *image, size_t image_length, uint64_t *heads, size_t heads_words,
    uint8_t *bytes, size_t bytes_length, size_t size, size_t slots, uint64_t mapped, uint64_t map, const uint8_t *key, size_t key_length,
    uint8_t *out, size_t out_length, uint64_t *answer, size_t answer_words);
uint64_t moachest_range_trusted(uint64_t *tree, size_t tree_words, const uint8_t *image, size_t image_length, uint64_t *heads, size_t heads_words,
    uint8_t *bytes, size_t bytes_length, size_t size, size_t slots, uint64_t mapped, uint64_t map, const uint8_t *lo, size_t lo_length,
    const uint8_t *hi, size_t hi_length, uint8_t *out, size_t out_length, uint64_t *answer, size_t answer_words);
uint64_t moachest_upsert_trusted(uint64_t *tree, size_t tree_words, const uint8_t *image, size_t image_length, uint64_t *heads,
    size_t heads_words, uint8_t *bytes, size_t bytes_length, uint8_t *scratch, size_t scratch_length, size_t size, size_t slots, uint64_t mapped,
    uint64_t map, const uint8_t *key, size_t key_length, uint64_t is_ghost, const uint8_t *value, size_t value_length);
uint64_t moachest_remove_trusted(uint64_t *tree, size_t tree_words, const uint8_t *image, size_t image_length, uint64_t *heads,
    size_t heads_words, uint8_t *bytes, size_t bytes_length, uint8_t *scratch, size_t scratch_length, size_t size, size_t slots, uint64_t mapped,
    uint64_t map, const uint8_t *key, size_t key_length, uint64_t *answer, size_t answer_words);
uint64_t moachest_omap_put_trusted(uint64_t *tree, size_t tree_words, const uint8_t *image, size_t image_length, uint64_t *heads,
    size_t heads_words, uint8_t *bytes, size_t bytes_length, uint8_t *scratch, size_t scratch_length, size_t size, size_t slots, uint64_t mapped,
    uint64_t map, uint64_t id, uint64_t xid, uint64_t address, uint64_t length);
uint64_t moachest_omap_drop_trusted(uint64_t *tree, size_t tree_words, const uint8_t *image, size_t image_length, uint64_t *heads,
    size_t heads_words, uint8_t *bytes, size_t bytes_length, uint8_t *scratch, size_t scratch_length, size_t size, size_t slots, uint64_t mapped,
    uint64_t map, uint64_t id);
uint64_t moachest_flush_trusted(const uint64_t *tree, size_t tree_words, uint8_t *image, size_t image_length, uint8_t *bitmap,
    size_t bitmap_length, const uint32_t *counts, size_t counts_length, uint32_t *free, size_t free_length, uint64_t *heads, size_t heads_words,
    const uint8_t *bytes, size_t bytes_length, uint64_t *freed, size_t freed_length, uint64_t *removed, size_t removed_length, uint64_t *ids,
    size_t ids_length, uint64_t *places, size_t places_length, size_t size, size_t slots, uint64_t mapped, uint64_t map, uint64_t xid,
    uint64_t next, uint64_t *answer, size_t answer_words);

#ifdef __cplusplus
}
#endif

#endif
