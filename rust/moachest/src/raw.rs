//! The C interface, as `include/moachest.h` has it. The rest of the crate is safe over it.
//!
//! A slice is a pointer and a length in elements. **Lent memory**, which every call requires: each pointer is non-null (also with length 0) and
//! aligned; that many elements can be read there, and written behind `*mut`; what is written overlaps no other slice of the call and is touched
//! by no one else during it. Of the contents a call without `_trusted` requires nothing.
//!
//! **Trusted slots**, which a `_trusted` call requires besides: `tree`, `heads` and `bytes` are what the last call on this tree left, beginning
//! with an accepted `moachest_open`, and no one else wrote them; `heads` and `bytes` (and `scratch`) have the lengths that
//! `moachest_workspace_words`, `moachest_workspace_bytes` (and `moachest_scratch_bytes`) give for `slots` and `size`; `size`, `slots` and
//! whether a map is lent (`mapped`) are as they were in that call; and the image's length is 1 to 2^20 times `size`. The image's bytes are not
//! trusted, nor are keys, values, outputs, and flush's bitmap, counts and lists.

/// How many words an open tree and an answer have.
pub const TREE_WORDS: usize = 14;
pub const ANSWER_WORDS: usize = 8;

unsafe extern "C" {
    /// How many words `heads` has; 0 where no such number of slots is accepted.
    pub safe fn moachest_workspace_words(slots: usize) -> u64;

    /// How many bytes `bytes` has; 0 where no such numbers are accepted.
    pub safe fn moachest_workspace_bytes(slots: usize, size: usize) -> u64;

    /// How many bytes `scratch` has; 0 where no such numbers are accepted.
    pub safe fn moachest_scratch_bytes(slots: usize, size: usize) -> u64;

    /// Opens the tree whose root is `root` and writes its words to `tree`.
    ///
    /// # Safety
    /// Lent memory, as the [module](self) says. It trusts nothing of what is in it.
    pub fn moachest_open(
        tree: *mut u64, tree_words: usize, image: *const u8, image_length: usize, heads: *mut u64, heads_words: usize, bytes: *mut u8,
        bytes_length: usize, size: usize, slots: usize, mapped: u64, map: u64, root: u64, order: u64, xid: u64,
    ) -> u64;

    /// What a key holds.
    ///
    /// # Safety
    /// Lent memory, as the [module](self) says. It trusts nothing of what is in it.
    pub fn moachest_get(
        tree: *mut u64, tree_words: usize, image: *const u8, image_length: usize, heads: *mut u64, heads_words: usize, bytes: *mut u8,
        bytes_length: usize, size: usize, slots: usize, mapped: u64, map: u64, key: *const u8, key_length: usize, out: *mut u8, out_length: usize,
        answer: *mut u64, answer_words: usize,
    ) -> u64;

    /// The entry with the last key that is not above the key.
    ///
    /// # Safety
    /// Lent memory, as the [module](self) says. It trusts nothing of what is in it.
    pub fn moachest_floor(
        tree: *mut u64, tree_words: usize, image: *const u8, image_length: usize, heads: *mut u64, heads_words: usize, bytes: *mut u8,
        bytes_length: usize, size: usize, slots: usize, mapped: u64, map: u64, key: *const u8, key_length: usize, out: *mut u8, out_length: usize,
        answer: *mut u64, answer_words: usize,
    ) -> u64;

    /// The entries with lo <= key < hi.
    ///
    /// # Safety
    /// Lent memory, as the [module](self) says. It trusts nothing of what is in it.
    pub fn moachest_range(
        tree: *mut u64, tree_words: usize, image: *const u8, image_length: usize, heads: *mut u64, heads_words: usize, bytes: *mut u8,
        bytes_length: usize, size: usize, slots: usize, mapped: u64, map: u64, lo: *const u8, lo_length: usize, hi: *const u8, hi_length: usize,
        out: *mut u8, out_length: usize, answer: *mut u64, answer_words: usize,
    ) -> u64;

    /// Replaces what a key holds, or inserts the entry.
    ///
    /// # Safety
    /// Lent memory, as the [module](self) says. It trusts nothing of what is in it.
    pub fn moachest_upsert(
        tree: *mut u64, tree_words: usize, image: *const u8, image_length: usize, heads: *mut u64, heads_words: usize, bytes: *mut u8,
        bytes_length: usize, scratch: *mut u8, scratch_length: usize, size: usize, slots: usize, mapped: u64, map: u64, key: *const u8,
        key_length: usize, is_ghost: u64, value: *const u8, value_length: usize,
    ) -> u64;

    /// Takes a key out.
    ///
    /// # Safety
    /// Lent memory, as the [module](self) says. It trusts nothing of what is in it.
    pub fn moachest_remove(
        tree: *mut u64, tree_words: usize, image: *const u8, image_length: usize, heads: *mut u64, heads_words: usize, bytes: *mut u8,
        bytes_length: usize, scratch: *mut u8, scratch_length: usize, size: usize, slots: usize, mapped: u64, map: u64, key: *const u8,
        key_length: usize, answer: *mut u64, answer_words: usize,
    ) -> u64;

    /// Takes out all versions of an id and puts one.
    ///
    /// # Safety
    /// Lent memory, as the [module](self) says. It trusts nothing of what is in it.
    pub fn moachest_omap_put(
        tree: *mut u64, tree_words: usize, image: *const u8, image_length: usize, heads: *mut u64, heads_words: usize, bytes: *mut u8,
        bytes_length: usize, scratch: *mut u8, scratch_length: usize, size: usize, slots: usize, mapped: u64, map: u64, id: u64, xid: u64,
        address: u64, length: u64,
    ) -> u64;

    /// Takes out all versions of an id.
    ///
    /// # Safety
    /// Lent memory, as the [module](self) says. It trusts nothing of what is in it.
    pub fn moachest_omap_drop(
        tree: *mut u64, tree_words: usize, image: *const u8, image_length: usize, heads: *mut u64, heads_words: usize, bytes: *mut u8,
        bytes_length: usize, scratch: *mut u8, scratch_length: usize, size: usize, slots: usize, mapped: u64, map: u64, id: u64,
    ) -> u64;

    /// Writes every changed node to a free block and ends the tree.
    ///
    /// # Safety
    /// Lent memory, as the [module](self) says. It trusts nothing of what is in it.
    pub fn moachest_flush(
        tree: *const u64, tree_words: usize, image: *mut u8, image_length: usize, bitmap: *mut u8, bitmap_length: usize, counts: *const u32,
        counts_length: usize, free: *mut u32, free_length: usize, heads: *mut u64, heads_words: usize, bytes: *const u8, bytes_length: usize,
        freed: *mut u64, freed_length: usize, removed: *mut u64, removed_length: usize, ids: *mut u64, ids_length: usize, places: *mut u64,
        places_length: usize, size: usize, slots: usize, mapped: u64, map: u64, xid: u64, next: u64, answer: *mut u64, answer_words: usize,
    ) -> u64;

    /// What a key holds. It does not look at the slots first.
    ///
    /// # Safety
    /// Lent memory and trusted slots, as the [module](self) says. It trusts `tree`, `heads`, `bytes` and the image's length.
    pub fn moachest_get_trusted(
        tree: *mut u64, tree_words: usize, image: *const u8, image_length: usize, heads: *mut u64, heads_words: usize, bytes: *mut u8,
        bytes_length: usize, size: usize, slots: usize, mapped: u64, map: u64, key: *const u8, key_length: usize, out: *mut u8, out_length: usize,
        answer: *mut u64, answer_words: usize,
    ) -> u64;

    /// The entry with the last key that is not above the key. It does not look at the slots first.
    ///
    /// # Safety
    /// Lent memory and trusted slots, as the [module](self) says. It trusts `tree`, `heads`, `bytes` and the image's length.
    pub fn moachest_floor_trusted(
        tree: *mut u64, tree_words: usize, image: *const u8, image_length: usize, heads: *mut u64, heads_words: usize, bytes: *mut u8,
        bytes_length: usize, size: usize, slots: usize, mapped: u64, map: u64, key: *const u8, key_length: usize, out: *mut u8, out_length: usize,
        answer: *mut u64, answer_words: usize,
    ) -> u64;

    /// The entries with lo <= key < hi. It does not look at the slots first.
    ///
    /// # Safety
    /// Lent memory and trusted slots, as the [module](self) says. It trusts `tree`, `heads`, `bytes` and the image's length.
    pub fn moachest_range_trusted(
        tree: *mut u64, tree_words: usize, image: *const u8, image_length: usize, heads: *mut u64, heads_words: usize, bytes: *mut u8,
        bytes_length: usize, size: usize, slots: usize, mapped: u64, map: u64, lo: *const u8, lo_length: usize, hi: *const u8, hi_length: usize,
        out: *mut u8, out_length: usize, answer: *mut u64, answer_words: usize,
    ) -> u64;

    /// Replaces what a key holds, or inserts the entry. It does not look at the slots first.
    ///
    /// # Safety
    /// Lent memory and trusted slots, as the [module](self) says. It trusts `tree`, `heads`, `bytes`, the length of `scratch` and the image's length.
    pub fn moachest_upsert_trusted(
        tree: *mut u64, tree_words: usize, image: *const u8, image_length: usize, heads: *mut u64, heads_words: usize, bytes: *mut u8,
        bytes_length: usize, scratch: *mut u8, scratch_length: usize, size: usize, slots: usize, mapped: u64, map: u64, key: *const u8,
        key_length: usize, is_ghost: u64, value: *const u8, value_length: usize,
    ) -> u64;

    /// Takes a key out. It does not look at the slots first.
    ///
    /// # Safety
    /// Lent memory and trusted slots, as the [module](self) says. It trusts `tree`, `heads`, `bytes`, the length of `scratch` and the image's length.
    pub fn moachest_remove_trusted(
        tree: *mut u64, tree_words: usize, image: *const u8, image_length: usize, heads: *mut u64, heads_words: usize, bytes: *mut u8,
        bytes_length: usize, scratch: *mut u8, scratch_length: usize, size: usize, slots: usize, mapped: u64, map: u64, key: *const u8,
        key_length: usize, answer: *mut u64, answer_words: usize,
    ) -> u64;

    /// Takes out all versions of an id and puts one. It does not look at the slots first.
    ///
    /// # Safety
    /// Lent memory and trusted slots, as the [module](self) says. It trusts `tree`, `heads`, `bytes`, the length of `scratch` and the image's length.
    pub fn moachest_omap_put_trusted(
        tree: *mut u64, tree_words: usize, image: *const u8, image_length: usize, heads: *mut u64, heads_words: usize, bytes: *mut u8,
        bytes_length: usize, scratch: *mut u8, scratch_length: usize, size: usize, slots: usize, mapped: u64, map: u64, id: u64, xid: u64,
        address: u64, length: u64,
    ) -> u64;

    /// Takes out all versions of an id. It does not look at the slots first.
    ///
    /// # Safety
    /// Lent memory and trusted slots, as the [module](self) says. It trusts `tree`, `heads`, `bytes`, the length of `scratch` and the image's length.
    pub fn moachest_omap_drop_trusted(
        tree: *mut u64, tree_words: usize, image: *const u8, image_length: usize, heads: *mut u64, heads_words: usize, bytes: *mut u8,
        bytes_length: usize, scratch: *mut u8, scratch_length: usize, size: usize, slots: usize, mapped: u64, map: u64, id: u64,
    ) -> u64;

    /// Writes every changed node to a free block and ends the tree. It does not look at the slots first.
    ///
    /// # Safety
    /// Lent memory and trusted slots, as the [module](self) says. It trusts `tree`, `heads`, `bytes` and the image's length;
    /// bitmap, counts and lists it looks at.
    pub fn moachest_flush_trusted(
        tree: *const u64, tree_words: usize, image: *mut u8, image_length: usize, bitmap: *mut u8, bitmap_length: usize, counts: *const u32,
        counts_length: usize, free: *mut u32, free_length: usize, heads: *mut u64, heads_words: usize, bytes: *const u8, bytes_length: usize,
        freed: *mut u64, freed_length: usize, removed: *mut u64, removed_length: usize, ids: *mut u64, ids_length: usize, places: *mut u64,
        places_length: usize, size: usize, slots: usize, mapped: u64, map: u64, xid: u64, next: u64, answer: *mut u64, answer_words: usize,
    ) -> u64;
}
