// The library, as a caller that owns its slots uses it: the image is the caller's, all else is here.
use crate::Key;

// A slice passes as a pointer and a length.
type Words = (*mut u64, usize);

extern "C" {
    fn moachest_open(
        tree: *mut u64, tree_len: usize, image: *const u8, image_len: usize, heads: *mut u64, heads_len: usize, bytes: *mut u8, bytes_len: usize,
        size: usize, slots: usize, mapped: u64, map: u64, root: u64, order: u64, xid: u64,
    ) -> u64;
}

macro_rules! lookups {
    ($($name:ident),*) => { extern "C" { $(fn $name(
        tree: *mut u64, tree_len: usize, image: *const u8, image_len: usize, heads: *mut u64, heads_len: usize, bytes: *mut u8, bytes_len: usize,
        size: usize, slots: usize, mapped: u64, map: u64,
        key: *const u8, key_len: usize, out: *mut u8, out_len: usize, answer: *mut u64, answer_len: usize,
    ) -> u64;)* } };
}
lookups!(moachest_get, moachest_get_trusted, moachest_floor_trusted);

macro_rules! edits {
    ($($name:ident ( $($arg:ident : $t:ty),* )),* $(,)?) => { extern "C" { $(fn $name(
        tree: *mut u64, tree_len: usize, image: *const u8, image_len: usize, heads: *mut u64, heads_len: usize, bytes: *mut u8, bytes_len: usize,
        scratch: *mut u8, scratch_len: usize, size: usize, slots: usize, mapped: u64, map: u64, $($arg: $t),*
    ) -> u64;)* } };
}
edits!(
    moachest_upsert(key: *const u8, key_len: usize, is_ghost: u64, value: *const u8, value_len: usize),
    moachest_upsert_trusted(key: *const u8, key_len: usize, is_ghost: u64, value: *const u8, value_len: usize),
    moachest_remove_trusted(key: *const u8, key_len: usize, answer: *mut u64, answer_len: usize),
    moachest_omap_put_trusted(id: u64, xid: u64, address: u64, length: u64),
);

extern "C" {
    fn moachest_range_trusted(
        tree: *mut u64, tree_len: usize, image: *const u8, image_len: usize, heads: *mut u64, heads_len: usize, bytes: *mut u8, bytes_len: usize,
        size: usize, slots: usize, mapped: u64, map: u64,
        lo: *const u8, lo_len: usize, hi: *const u8, hi_len: usize, out: *mut u8, out_len: usize, answer: *mut u64, answer_len: usize,
    ) -> u64;
    fn moachest_flush_trusted(
        tree: *const u64, tree_len: usize, image: *mut u8, image_len: usize, bitmap: *mut u8, bitmap_len: usize, counts: *const u32, counts_len: usize,
        free: *mut u32, free_len: usize, heads: *mut u64, heads_len: usize, bytes: *const u8, bytes_len: usize,
        freed: *mut u64, freed_len: usize, removed: *mut u64, removed_len: usize, ids: *mut u64, ids_len: usize, places: *mut u64, places_len: usize,
        size: usize, slots: usize, mapped: u64, map: u64, xid: u64, next: u64, answer: *mut u64, answer_len: usize,
    ) -> u64;
}

pub struct Ours {
    size: usize,
    slots: usize,
    tree: [u64; 14],
    heads: Vec<u64>,
    bytes: Vec<u8>,
    scratch: Vec<u8>,
    out: Vec<u8>,
    lists: [Vec<u64>; 4],
    answer: [u64; 8],
}

// Blocks in use and counts, as flush takes them.
#[derive(Clone)]
pub struct Space {
    pub bitmap: Vec<u8>,
    pub counts: Vec<u32>,
    pub free: Vec<u32>,
}

impl Ours {
    pub fn new(size: usize, slots: usize) -> Self {
        Self {
            size,
            slots,
            tree: [0; 14],
            heads: vec![0; 19 * slots],
            bytes: vec![0; 8 * slots * size],
            scratch: vec![0; (2 * slots + 2) * size],
            out: vec![0; 1 << 16],
            lists: std::array::from_fn(|_| vec![0; slots]),
            answer: [0; 8],
        }
    }

    fn tree(&mut self) -> Words {
        (self.tree.as_mut_ptr(), self.tree.len())
    }

    pub fn open(&mut self, image: &[u8], root: u64, order: u64, xid: u64) {
        let t = self.tree();
        let r = unsafe {
            moachest_open(
                t.0, t.1, image.as_ptr(), image.len(), self.heads.as_mut_ptr(), self.heads.len(), self.bytes.as_mut_ptr(), self.bytes.len(),
                self.size, self.slots, 0, 0, root, order, xid,
            )
        };
        assert_eq!(r, 0, "open");
    }

    pub fn used(&self) -> u64 {
        self.tree[1]
    }

    pub fn counts(&self) -> (u64, u64) {
        (self.tree[8], self.tree[9])
    }
}

macro_rules! lookup {
    ($($name:ident $call:ident),*) => { impl Ours { $(
        #[inline(never)]
        pub fn $name(&mut self, image: &[u8], key: &[u8]) -> Option<&[u8]> {
            let t = self.tree();
            let r = unsafe {
                $call(
                    t.0, t.1, image.as_ptr(), image.len(), self.heads.as_mut_ptr(), self.heads.len(), self.bytes.as_mut_ptr(), self.bytes.len(),
                    self.size, self.slots, 0, 0, key.as_ptr(), key.len(), self.out.as_mut_ptr(), self.out.len(), self.answer.as_mut_ptr(), 8,
                )
            };
            assert_eq!(r, 0, stringify!($name));
            (self.answer[0] != 0).then(|| &self.out[..self.answer[1] as usize])
        }
    )* } };
}
lookup!(get_checked moachest_get, get moachest_get_trusted, floor moachest_floor_trusted);

macro_rules! edit {
    ($name:ident $call:ident ( $($arg:ident : $t:ty),* ) $($pass:expr),*) => { impl Ours {
        #[inline(never)]
        pub fn $name(&mut self, image: &[u8], $($arg: $t),*) {
            let t = self.tree();
            let r = unsafe {
                $call(
                    t.0, t.1, image.as_ptr(), image.len(), self.heads.as_mut_ptr(), self.heads.len(), self.bytes.as_mut_ptr(), self.bytes.len(),
                    self.scratch.as_mut_ptr(), self.scratch.len(), self.size, self.slots, 0, 0, $($pass),*
                )
            };
            assert_eq!(r, 0, stringify!($name));
        }
    } };
}
edit!(upsert moachest_upsert_trusted(key: &[u8], value: &[u8]) key.as_ptr(), key.len(), 0, value.as_ptr(), value.len());
edit!(upsert_checked moachest_upsert(key: &[u8], value: &[u8]) key.as_ptr(), key.len(), 0, value.as_ptr(), value.len());
edit!(remove moachest_remove_trusted(key: &[u8]) key.as_ptr(), key.len(), [0u64; 8].as_mut_ptr(), 8);
edit!(put moachest_omap_put_trusted(id: u64, xid: u64, address: u64, length: u64) id, xid, address, length);

impl Ours {
    // Loads every node between two keys; how many entries there are.
    pub fn load(&mut self, image: &[u8], lo: &Key, hi: &Key, room: usize) -> u64 {
        let mut out = vec![0u8; room];
        let t = self.tree();
        let r = unsafe {
            moachest_range_trusted(
                t.0, t.1, image.as_ptr(), image.len(), self.heads.as_mut_ptr(), self.heads.len(), self.bytes.as_mut_ptr(), self.bytes.len(),
                self.size, self.slots, 0, 0, lo.as_ptr(), lo.len(), hi.as_ptr(), hi.len(), out.as_mut_ptr(), out.len(), self.answer.as_mut_ptr(), 8,
            )
        };
        assert_eq!(r, 0, "range");
        self.answer[0]
    }

    // The root's new address, blocks written and blocks freed.
    #[inline(never)]
    pub fn flush(&mut self, image: &mut [u8], s: &mut Space, xid: u64) -> (u64, u64, u64) {
        let [a, b, c, d] = &mut self.lists;
        let r = unsafe {
            moachest_flush_trusted(
                self.tree.as_ptr(), 14, image.as_mut_ptr(), image.len(), s.bitmap.as_mut_ptr(), s.bitmap.len(), s.counts.as_ptr(), s.counts.len(),
                s.free.as_mut_ptr(), s.free.len(), self.heads.as_mut_ptr(), self.heads.len(), self.bytes.as_ptr(), self.bytes.len(),
                a.as_mut_ptr(), a.len(), b.as_mut_ptr(), b.len(), c.as_mut_ptr(), c.len(), d.as_mut_ptr(), d.len(),
                self.size, self.slots, 0, 0, xid, 0, self.answer.as_mut_ptr(), 8,
            )
        };
        assert_eq!(r, 0, "flush");
        (self.answer[0], self.answer[1], self.answer[2])
    }
}
