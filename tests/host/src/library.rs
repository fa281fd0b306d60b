//! The C interface of the library `moachest`: each slice is a pointer and a length, each answer 0 or a refusal's number.

use std::os::raw::c_void;

type Slice = *const c_void;
type Mutable = *mut c_void;

// One letter of a parameter's name is enough here; docs/CALLS.md and the crate's own text name them.
macro_rules! calls {
    ($($name:ident, $trusted:ident: ($($p:ident: $t:ty),*);)*) => {
        extern "C" { $(fn $name($($p: $t),*) -> u64; fn $trusted($($p: $t),*) -> u64;)* }
    };
}

calls! {
    moachest_get, moachest_get_trusted: (t: Mutable, tn: usize, i: Slice, n: usize, h: Mutable, hn: usize, b: Mutable, bn: usize,
        size: usize, slots: usize, mapped: u64, map: u64, k: Slice, kn: usize, o: Mutable, on: usize, a: Mutable, an: usize);
    moachest_floor, moachest_floor_trusted: (t: Mutable, tn: usize, i: Slice, n: usize, h: Mutable, hn: usize, b: Mutable, bn: usize,
        size: usize, slots: usize, mapped: u64, map: u64, k: Slice, kn: usize, o: Mutable, on: usize, a: Mutable, an: usize);
    moachest_range, moachest_range_trusted: (t: Mutable, tn: usize, i: Slice, n: usize, h: Mutable, hn: usize, b: Mutable, bn: usize,
        size: usize, slots: usize, mapped: u64, map: u64, lo: Slice, ln: usize, hi: Slice, hin: usize, o: Mutable, on: usize, a: Mutable, an: usize);
    moachest_upsert, moachest_upsert_trusted: (t: Mutable, tn: usize, i: Slice, n: usize, h: Mutable, hn: usize, b: Mutable, bn: usize,
        s: Mutable, sn: usize, size: usize, slots: usize, mapped: u64, map: u64, k: Slice, kn: usize, ghost: u64, v: Slice, vn: usize);
    moachest_remove, moachest_remove_trusted: (t: Mutable, tn: usize, i: Slice, n: usize, h: Mutable, hn: usize, b: Mutable, bn: usize,
        s: Mutable, sn: usize, size: usize, slots: usize, mapped: u64, map: u64, k: Slice, kn: usize, a: Mutable, an: usize);
    moachest_omap_put, moachest_omap_put_trusted: (t: Mutable, tn: usize, i: Slice, n: usize, h: Mutable, hn: usize, b: Mutable, bn: usize,
        s: Mutable, sn: usize, size: usize, slots: usize, mapped: u64, map: u64, id: u64, xid: u64, address: u64, length: u64);
    moachest_omap_drop, moachest_omap_drop_trusted: (t: Mutable, tn: usize, i: Slice, n: usize, h: Mutable, hn: usize, b: Mutable, bn: usize,
        s: Mutable, sn: usize, size: usize, slots: usize, mapped: u64, map: u64, id: u64);
    moachest_flush, moachest_flush_trusted: (t: Slice, tn: usize, i: Mutable, n: usize, m: Mutable, mn: usize, c: Slice, cn: usize,
        f: Mutable, fnn: usize, h: Mutable, hn: usize, b: Slice, bn: usize, freed: Mutable, dn: usize, removed: Mutable, rn: usize,
        ids: Mutable, idn: usize, places: Mutable, pn: usize, size: usize, slots: usize, mapped: u64, map: u64, xid: u64, next: u64,
        a: Mutable, an: usize);
}

extern "C" {
    fn moachest_open(t: Mutable, tn: usize, i: Slice, n: usize, h: Mutable, hn: usize, b: Mutable, bn: usize,
        size: usize, slots: usize, mapped: u64, map: u64, root: u64, order: u64, xid: u64) -> u64;
    fn moachest_workspace_words(slots: usize) -> u64;
    fn moachest_workspace_bytes(slots: usize, size: usize) -> u64;
    fn moachest_scratch_bytes(slots: usize, size: usize) -> u64;
}

/// Words of an open tree, and of an answer.
pub const TREE_WORDS: usize = 14;
pub const ANSWER_WORDS: usize = 8;

/// What every call is lent, and whether the call trusts the slots.
pub struct Lent<'a> {
    pub trusted: bool,
    pub tree: &'a mut [u64],
    pub image: &'a mut [u8],
    pub heads: &'a mut [u64],
    pub bytes: &'a mut [u8],
    pub scratch: &'a mut [u8],
    pub size: usize,
    pub slots: usize,
    pub mapped: u64,
    pub map: u64,
}

/// What flush is lent beside.
pub struct Chunks<'a> {
    pub bitmap: &'a mut [u8],
    pub counts: &'a [u32],
    pub free: &'a mut [u32],
    pub freed: &'a mut [u64],
    pub removed: &'a mut [u64],
    pub ids: &'a mut [u64],
    pub places: &'a mut [u64],
}

fn part<T>(s: &[T]) -> (Slice, usize) {
    (s.as_ptr().cast(), s.len())
}

fn room<T>(s: &mut [T]) -> (Mutable, usize) {
    (s.as_mut_ptr().cast(), s.len())
}

// Each call below is sound as long as the library keeps within the slices that it is lent.
impl Lent<'_> {
    pub fn open(&mut self, root: u64, order: u64, xid: u64) -> u64 {
        let ((t, tn), (i, n), (h, hn), (b, bn)) = (room(self.tree), part(self.image), room(self.heads), room(self.bytes));
        unsafe { moachest_open(t, tn, i, n, h, hn, b, bn, self.size, self.slots, self.mapped, self.map, root, order, xid) }
    }

    pub fn get(&mut self, key: &[u8], out: &mut [u8], answer: &mut [u64]) -> u64 {
        let call = if self.trusted { moachest_get_trusted } else { moachest_get };
        let ((t, tn), (i, n), (h, hn), (b, bn)) = (room(self.tree), part(self.image), room(self.heads), room(self.bytes));
        let ((k, kn), (o, on), (a, an)) = (part(key), room(out), room(answer));
        unsafe { call(t, tn, i, n, h, hn, b, bn, self.size, self.slots, self.mapped, self.map, k, kn, o, on, a, an) }
    }

    pub fn floor(&mut self, key: &[u8], out: &mut [u8], answer: &mut [u64]) -> u64 {
        let call = if self.trusted { moachest_floor_trusted } else { moachest_floor };
        let ((t, tn), (i, n), (h, hn), (b, bn)) = (room(self.tree), part(self.image), room(self.heads), room(self.bytes));
        let ((k, kn), (o, on), (a, an)) = (part(key), room(out), room(answer));
        unsafe { call(t, tn, i, n, h, hn, b, bn, self.size, self.slots, self.mapped, self.map, k, kn, o, on, a, an) }
    }

    pub fn range(&mut self, lo: &[u8], hi: &[u8], out: &mut [u8], answer: &mut [u64]) -> u64 {
        let call = if self.trusted { moachest_range_trusted } else { moachest_range };
        let ((t, tn), (i, n), (h, hn), (b, bn)) = (room(self.tree), part(self.image), room(self.heads), room(self.bytes));
        let ((l, ln), (u, un), (o, on), (a, an)) = (part(lo), part(hi), room(out), room(answer));
        unsafe { call(t, tn, i, n, h, hn, b, bn, self.size, self.slots, self.mapped, self.map, l, ln, u, un, o, on, a, an) }
    }

    pub fn upsert(&mut self, key: &[u8], ghost: u64, value: &[u8]) -> u64 {
        let call = if self.trusted { moachest_upsert_trusted } else { moachest_upsert };
        let ((t, tn), (i, n), (h, hn), (b, bn)) = (room(self.tree), part(self.image), room(self.heads), room(self.bytes));
        let ((s, sn), (k, kn), (v, vn)) = (room(self.scratch), part(key), part(value));
        unsafe { call(t, tn, i, n, h, hn, b, bn, s, sn, self.size, self.slots, self.mapped, self.map, k, kn, ghost, v, vn) }
    }

    pub fn remove(&mut self, key: &[u8], answer: &mut [u64]) -> u64 {
        let call = if self.trusted { moachest_remove_trusted } else { moachest_remove };
        let ((t, tn), (i, n), (h, hn), (b, bn)) = (room(self.tree), part(self.image), room(self.heads), room(self.bytes));
        let ((s, sn), (k, kn), (a, an)) = (room(self.scratch), part(key), room(answer));
        unsafe { call(t, tn, i, n, h, hn, b, bn, s, sn, self.size, self.slots, self.mapped, self.map, k, kn, a, an) }
    }

    pub fn put(&mut self, id: u64, xid: u64, address: u64, length: u64) -> u64 {
        let call = if self.trusted { moachest_omap_put_trusted } else { moachest_omap_put };
        let ((t, tn), (i, n), (h, hn), (b, bn)) = (room(self.tree), part(self.image), room(self.heads), room(self.bytes));
        let (s, sn) = room(self.scratch);
        unsafe { call(t, tn, i, n, h, hn, b, bn, s, sn, self.size, self.slots, self.mapped, self.map, id, xid, address, length) }
    }

    pub fn drop(&mut self, id: u64) -> u64 {
        let call = if self.trusted { moachest_omap_drop_trusted } else { moachest_omap_drop };
        let ((t, tn), (i, n), (h, hn), (b, bn)) = (room(self.tree), part(self.image), room(self.heads), room(self.bytes));
        let (s, sn) = room(self.scratch);
        unsafe { call(t, tn, i, n, h, hn, b, bn, s, sn, self.size, self.slots, self.mapped, self.map, id) }
    }

    pub fn flush(&mut self, chunks: &mut Chunks, xid: u64, next: u64, answer: &mut [u64]) -> u64 {
        let call = if self.trusted { moachest_flush_trusted } else { moachest_flush };
        let ((t, tn), (i, n), (h, hn), (b, bn)) = (part(self.tree), room(self.image), room(self.heads), part(self.bytes));
        let ((m, mn), (c, cn), (f, fnn)) = (room(chunks.bitmap), part(chunks.counts), room(chunks.free));
        let ((d, dn), (r, rn)) = (room(chunks.freed), room(chunks.removed));
        let ((p, pn), (q, qn), (a, an)) = (room(chunks.ids), room(chunks.places), room(answer));
        let (mapped, map) = (self.mapped, self.map);
        let (size, slots) = (self.size, self.slots);
        unsafe {
            call(t, tn, i, n, m, mn, c, cn, f, fnn, h, hn, b, bn, d, dn, r, rn, p, pn, q, qn, size, slots, mapped, map, xid, next, a, an)
        }
    }
}

/// Words, bytes and scratch of a workspace, as the library says.
pub fn lengths(slots: usize, size: usize) -> (u64, u64, u64) {
    unsafe { (moachest_workspace_words(slots), moachest_workspace_bytes(slots, size), moachest_scratch_bytes(slots, size)) }
}
