//! The library's calls, each made once. All of the crate's `unsafe` is here, but for what it takes to own memory that is not
//! filled (`room.rs`).
//!
//! *Lent memory* is the same in all of them: each pointer and its length are those of one slice, vector, array or room; those that are written come
//! from a `&mut`, so that they overlap no other and nobody else has them during the call. *Trusted slots*: `trusts` is true only where
//! [`Tree::call`] or [`Tree::flush`] found that the call may be trusted; `call` says why that is sound.

use super::Tree;
use crate::raw;
use crate::space::Space;

/// The words of an answer.
pub(super) type Answer = [u64; raw::ANSWER_WORDS];

/// Calls a lookup: tree, image, slots, numbers, then its own arguments.
macro_rules! look_up {
    ($f:expr, $tree:expr, $image:expr, $($own:expr),*) => {{
        let (mapped, map) = $tree.lent.mapped();
        let size = $tree.lent.size;
        let (words, work) = (&mut $tree.words, &mut $tree.work);
        let (heads, bytes) = (&mut work.heads, &mut work.bytes);
        $f(
            words.as_mut_ptr(), words.len(), $image.as_ptr(), $image.len(), heads.as_mut_ptr(), heads.len(), bytes.as_mut_ptr(), bytes.len(),
            size, work.slots, mapped, map, $($own),*
        )
    }};
}

/// Calls an edit: the same, with the scratch after the slots.
macro_rules! edit {
    ($f:expr, $tree:expr, $image:expr, $($own:expr),*) => {{
        let (mapped, map) = $tree.lent.mapped();
        let size = $tree.lent.size;
        let (words, work) = (&mut $tree.words, &mut $tree.work);
        let (heads, bytes, scratch) = (&mut work.heads, &mut work.bytes, &mut work.scratch);
        $f(
            words.as_mut_ptr(), words.len(), $image.as_ptr(), $image.len(), heads.as_mut_ptr(), heads.len(), bytes.as_mut_ptr(), bytes.len(),
            scratch.as_mut_ptr(), scratch.len(), size, work.slots, mapped, map, $($own),*
        )
    }};
}

impl Tree {
    pub(super) fn open_once(&mut self, image: &[u8], root: u64, order: u64) -> u64 {
        let xid = self.lent.xid;
        // SAFETY: lent memory, as above. Open trusts nothing of its contents.
        unsafe { look_up!(raw::moachest_open, self, image, root, order, xid) }
    }

    /// Without `out` the answer goes to the tree's own output.
    pub(super) fn get_once(&mut self, image: &[u8], trusts: bool, key: &[u8], out: Option<&mut [u8]>, answer: &mut Answer) -> u64 {
        let f = if trusts { raw::moachest_get_trusted } else { raw::moachest_get };
        let out = out.unwrap_or(&mut self.out);
        // SAFETY: lent memory and, where it is the trusted call, trusted slots, as above.
        unsafe { look_up!(f, self, image, key.as_ptr(), key.len(), out.as_mut_ptr(), out.len(), answer.as_mut_ptr(), answer.len()) }
    }

    pub(super) fn floor_once(&mut self, image: &[u8], trusts: bool, key: &[u8], answer: &mut Answer) -> u64 {
        let f = if trusts { raw::moachest_floor_trusted } else { raw::moachest_floor };
        let out = &mut self.out;
        // SAFETY: lent memory and, where it is the trusted call, trusted slots, as above.
        unsafe { look_up!(f, self, image, key.as_ptr(), key.len(), out.as_mut_ptr(), out.len(), answer.as_mut_ptr(), answer.len()) }
    }

    pub(super) fn range_once(&mut self, image: &[u8], trusts: bool, ends: [&[u8]; 2], answer: &mut Answer) -> u64 {
        let f = if trusts { raw::moachest_range_trusted } else { raw::moachest_range };
        let [lo, hi] = ends;
        let (lo, lo_length, hi, hi_length) = (lo.as_ptr(), lo.len(), hi.as_ptr(), hi.len());
        let out = &mut self.out;
        // SAFETY: lent memory and, where it is the trusted call, trusted slots, as above.
        unsafe { look_up!(f, self, image, lo, lo_length, hi, hi_length, out.as_mut_ptr(), out.len(), answer.as_mut_ptr(), answer.len()) }
    }

    pub(super) fn upsert_once(&mut self, image: &[u8], trusts: bool, key: &[u8], val: Option<&[u8]>) -> u64 {
        let f = if trusts { raw::moachest_upsert_trusted } else { raw::moachest_upsert };
        let (is_ghost, value) = (u64::from(val.is_none()), val.unwrap_or(&[]));
        // SAFETY: lent memory and, where it is the trusted call, trusted slots, as above.
        unsafe { edit!(f, self, image, key.as_ptr(), key.len(), is_ghost, value.as_ptr(), value.len()) }
    }

    pub(super) fn remove_once(&mut self, image: &[u8], trusts: bool, key: &[u8], answer: &mut Answer) -> u64 {
        let f = if trusts { raw::moachest_remove_trusted } else { raw::moachest_remove };
        // SAFETY: lent memory and, where it is the trusted call, trusted slots, as above.
        unsafe { edit!(f, self, image, key.as_ptr(), key.len(), answer.as_mut_ptr(), answer.len()) }
    }

    pub(super) fn omap_put_once(&mut self, image: &[u8], trusts: bool, version: [u64; 2], paddr: u64, size: u32) -> u64 {
        let f = if trusts { raw::moachest_omap_put_trusted } else { raw::moachest_omap_put };
        let [oid, xid] = version;
        // SAFETY: lent memory and, where it is the trusted call, trusted slots, as above.
        unsafe { edit!(f, self, image, oid, xid, paddr, u64::from(size)) }
    }

    pub(super) fn omap_drop_once(&mut self, image: &[u8], trusts: bool, oid: u64) -> u64 {
        let f = if trusts { raw::moachest_omap_drop_trusted } else { raw::moachest_omap_drop };
        // SAFETY: lent memory and, where it is the trusted call, trusted slots, as above.
        unsafe { edit!(f, self, image, oid) }
    }

    /// `numbers` are the transaction and the next id.
    #[rustfmt::skip]
    pub(super) fn flush_once(
        &mut self, image: &mut [u8], trusts: bool, space: &mut Space, lists: &mut [Vec<u64>; 4], numbers: [u64; 2], answer: &mut Answer,
    ) -> u64 {
        let f = if trusts { raw::moachest_flush_trusted } else { raw::moachest_flush };
        let (mapped, map) = self.lent.mapped();
        let (words, heads, bytes) = (&self.words, &mut self.work.heads, &self.work.bytes);
        let Space { bitmap, counts, free } = space;
        let [freed, removed, ids, places] = lists;
        let [xid, next] = numbers;
        // SAFETY: lent memory and, where it is the trusted call, trusted slots, as above. Flush looks at bitmap, counts and lists itself.
        unsafe {
            f(
                words.as_ptr(), words.len(), image.as_mut_ptr(), image.len(), bitmap.as_mut_ptr(), bitmap.len(), counts.as_ptr(), counts.len(),
                free.as_mut_ptr(), free.len(), heads.as_mut_ptr(), heads.len(), bytes.as_ptr(), bytes.len(), freed.as_mut_ptr(), freed.len(),
                removed.as_mut_ptr(), removed.len(), ids.as_mut_ptr(), ids.len(), places.as_mut_ptr(), places.len(), self.lent.size,
                self.work.slots, mapped, map, xid, next, answer.as_mut_ptr(), answer.len(),
            )
        }
    }
}
