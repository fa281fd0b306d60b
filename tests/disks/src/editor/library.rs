//! The library `moachest`, called through its C interface.

use super::{Answer, Editor, Flushed, Order, Place};
use crate::disk::Disk;

const TREE_WORDS: usize = 14;
const ANSWER_WORDS: usize = 8;

/// Declares calls with their trusted twins, which have the same arguments.
macro_rules! calls {
    ($($name:ident $twin:ident ( $($argument:ident : $kind:ty),* ) ;)*) => {
        extern "C" { $( fn $name( $($argument: $kind),* ) -> u64; fn $twin( $($argument: $kind),* ) -> u64; )* }
    };
}

calls! {
    moachest_get moachest_get_trusted(tree: *mut u64, words: usize, image: *const u8, length: usize, heads: *mut u64, heads_length: usize,
        bytes: *mut u8, bytes_length: usize, size: usize, slots: usize, mapped: u64, map: u64, key: *const u8, key_length: usize,
        out: *mut u8, out_length: usize, answer: *mut u64, answer_words: usize);
    moachest_upsert moachest_upsert_trusted(tree: *mut u64, words: usize, image: *const u8, length: usize, heads: *mut u64,
        heads_length: usize, bytes: *mut u8, bytes_length: usize, scratch: *mut u8, scratch_length: usize, size: usize, slots: usize,
        mapped: u64, map: u64, key: *const u8, key_length: usize, is_ghost: u64, value: *const u8, value_length: usize);
    moachest_remove moachest_remove_trusted(tree: *mut u64, words: usize, image: *const u8, length: usize, heads: *mut u64,
        heads_length: usize, bytes: *mut u8, bytes_length: usize, scratch: *mut u8, scratch_length: usize, size: usize, slots: usize,
        mapped: u64, map: u64, key: *const u8, key_length: usize, answer: *mut u64, answer_words: usize);
    moachest_omap_put moachest_omap_put_trusted(tree: *mut u64, words: usize, image: *const u8, length: usize, heads: *mut u64,
        heads_length: usize, bytes: *mut u8, bytes_length: usize, scratch: *mut u8, scratch_length: usize, size: usize, slots: usize,
        mapped: u64, map: u64, id: u64, xid: u64, address: u64, bytes_mapped: u64);
    moachest_omap_drop moachest_omap_drop_trusted(tree: *mut u64, words: usize, image: *const u8, length: usize, heads: *mut u64,
        heads_length: usize, bytes: *mut u8, bytes_length: usize, scratch: *mut u8, scratch_length: usize, size: usize, slots: usize,
        mapped: u64, map: u64, id: u64);
    moachest_flush moachest_flush_trusted(tree: *const u64, words: usize, image: *mut u8, length: usize, bitmap: *mut u8,
        bitmap_length: usize, counts: *const u32, counts_length: usize, free: *mut u32, free_length: usize, heads: *mut u64,
        heads_length: usize, bytes: *const u8, bytes_length: usize, freed: *mut u64, freed_length: usize, removed: *mut u64,
        removed_length: usize, ids: *mut u64, ids_length: usize, places: *mut u64, places_length: usize, size: usize, slots: usize,
        mapped: u64, map: u64, xid: u64, next: u64, answer: *mut u64, answer_words: usize);
}

extern "C" {
    fn moachest_open(tree: *mut u64, words: usize, image: *const u8, length: usize, heads: *mut u64, heads_length: usize, bytes: *mut u8,
        bytes_length: usize, size: usize, slots: usize, mapped: u64, map: u64, root: u64, order: u64, xid: u64) -> u64;
    fn moachest_workspace_words(slots: usize) -> u64;
    fn moachest_workspace_bytes(slots: usize, size: usize) -> u64;
    fn moachest_scratch_bytes(slots: usize, size: usize) -> u64;
}

/// A call or its trusted twin.
macro_rules! either {
    ($s:expr, $name:ident, $twin:ident) => {
        if $s.trusted { $twin } else { $name }
    };
}

/// `trusted`: it calls the twins that do not look whether the slots hold together.
pub struct Library {
    trusted: bool,
    slots: usize,
    tree: [u64; TREE_WORDS],
    mapped: u64,
    map: u64,
    heads: Vec<u64>,
    bytes: Vec<u8>,
    scratch: Vec<u8>,
    answer: [u64; ANSWER_WORDS],
}

fn accepted(refusal: u64) -> Answer<()> {
    if refusal == 0 { Ok(()) } else { Err(format!("refusal {refusal}")) }
}

impl Library {
    /// With so many slots, for blocks of `size` bytes.
    pub fn new(slots: usize, size: usize, trusted: bool) -> Self {
        let (words, bytes, scratch) =
            unsafe { (moachest_workspace_words(slots), moachest_workspace_bytes(slots, size), moachest_scratch_bytes(slots, size)) };
        assert!(words > 0 && bytes > 0 && scratch > 0, "the library takes no {slots} slots of {size} bytes");
        Self {
            trusted,
            slots,
            tree: [0; TREE_WORDS],
            mapped: 0,
            map: 0,
            heads: vec![0; words as usize],
            bytes: vec![0; bytes as usize],
            scratch: vec![0; scratch as usize],
            answer: [0; ANSWER_WORDS],
        }
    }
}

/// Calls a function with the slices that every edit and lookup is lent, then its own arguments.
macro_rules! call {
    ($name:expr, $s:expr, $disk:expr $(, scratch $scratch:expr)?; $($argument:expr),*) => {
        accepted(unsafe {
            ($name)($s.tree.as_mut_ptr(), $s.tree.len(), $disk.image.as_ptr(), $disk.image.len(), $s.heads.as_mut_ptr(), $s.heads.len(),
                $s.bytes.as_mut_ptr(), $s.bytes.len(), $($scratch.as_mut_ptr(), $scratch.len(),)? $disk.size, $s.slots, $s.mapped, $s.map,
                $($argument),*)
        })
    };
}

impl Editor for Library {
    fn name(&self) -> &'static str {
        if self.trusted { "the library, trusted" } else { "the library" }
    }

    fn takes_own_order(&self) -> bool {
        false
    }

    fn checks_nodes(&self) -> bool {
        true
    }

    fn open(&mut self, disk: &mut Disk, place: Place) -> Answer<()> {
        self.mapped = place.map.is_some() as u64;
        self.map = place.map.unwrap_or(0);
        let order = match place.order {
            Order::Pair => 0,
            Order::Byte => 1,
            Order::Own(_) => return Err("the library has no such order".into()),
        };
        call!(moachest_open, self, disk; place.root, order, place.xid)
    }

    fn get(&mut self, disk: &mut Disk, key: &[u8]) -> Answer<Option<Option<Vec<u8>>>> {
        let mut out = vec![0; disk.size];
        let answer = &mut self.answer;
        let call = either!(self, moachest_get, moachest_get_trusted);
        call!(call, self, disk; key.as_ptr(), key.len(), out.as_mut_ptr(), out.len(), answer.as_mut_ptr(), answer.len())?;
        Ok(match self.answer[0] {
            0 => None,
            1 => Some(None),
            _ => Some(Some(out[..self.answer[1] as usize].to_vec())),
        })
    }

    fn upsert(&mut self, disk: &mut Disk, key: &[u8], value: Option<&[u8]>) -> Answer<()> {
        let (is_ghost, value) = (value.is_none() as u64, value.unwrap_or(&[]));
        let call = either!(self, moachest_upsert, moachest_upsert_trusted);
        call!(call, self, disk, scratch self.scratch; key.as_ptr(), key.len(), is_ghost, value.as_ptr(), value.len())
    }

    fn remove(&mut self, disk: &mut Disk, key: &[u8]) -> Answer<bool> {
        let answer = &mut self.answer;
        let call = either!(self, moachest_remove, moachest_remove_trusted);
        call!(call, self, disk, scratch self.scratch; key.as_ptr(), key.len(), answer.as_mut_ptr(), answer.len())?;
        Ok(self.answer[0] == 1)
    }

    fn omap_put(&mut self, disk: &mut Disk, id: u64, xid: u64, address: u64) -> Answer<()> {
        let call = either!(self, moachest_omap_put, moachest_omap_put_trusted);
        call!(call, self, disk, scratch self.scratch; id, xid, address, disk.size as u64)
    }

    fn omap_drop(&mut self, disk: &mut Disk, id: u64) -> Answer<()> {
        let call = either!(self, moachest_omap_drop, moachest_omap_drop_trusted);
        call!(call, self, disk, scratch self.scratch; id)
    }

    fn flush(&mut self, disk: &mut Disk, xid: u64, next: u64) -> Answer<Flushed> {
        let mut lists = [vec![0u64; self.slots], vec![0; self.slots], vec![0; self.slots], vec![0; self.slots]];
        let [freed, removed, ids, places] = &mut lists;
        let call = either!(self, moachest_flush, moachest_flush_trusted);
        accepted(unsafe {
            call(self.tree.as_ptr(), self.tree.len(), disk.image.as_mut_ptr(), disk.image.len(), disk.bitmap.as_mut_ptr(),
                disk.bitmap.len(), disk.counts.as_ptr(), disk.counts.len(), disk.free.as_mut_ptr(), disk.free.len(), self.heads.as_mut_ptr(),
                self.heads.len(), self.bytes.as_ptr(), self.bytes.len(), freed.as_mut_ptr(), freed.len(), removed.as_mut_ptr(), removed.len(),
                ids.as_mut_ptr(), ids.len(), places.as_mut_ptr(), places.len(), disk.size, self.slots, self.mapped, self.map, xid, next,
                self.answer.as_mut_ptr(), self.answer.len())
        })?;
        let [root, allocated, n_freed, n_removed, n_moved, keys, fill, next] = self.answer;
        freed.truncate(n_freed as usize);
        removed.truncate(n_removed as usize);
        let moved = ids.iter().copied().zip(places.iter().copied()).take(n_moved as usize).collect();
        Ok(Flushed { root, allocated, freed: freed.clone(), removed: removed.clone(), moved, keys, fill, next })
    }
}
