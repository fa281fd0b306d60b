//! An open tree with the slots that it was opened in.

use crate::disk::Disk;
use crate::library::{lengths, Lent, TREE_WORDS};
use crate::walk::Place;

pub struct Workspace {
    pub slots: usize,
    pub size: usize,
    pub tree: [u64; TREE_WORDS],
    pub heads: Vec<u64>,
    pub bytes: Vec<u8>,
    pub scratch: Vec<u8>,
    pub place: Option<Place>,
}

impl Workspace {
    pub fn new(slots: usize, size: usize) -> Self {
        let (words, bytes, scratch) = lengths(slots, size);
        let (heads, bytes, scratch) = (vec![0; words as usize], vec![0; bytes as usize], vec![0; scratch as usize]);
        Self { slots, size, tree: [0; TREE_WORDS], heads, bytes, scratch, place: None }
    }

    pub fn lent<'a>(&'a mut self, disk: &'a mut Disk, map: Option<u64>, trusted: bool) -> Lent<'a> {
        Lent {
            trusted,
            tree: &mut self.tree,
            image: &mut disk.image,
            heads: &mut self.heads,
            bytes: &mut self.bytes,
            scratch: &mut self.scratch,
            size: self.size,
            slots: self.slots,
            mapped: map.is_some() as u64,
            map: map.unwrap_or(0),
        }
    }

    pub fn keys(&self) -> u64 {
        self.tree[8]
    }

    pub fn nodes(&self) -> u64 {
        self.tree[9]
    }
}
