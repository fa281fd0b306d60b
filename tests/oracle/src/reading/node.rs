//! A node in a slot, and when entries fit in one block (document 01, Packing).

use crate::words::{Key, Value};

/// What an entry holds beside its key.
#[derive(Clone)]
pub enum Item {
    Value(Value),
    /// A child by address or id.
    Disk(u64),
    Slot(usize),
}

#[derive(Clone)]
pub struct Node {
    pub level: u16,
    pub keys: Vec<Key>,
    pub items: Vec<Item>,
    pub id: Option<u64>,
    pub block: Option<u64>,
    pub dirty: bool,
    pub dead: bool,
}

/// Lengths of a key and its value; none for a ghost.
pub type Lengths = (usize, Option<usize>);

impl Node {
    pub fn lengths(&self) -> Vec<Lengths> {
        let value = |i: &Item| match i {
            Item::Value(v) => v.as_ref().map(Vec::len),
            _ => Some(8),
        };
        self.keys.iter().zip(&self.items).map(|(k, i)| (k.len(), value(i))).collect()
    }
}

/// What packing depends on besides the entries.
#[derive(Clone, Copy)]
pub struct Form {
    pub size: usize,
    pub flags: u32,
    pub fixed: Option<(usize, usize)>,
}

impl Form {
    pub fn space(&self, root: bool) -> usize {
        self.size - 56 - if root { 40 } else { 0 }
    }

    pub fn padded(&self, length: usize) -> usize {
        if self.flags & 0x40 != 0 { length } else { length.div_ceil(8) * 8 }
    }

    pub fn slots(&self, root: bool, level: u16, entries: usize) -> usize {
        match self.fixed {
            Some((k, v)) => (self.space(root) / (4 + k + if level == 0 { v } else { 8 })).div_ceil(8) * 8,
            None => (entries.div_ceil(8) * 8).max(16),
        }
    }

    pub fn slot_size(&self) -> usize {
        if self.fixed.is_some() { 4 } else { 8 }
    }

    /// Bytes that contents, keys and values take.
    pub fn used(&self, root: bool, level: u16, entries: &[Lengths]) -> usize {
        let entry = |e: &Lengths| self.padded(e.0) + e.1.map_or(0, |v| self.padded(v));
        self.slots(root, level, entries.len()) * self.slot_size() + entries.iter().map(entry).sum::<usize>()
    }

    pub fn fits(&self, root: bool, level: u16, entries: &[Lengths]) -> bool {
        entries.len() <= self.slots(root, level, entries.len()) && self.used(root, level, entries) <= self.space(root)
    }

    /// How many entries stay left of the cut; none where no cut leaves two parts that fit.
    pub fn cut(&self, level: u16, entries: &[Lengths]) -> Option<usize> {
        let size = |e: &Lengths| e.0 + e.1.unwrap_or(0) + 8;
        let fits = |part: &[Lengths]| self.fits(false, level, part);
        let half = entries.iter().map(size).sum::<usize>() / 2;
        let mut sum = 0;
        let left = entries.iter().take_while(|e| { sum += size(e); sum <= half }).count();
        let mut cut = left.clamp(1, entries.len() - 1);
        while cut > 1 && !fits(&entries[..cut]) {
            cut -= 1;
        }
        while cut < entries.len() - 1 && !fits(&entries[cut..]) && fits(&entries[..cut + 1]) {
            cut += 1;
        }
        (fits(&entries[..cut]) && fits(&entries[cut..])).then_some(cut)
    }
}
