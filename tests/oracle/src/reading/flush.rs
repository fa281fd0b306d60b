//! Flush (document 01, Flush, from the entry down).

use apfs::nx::Container;

use super::node::{Item, Node};
use super::tree::{check, Answer, Tree};

#[derive(Default)]
pub struct Flushed {
    pub freed: Vec<u64>,
    pub removed: Vec<u64>,
    pub moved: Vec<(u64, u64)>,
    pub wrote: Vec<(u64, Vec<u8>)>,
    pub next: u64,
}

/// A 0 bit below the block count.
fn is_free(bits: &[u8], i: usize) -> bool {
    bits[i / 8] >> (i % 8) & 1 == 0
}

fn usable(disk: &Container) -> u64 {
    let zeros = |k: &apfs::nx::Chunk| (0..k.blocks as usize).filter(|&i| is_free(&k.bits, i)).count() as u64;
    disk.chunks.iter().map(|k| zeros(k).min(k.free as u64)).sum()
}

/// First chunk with a free count and a 0 bit; its lowest such bit.
fn choose(disk: &mut Container) -> u64 {
    let per_chunk = 8 * disk.size as u64;
    for (c, k) in disk.chunks.iter_mut().enumerate().filter(|(_, k)| k.free > 0) {
        if let Some(i) = (0..k.blocks as usize).find(|&i| is_free(&k.bits, i)) {
            k.bits[i / 8] |= 1 << (i % 8);
            k.free -= 1;
            return c as u64 * per_chunk + i as u64;
        }
    }
    unreachable!("usable blocks were counted")
}

/// 1: a chunk past the image, or its block count too large.
fn check_chunks(disk: &Container) -> Answer<()> {
    let per_chunk = 8 * disk.size as u64;
    let within = |(c, k): (usize, &apfs::nx::Chunk)| {
        k.blocks as u64 <= per_chunk && c as u64 * per_chunk + k.blocks as u64 <= disk.blocks()
    };
    check(disk.chunks.iter().enumerate().all(within), 1)
}

impl Tree {
    pub fn root_fill(&self) -> usize {
        let root = &self.nodes[self.root];
        self.form.used(true, root.level, &root.lengths()) * 100 / self.form.space(true)
    }

    /// Slots of the dirty nodes reached from a slot.
    fn dirty_below(&self, slot: usize) -> Vec<usize> {
        let children = self.nodes[slot].items.iter().filter_map(|i| if let Item::Slot(s) = i { Some(*s) } else { None });
        let mut out: Vec<usize> = children.flat_map(|s| self.dirty_below(s)).collect();
        out.extend(self.nodes[slot].dirty.then_some(slot));
        out
    }

    /// What a parent stores of a node.
    pub fn reference(&self, slot: usize) -> u64 {
        let n = &self.nodes[slot];
        if self.is_virtual() { n.id } else { n.block }.expect("a node written or loaded has both")
    }

    pub fn flush(&mut self, disk: &mut Container, xid: u64, next: u64) -> Answer<Flushed> {
        check_chunks(disk)?;
        let dirty = self.dirty_below(self.root);
        check(usable(disk) >= dirty.len() as u64, 16)?;
        let without_id = dirty.iter().filter(|&&s| self.is_virtual() && self.nodes[s].id.is_none()).count();
        check(next.checked_add(without_id as u64).is_some(), 17)?;
        let mut done = Flushed { next, ..Flushed::default() };
        for n in self.nodes.iter().filter(|n| n.dead) {
            done.freed.extend(n.block);
            done.removed.extend(n.id);
        }
        self.write(disk, self.root, xid, &mut done);
        Ok(done)
    }

    /// Children before parent and left to right.
    fn write(&mut self, disk: &mut Container, slot: usize, xid: u64, done: &mut Flushed) {
        for i in 0..self.nodes[slot].items.len() {
            if let Item::Slot(child) = self.nodes[slot].items[i] {
                self.write(disk, child, xid, done);
                self.nodes[slot].items[i] = Item::Disk(self.reference(child));
            }
        }
        if !self.nodes[slot].dirty {
            return;
        }
        let addr = choose(disk);
        done.freed.extend(self.nodes[slot].block.replace(addr));
        if self.is_virtual() {
            if self.nodes[slot].id.is_none() {
                self.nodes[slot].id = Some(done.next);
                done.next += 1;
            }
            done.moved.push((self.reference(slot), addr));
        }
        let block = self.pack(&self.nodes[slot], slot == self.root, xid, self.reference(slot));
        disk.store(addr, &block);
        done.wrote.push((addr, block));
    }

    /// One block, sealed.
    fn pack(&self, n: &Node, root: bool, xid: u64, id: u64) -> Vec<u8> {
        let (form, lengths) = (&self.form, n.lengths());
        let contents = form.slots(root, n.level, lengths.len()) * form.slot_size();
        let keys: usize = lengths.iter().map(|l| form.padded(l.0)).sum();
        let free = form.space(root) - form.used(root, n.level, &lengths);
        let kind = if root { 2u32 } else { 3 } | if self.is_virtual() { 0 } else { 0x4000_0000 };
        let flags = root as u16 | if n.level == 0 { 2 } else { 0 } | if form.fixed.is_some() { 4 } else { 0 };
        let mut b = vec![0; form.size];
        put(&mut b, 8, &[id.to_le_bytes(), xid.to_le_bytes()].concat());
        put(&mut b, 24, &[kind.to_le_bytes(), self.subtype.to_le_bytes()].concat());
        put16(&mut b, 32, &[flags, n.level]);
        put(&mut b, 36, &(lengths.len() as u32).to_le_bytes());
        put16(&mut b, 40, &[0, contents as u16, keys as u16, free as u16, 0xffff, 0, 0xffff, 0]);
        self.pack_entries(&mut b, n, 56 + contents, 56 + form.space(root));
        if root {
            self.pack_info(&mut b);
        }
        apfs::seal_block(&mut b);
        b
    }

    fn pack_entries(&self, b: &mut [u8], n: &Node, key_area: usize, end: usize) {
        let (mut key_at, mut back) = (0, 0);
        for (i, (key, item)) in n.keys.iter().zip(&n.items).enumerate() {
            let value = match item {
                Item::Value(v) => v.clone(),
                Item::Disk(r) => Some(r.to_le_bytes().to_vec()),
                Item::Slot(_) => unreachable!("children are written first"),
            };
            put(b, key_area + key_at, key);
            let length = value.as_ref().map_or(0, Vec::len);
            let offset = value.map_or(0xffff, |v| {
                back += self.form.padded(v.len());
                put(b, end - back, &v);
                back as u16
            });
            let at = 56 + i * self.form.slot_size();
            if self.form.fixed.is_some() {
                put16(b, at, &[key_at as u16, offset]);
            } else {
                put16(b, at, &[key_at as u16, key.len() as u16, offset, length as u16]);
            }
            key_at += self.form.padded(key.len());
        }
    }

    fn pack_info(&self, b: &mut [u8]) {
        let (key, value) = self.stored_lengths;
        let at = self.form.size - 40;
        let words = [self.form.flags, self.form.size as u32, key, value, self.longest.0, self.longest.1];
        words.iter().enumerate().for_each(|(i, w)| put(b, at + 4 * i, &w.to_le_bytes()));
        put(b, at + 24, &[self.key_count.to_le_bytes(), self.node_count.to_le_bytes()].concat());
    }
}

fn put(b: &mut [u8], at: usize, bytes: &[u8]) {
    b[at..at + bytes.len()].copy_from_slice(bytes);
}

fn put16(b: &mut [u8], at: usize, words: &[u16]) {
    words.iter().enumerate().for_each(|(i, w)| put(b, at + 2 * i, &w.to_le_bytes()));
}
