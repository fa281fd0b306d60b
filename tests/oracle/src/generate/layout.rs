//! Nodes as another writer might lay them out: gaps between keys and values, values in any order, free
//! lists, contents that are short or begin late, no padding, bytes left over from before.

use crate::random::Random;
use crate::words::{Key, Value};

use super::plan::Plan;

pub struct NodeText<'a> {
    pub id: u64,
    pub xid: u64,
    pub level: u16,
    pub root: bool,
    pub is_virtual: bool,
    pub entries: &'a [(Key, Value)],
    /// Key count, node count, longest key, longest value.
    pub counts: (u64, u64, u32, u32),
}

fn put(b: &mut [u8], at: usize, bytes: &[u8]) {
    b[at..at + bytes.len()].copy_from_slice(bytes);
}

pub fn entry_size(p: &Plan, e: &(Key, Value)) -> usize {
    e.0.len() + e.1.as_ref().map_or(0, Vec::len) + if p.fixed.is_some() { 4 } else { 8 }
}

pub fn space(p: &Plan, root: bool) -> usize {
    p.size - 56 - if root { 40 } else { 0 }
}

/// Bytes that are spread over the gaps of one node.
struct Spare(usize);

impl Spare {
    fn take(&mut self, r: &mut Random, most: usize) -> usize {
        let n = if r.chance(50) { 0 } else { r.length(most.min(self.0)) };
        self.0 -= n;
        n
    }
}

/// Offsets for the lengths given, laid one after another in a shuffled order with gaps between.
fn spread(r: &mut Random, spare: &mut Spare, lengths: &[usize]) -> (Vec<usize>, usize) {
    let mut turn: Vec<usize> = (0..lengths.len()).collect();
    if r.chance(50) {
        r.shuffle(&mut turn);
    }
    let mut at = 0;
    let mut offsets = vec![0; lengths.len()];
    for i in turn {
        at += spare.take(r, 12);
        offsets[i] = at;
        at += lengths[i];
    }
    (offsets, at)
}

/// One block, not sealed.
pub fn node(r: &mut Random, p: &Plan, n: &NodeText) -> Vec<u8> {
    let per_slot = if p.fixed.is_some() { 4 } else { 8 };
    let used: usize = n.entries.iter().map(|e| entry_size(p, e)).sum();
    let mut spare = Spare(space(p, n.root) - used);
    let mut b = if r.chance(30) { r.bytes(p.size) } else { vec![0; p.size] };
    let late = spare.take(r, 16);
    let contents = n.entries.len() * per_slot + spare.take(r, 64);
    let key_lengths: Vec<usize> = n.entries.iter().map(|e| e.0.len()).collect();
    let value_lengths: Vec<usize> = n.entries.iter().map(|e| e.1.as_ref().map_or(0, Vec::len)).collect();
    let (key_at, keys_end) = spread(r, &mut spare, &key_lengths);
    let (value_at, _) = spread(r, &mut spare, &value_lengths);
    header(r, &mut b, n, p, (late, contents));
    let free = [keys_end, spare.0];
    free_fields(r, &mut b, free);
    let key_area = 56 + late + contents;
    let end = p.size - if n.root { 40 } else { 0 };
    for (i, (k, v)) in n.entries.iter().enumerate() {
        let at = 56 + late + i * per_slot;
        put(&mut b, key_area + key_at[i], k);
        let back = value_at[i] + value_lengths[i];
        if let Some(v) = v {
            put(&mut b, end - back, v);
        }
        let back = if v.is_some() { back as u16 } else { 0xffff };
        put(&mut b, at, &(key_at[i] as u16).to_le_bytes());
        if p.fixed.is_some() {
            put(&mut b, at + 2, &back.to_le_bytes());
        } else {
            put(&mut b, at + 2, &(k.len() as u16).to_le_bytes());
            put(&mut b, at + 4, &back.to_le_bytes());
            put(&mut b, at + 6, &(value_lengths[i] as u16).to_le_bytes());
        }
    }
    if n.root {
        info(&mut b, p, n);
    }
    b
}

fn header(r: &mut Random, b: &mut [u8], n: &NodeText, p: &Plan, contents: (usize, usize)) {
    // Other flags of type and node, and types 2 and 3 where the other stands usually, mean nothing here.
    let odd = r.chance(10);
    let kind = if n.root != odd { 2u32 } else { 3 };
    let storage = if n.is_virtual { 0 } else { 0x4000_0000 } | if odd { 0x0800_0000 } else { 0 };
    let fixed = if p.fixed.is_some() { 4 } else { 0 };
    let flags = n.root as u16 | if n.level == 0 { 2 } else { 0 } | fixed | if odd { 0x8010 } else { 0 };
    b[..8].fill(0);
    put(b, 8, &n.id.to_le_bytes());
    put(b, 16, &n.xid.to_le_bytes());
    put(b, 24, &(kind | storage).to_le_bytes());
    put(b, 28, &p.subtype.to_le_bytes());
    put(b, 32, &flags.to_le_bytes());
    put(b, 34, &n.level.to_le_bytes());
    put(b, 36, &(n.entries.len() as u32).to_le_bytes());
    put(b, 40, &(contents.0 as u16).to_le_bytes());
    put(b, 42, &(contents.1 as u16).to_le_bytes());
}

/// Free space and the two free lists, which no reader of nodes looks at.
fn free_fields(r: &mut Random, b: &mut [u8], free: [usize; 2]) {
    put(b, 44, &(free[0] as u16).to_le_bytes());
    put(b, 46, &(free[1] as u16).to_le_bytes());
    for at in [48, 52] {
        let (offset, length) = if r.chance(50) { (0xffff, 0) } else { (r.length(64) as u16, r.length(40) as u16) };
        put(b, at, &offset.to_le_bytes());
        put(b, at + 2, &length.to_le_bytes());
    }
}

fn info(b: &mut [u8], p: &Plan, n: &NodeText) {
    let at = p.size - 40;
    let (key, value) = p.fixed.unwrap_or((0, 0));
    put(b, at, &p.flags.to_le_bytes());
    put(b, at + 4, &(p.size as u32).to_le_bytes());
    put(b, at + 8, &(key as u32).to_le_bytes());
    put(b, at + 12, &(value as u32).to_le_bytes());
    put(b, at + 16, &n.counts.2.to_le_bytes());
    put(b, at + 20, &n.counts.3.to_le_bytes());
    put(b, at + 24, &n.counts.0.to_le_bytes());
    put(b, at + 32, &n.counts.1.to_le_bytes());
}
