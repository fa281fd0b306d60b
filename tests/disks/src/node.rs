//! Reading nodes of any tree, independently of the editors.

use std::collections::BTreeMap;

use crate::bytes::{is_sealed, u16_at, u32_at, u64_at};
use crate::disk::Disk;

pub const HEADER: usize = 56;
pub const INFO: usize = 40;
const NO_VALUE: u16 = 0xffff;

/// Where an entry's key and value lie in its block.
pub struct Span {
    pub key: std::ops::Range<usize>,
    pub value: Option<std::ops::Range<usize>>,
}

pub fn is_root(b: &[u8]) -> bool {
    u16_at(b, 32) & 1 != 0
}

pub fn level(b: &[u8]) -> u16 {
    u16_at(b, 34)
}

/// The entries of a node; `fixed` are the key and value lengths of a tree that fixes them.
pub fn spans(b: &[u8], fixed: Option<(usize, usize)>) -> Vec<Span> {
    let contents = HEADER + u16_at(b, 40) as usize;
    let keys = contents + u16_at(b, 42) as usize;
    let end = b.len() - if is_root(b) { INFO } else { 0 };
    let entry = |i: usize| {
        let (k, klen, v, vlen) = match fixed {
            Some((key, value)) => {
                let at = contents + 4 * i;
                (u16_at(b, at), key, u16_at(b, at + 2), if level(b) == 0 { value } else { 8 })
            }
            None => {
                let at = contents + 8 * i;
                (u16_at(b, at), u16_at(b, at + 2) as usize, u16_at(b, at + 4), u16_at(b, at + 6) as usize)
            }
        };
        let key = keys + k as usize;
        let value = (v != NO_VALUE).then(|| end - v as usize..end - v as usize + vlen);
        Span { key: key..key + klen, value }
    };
    (0..u32_at(b, 36) as usize).map(entry).collect()
}

pub type Mapped = BTreeMap<(u64, u64), (u32, u64)>;

/// The entries of an object map's tree: (id, transaction) to (flags, address), and the levels of the tree.
pub fn object_map(disk: &Disk, root: u64) -> (Mapped, u16) {
    let mut out = Mapped::new();
    let mut todo = vec![root];
    while let Some(address) = todo.pop() {
        let b = disk.block(address);
        assert!(is_sealed(b), "node {address} of an object map is not sealed");
        for s in spans(b, Some((16, 16))) {
            let (k, v) = (&b[s.key], &b[s.value.expect("an object map has no ghosts")]);
            if level(b) > 0 {
                todo.push(u64_at(v, 0));
            } else {
                out.insert((u64_at(k, 0), u64_at(k, 8)), (u32_at(v, 0), u64_at(v, 8)));
            }
        }
    }
    (out, level(disk.block(root)) + 1)
}

/// The address of an id: its newest entry.
pub fn address_of(map: &Mapped, id: u64) -> u64 {
    map.range((id, 0)..=(id, u64::MAX)).next_back().unwrap_or_else(|| panic!("object {id} is not mapped")).1 .1
}

/// Addresses of all nodes of a tree with variable lengths, a node before its children. With a map the tree is a virtual one.
pub fn tree_nodes(disk: &Disk, map: Option<&Mapped>, root: u64) -> Vec<u64> {
    let mut out = Vec::new();
    let mut todo = vec![root];
    while let Some(id) = todo.pop() {
        let address = map.map_or(id, |m| address_of(m, id));
        let b = disk.block(address);
        assert!(is_sealed(b) && u64_at(b, 8) == id, "the block at {address} is not node {id}");
        if level(b) > 0 {
            todo.extend(spans(b, None).into_iter().rev().map(|s| u64_at(&b[s.value.expect("a child")], 0)));
        }
        out.push(address);
    }
    out
}

pub type Record = (Vec<u8>, Vec<u8>);

/// The records in the leaves among nodes, in their order.
pub fn records(disk: &Disk, nodes: &[u64]) -> Vec<Record> {
    let leaf = |&&a: &&u64| level(disk.block(a)) == 0;
    let read = |&a: &u64| {
        let b = disk.block(a);
        spans(b, None).into_iter().map(|s| (b[s.key].to_vec(), b[s.value.expect("a record")].to_vec()))
    };
    nodes.iter().filter(leaf).flat_map(read).collect()
}
