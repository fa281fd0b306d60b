//! The walk from a root, and an object map's lookup. The library has no call for a walk, so this is read from the disk by the load
//! checks that the oracle has.

use std::cmp::Ordering;

use crate::disk::Disk;
use crate::strict::{self, compare, u32_at, u64_at, Expected, Loaded};
use crate::words::{Key, Order, Value};

pub type Entry = (Key, Value);
type Answer<T> = Result<T, u8>;

/// Where a tree begins and how its nodes are found.
#[derive(Clone)]
pub struct Place {
    pub root: u64,
    pub order: Order,
    pub map: Option<u64>,
    pub xid: u64,
    pub moved: Vec<(u64, u64)>,
}

fn check(holds: bool, refusal: u8) -> Answer<()> {
    holds.then_some(()).ok_or(refusal)
}

fn load(disk: &Disk, addr: u64, want: &Expected) -> Answer<Loaded> {
    strict::load(disk.block(addr).ok_or(2)?, want)
}

fn wanted_root(root: u64, order: Order) -> Expected {
    Expected { root: true, id: root, order, fixed: None, level: None, lower: None, upper: None }
}

fn check_root(disk: &Disk, node: &Loaded, is_virtual: bool) -> Answer<()> {
    let class = if is_virtual { 0 } else { 0x4000_0000 };
    check(node.storage == class && node.node_size as usize == disk.size, 10)
}

fn wanted_child(node: &Loaded, want: &Expected, i: usize) -> Expected {
    let id = u64_at(node.entries[i].1.as_ref().expect("an index entry has a child"), 0);
    strict::child(node, want, i, id)
}

/// The last entry below a node of an object map that is not above a key; without a key the last of all.
fn floor_below(disk: &Disk, node: &Loaded, want: &Expected, key: Option<&[u8]>) -> Answer<Option<Entry>> {
    let not_above = |e: &&Entry| key.is_none_or(|k| compare(Order::Pair)(&e.0, k) != Ordering::Greater);
    let n = node.entries.iter().filter(not_above).count();
    if node.level == 0 {
        return Ok(n.checked_sub(1).map(|i| node.entries[i].clone()));
    }
    let i = n.saturating_sub(1);
    let below = |i: usize, key| {
        let wanted = wanted_child(node, want, i);
        floor_below(disk, &load(disk, wanted.id, &wanted)?, &wanted, key)
    };
    match below(i, key)? {
        None if i > 0 => below(i - 1, None),
        found => Ok(found),
    }
}

fn address(disk: &Disk, place: &Place, r: u64) -> Answer<u64> {
    let Some(map) = place.map else { return Ok(r) };
    if let Some(m) = place.moved.iter().find(|m| m.0 == r) {
        return Ok(m.1);
    }
    let want = wanted_root(map, Order::Pair);
    let root = load(disk, map, &want)?;
    check_root(disk, &root, false)?;
    check(root.fixed == Some((16, 16)), 10)?;
    let key = [r.to_le_bytes(), place.xid.to_le_bytes()].concat();
    let (found, value) = floor_below(disk, &root, &want, Some(&key))?.ok_or(18)?;
    let value = value.filter(|_| u64_at(&found, 0) == r).ok_or(18)?;
    check(u32_at(&value, 0) & 4 == 0, 19)?;
    Ok(u64_at(&value, 8))
}

/// The entries, leaves left to right.
pub fn walk(disk: &Disk, place: &Place) -> Answer<Vec<Entry>> {
    let want = wanted_root(place.root, place.order);
    let root = load(disk, address(disk, place, place.root)?, &want)?;
    check_root(disk, &root, place.map.is_some())?;
    let mut out = Vec::new();
    walk_node(disk, place, root, &want, &mut out)?;
    Ok(out)
}

fn walk_node(disk: &Disk, place: &Place, node: Loaded, want: &Expected, out: &mut Vec<Entry>) -> Answer<()> {
    if node.level == 0 {
        out.extend(node.entries);
        return Ok(());
    }
    for i in 0..node.entries.len() {
        let wanted = wanted_child(&node, want, i);
        let child = load(disk, address(disk, place, wanted.id)?, &wanted)?;
        walk_node(disk, place, child, &wanted, out)?;
    }
    Ok(())
}
