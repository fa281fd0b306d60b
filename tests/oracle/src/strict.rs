//! Document 01's load line for one block: checks 3 to 9 in its order. The Rust checks less; this is how
//! the oracle knows where the two part.

use std::cmp::Ordering;

use crate::session::byte_order;
use crate::words::{Key, Order, Value};

/// What the tree above says about a node that is to be loaded.
#[derive(Clone)]
pub struct Expected {
    pub root: bool,
    pub id: u64,
    pub order: Order,
    /// The tree's fixed lengths; a root brings its own.
    pub fixed: Option<(usize, usize)>,
    pub level: Option<u16>,
    pub lower: Option<Key>,
    pub upper: Option<Key>,
}

pub struct Loaded {
    pub level: u16,
    pub storage: u32,
    pub node_size: u32,
    pub fixed: Option<(usize, usize)>,
    pub entries: Vec<(Key, Value)>,
}

pub fn u16_at(b: &[u8], i: usize) -> usize {
    u16::from_le_bytes(b[i..i + 2].try_into().unwrap()) as usize
}

pub fn u32_at(b: &[u8], i: usize) -> u32 {
    u32::from_le_bytes(b[i..i + 4].try_into().unwrap())
}

pub fn u64_at(b: &[u8], i: usize) -> u64 {
    u64::from_le_bytes(b[i..i + 8].try_into().unwrap())
}

fn check(holds: bool, refusal: u8) -> Result<(), u8> {
    holds.then_some(()).ok_or(refusal)
}

/// The node in a block, or the number that document 01 refuses it with.
pub fn load(b: &[u8], want: &Expected) -> Result<Loaded, u8> {
    check(apfs::checksum::verify(b), 3)?;
    check(matches!(u32_at(b, 24) & 0xffff, 2 | 3), 4)?;
    let flags = u16_at(b, 32);
    check(flags & 8 == 0, 5)?;
    let level = u16_at(b, 34) as u16;
    let is_root = flags & 1 != 0;
    let end = b.len() - if is_root { 40 } else { 0 };
    let key_area = 56 + u16_at(b, 40) + u16_at(b, 42);
    check(key_area <= end && level <= 32 && (flags & 2 != 0) == (level == 0) && is_root == want.root, 6)?;
    let info = &b[b.len() - 40..];
    let own = (u32_at(info, 8) != 0).then(|| (u32_at(info, 8) as usize, u32_at(info, 12) as usize));
    let fixed = if want.root { own } else { want.fixed };
    check((flags & 4 != 0) == fixed.is_some(), 6)?;
    let count = u32_at(b, 36) as usize;
    check(u16_at(b, 42) / if fixed.is_some() { 4 } else { 8 } >= count, 6)?;
    check(u64_at(b, 8) == want.id, 6)?;
    check(want.level.is_none_or(|l| level + 1 == l), 7)?;
    let entries = entries(b, level == 0, fixed, key_area, end)?;
    check(!entries.is_empty() || (want.root && level == 0), 8)?;
    check(keys_hold(&entries, want), 9)?;
    Ok(Loaded { level, storage: u32_at(b, 24) & 0xc000_0000, node_size: u32_at(info, 4), fixed, entries })
}

/// Check 8: every entry lies in the block, and together they are no longer than the data space.
fn entries(b: &[u8], leaf: bool, fixed: Option<(usize, usize)>, key_area: usize, end: usize) -> Result<Vec<(Key, Value)>, u8> {
    let mut out = Vec::new();
    let mut sum = 0;
    for i in 0..u32_at(b, 36) as usize {
        let at = 56 + u16_at(b, 40) + i * if fixed.is_some() { 4 } else { 8 };
        let (k_off, k_len, v_off, v_len) = match fixed {
            Some((k, v)) => (u16_at(b, at), k, u16_at(b, at + 2), if leaf { v } else { 8 }),
            None => (u16_at(b, at), u16_at(b, at + 2), u16_at(b, at + 4), u16_at(b, at + 6)),
        };
        let key = b.get(key_area + k_off..key_area + k_off + k_len).ok_or(8)?;
        let value = if v_off == 0xffff {
            None
        } else {
            let start = end.checked_sub(v_off).ok_or(8)?;
            Some(b.get(start..start + v_len).ok_or(8)?.to_vec())
        };
        check(leaf || value.as_ref().is_some_and(|v| v.len() == 8), 8)?;
        sum += k_len + value.as_ref().map_or(0, Vec::len);
        out.push((key.to_vec(), value));
    }
    check(sum <= end - 56, 8)?;
    Ok(out)
}

/// Check 9: keys rise within the bounds, and are 16 bytes in pair order.
fn keys_hold(entries: &[(Key, Value)], want: &Expected) -> bool {
    let cmp = compare(want.order);
    let sizes = want.order == Order::Byte || entries.iter().all(|e| e.0.len() == 16);
    sizes
        && entries.windows(2).all(|w| cmp(&w[0].0, &w[1].0) == Ordering::Less)
        && entries.first().is_none_or(|e| want.lower.as_ref().is_none_or(|l| cmp(l, &e.0) != Ordering::Greater))
        && entries.last().is_none_or(|e| want.upper.as_ref().is_none_or(|u| cmp(&e.0, u) == Ordering::Less))
}

/// The order of keys; pair order is only asked of keys of 16 bytes.
pub fn compare(order: Order) -> fn(&[u8], &[u8]) -> Ordering {
    match order {
        Order::Byte => byte_order,
        Order::Pair => |a, b| (u64_at(a, 0), u64_at(a, 8)).cmp(&(u64_at(b, 0), u64_at(b, 8))),
    }
}

/// What is expected of child `i` of a node.
pub fn child(node: &Loaded, want: &Expected, i: usize, id: u64) -> Expected {
    Expected {
        root: false,
        id,
        order: want.order,
        fixed: node.fixed,
        level: Some(node.level),
        lower: Some(node.entries[i].0.clone()),
        upper: node.entries.get(i + 1).map_or(want.upper.clone(), |e| Some(e.0.clone())),
    }
}
