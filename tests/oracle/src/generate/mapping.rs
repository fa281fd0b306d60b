//! The object map of a virtual tree, kept up from the lists that a flush gives.

use super::calls;
use super::laid_out;
use super::writer::{refused, Stop, Writer};
use crate::words::{hex, hex_or_ghost};

/// Makes an empty map at `addr`.
pub fn begin(w: &mut Writer, addr: u64) -> Result<u64, Stop> {
    w.need(format!("(empty {addr} physical 0 2 11 0 16 16)"))?;
    Ok(addr)
}

/// A map laid out for the nodes of a tree and for other ids; gives its root and the addresses of its nodes.
pub fn laid_out(w: &mut Writer, nodes: &[(u64, u64)], others: u64) -> Result<(u64, Vec<u64>), Stop> {
    let taken: Vec<u64> = nodes.iter().map(|n| n.1).collect();
    let mut addresses: Vec<u64> = (0..w.plan.blocks.min(300)).filter(|a| !taken.contains(a)).collect();
    w.random.shuffle(&mut addresses);
    let mut list: Vec<(u64, u64, u64)> = nodes.iter().map(|n| (n.0, 3, n.1)).collect();
    for _ in 0..others {
        // Ids on both sides of the tree's, and versions that no transaction of the script sees.
        let (id, xid) = (nodes[0].0 / 2 + w.random.below(nodes[0].0), *w.random.pick(&[1, 2, 1 << 40]));
        let version_seen = nodes.iter().any(|n| n.0 == id) && xid < 1 << 40;
        list.push((id, if version_seen { 1 << 41 } else { xid }, w.random.below(w.plan.blocks)));
    }
    list.sort_unstable();
    list.dedup_by_key(|m| (m.0, m.1));
    let size = (w.plan.size as u64) << 32;
    let bytes = |a: u64, b: u64| [a.to_le_bytes(), b.to_le_bytes()].concat();
    let entries = list.into_iter().map(|(id, xid, addr)| (bytes(id, xid), Some(bytes(size, addr)))).collect();
    let map = laid_out::plant_map(w, entries, addresses)?;
    w.need(format!("(map {})", map.root))?;
    Ok((map.root, map.nodes.iter().map(|n| n.1).collect()))
}

fn open(w: &mut Writer, root: u64) -> Result<(), Stop> {
    w.need("(map -)".into())?;
    let slots = w.plan.slots.max(64);
    w.need(format!("(slots {slots})"))?;
    w.need(format!("(open {root} pair {})", w.xid)).map(|_| ())
}

/// One change of the map; when the slots run out, what is there is flushed first.
fn change(w: &mut Writer, root: &mut u64, line: String) -> Result<(), Stop> {
    if w.say(line.clone())?.is_some_and(|a| refused(&a)) {
        *root = close(w)?;
        open(w, *root)?;
        w.need(line)?;
    }
    Ok(())
}

fn close(w: &mut Writer) -> Result<u64, Stop> {
    let next = w.next;
    let flushed = calls::flush(w)?;
    w.next = next;
    flushed.map(|f| f.root).ok_or(Stop)
}

/// A version that the open transaction does not see, an id that no node has, a ghost.
fn other_versions(w: &mut Writer, root: &mut u64, ids: &[u64]) -> Result<(), Stop> {
    for &id in ids {
        if !w.random.chance(15) {
            continue;
        }
        let mut key = id.to_le_bytes().to_vec();
        key.extend((w.xid + 1000 + w.random.below(3)).to_le_bytes());
        let value = if w.random.chance(30) { None } else { Some(w.random.bytes(16)) };
        change(w, root, format!("(upsert {} {})", hex(&key), hex_or_ghost(&value)))?;
    }
    Ok(())
}

/// Brings the map up to date and lends it; gives its new root.
pub fn update(w: &mut Writer, mut root: u64, removed: &[u64], moved: &[u64]) -> Result<u64, Stop> {
    open(w, root)?;
    let xid = w.xid - 1;
    for id in removed {
        change(w, &mut root, format!("(drop {id})"))?;
    }
    for m in moved.chunks(2) {
        change(w, &mut root, format!("(put {} {xid} {})", m[0], m[1]))?;
    }
    let ids: Vec<u64> = moved.chunks(2).map(|m| m[0]).collect();
    other_versions(w, &mut root, &ids)?;
    root = close(w)?;
    w.need(format!("(slots {})", w.plan.slots))?;
    w.need(format!("(map {root})"))?;
    Ok(root)
}
