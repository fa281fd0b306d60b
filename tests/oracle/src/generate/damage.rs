//! Damage to nodes on the image. Only damage on whose refusal both agree stays in the script.

use super::writer::{Stop, Writer};
use crate::strict::u16_at;
use crate::words::hex;

/// A change of a few bytes in a node, with the place where it goes.
fn change(w: &mut Writer, block: &[u8]) -> (usize, Vec<u8>) {
    let r = &mut w.random;
    let info = block.len() - 40;
    match r.below(14) {
        10 => (27, vec![*r.pick(&[0, 0x40, 0x80])]),
        11 => (info + 4, vec![0, *r.pick(&[0, 2, 16])]),
        12 => (info + *r.pick(&[24, 32]), vec![0xff; 8]),
        13 => (info + *r.pick(&[24, 32]), vec![0; 8]),
        0 => (24, vec![0x0b]),
        1 => (32, vec![block[32] | 8]),
        2 => (34, vec![block[34] + 1]),
        3 => (34, vec![33 + r.below(200) as u8]),
        4 => (42, vec![0xf0, 0xff]),
        5 => (36, vec![block[36].wrapping_add(1 + r.below(4) as u8)]),
        6 => (8, r.bytes(1)),
        7 => {
            let at = 56 + r.length(60);
            (at, r.bytes(2))
        }
        8 => (56 + 8 * r.length(6) + 4, vec![0xff, 0xff]),
        _ => {
            let at = 8 + r.length(block.len() - 12);
            (at, r.bytes(1))
        }
    }
}

/// A change after which one clause of 2, 6, 8 or 9 holds, in most cases alone.
fn clause(w: &mut Writer, block: &[u8]) -> (usize, Vec<u8>) {
    let flags = block[32];
    let end = block.len() - if flags & 1 != 0 { 40 } else { 0 };
    let slot = if flags & 4 != 0 { 4 } else { 8 };
    let first = 56 + u16_at(block, 40);
    let Some([one, two]) = block.get(first..first + 2 * slot).map(|b| [&b[..slot], &b[slot..]]) else { return (32, vec![flags ^ 2]) };
    match w.random.below(10) {
        0 => (32, vec![flags ^ 1]),
        1 => (32, vec![flags ^ 2]),
        2 => (32, vec![flags ^ 4]),
        3 => (42, ((end + 1).saturating_sub(first) as u16).to_le_bytes().to_vec()),
        4 => (36, vec![0; 4]),
        5 => (first, [two, two].concat()),
        6 => (first, [two, one].concat()),
        7 => (34, vec![33]),
        8 => (first + slot / 2, vec![1 + w.random.below(7) as u8, 0]),
        // Where the first value lies: of an index node the child, an address that is far or wraps.
        _ => {
            let at = end.saturating_sub(u16_at(one, slot / 2)).min(block.len() - 8);
            let far = *w.random.pick(&[w.plan.blocks, (1 << 55) + 2, u64::MAX]);
            (at, far.to_le_bytes().to_vec())
        }
    }
}

/// The lines that damage a node: sealed again in most cases, else its sum is wrong.
fn lines(w: &mut Writer, addr: u64) -> Option<Vec<String>> {
    let mut block = w.engine.disk()?.block(addr)?.to_vec();
    let one_clause = w.plan.clauses && w.random.chance(80);
    let (at, bytes) = if one_clause { clause(w, &block.clone()) } else { change(w, &block.clone()) };
    let end = (at + bytes.len()).min(block.len());
    block[at..end].copy_from_slice(&bytes[..end - at]);
    let mut out = vec![format!("(block {addr} {})", hex(&block[..end]))];
    if w.random.chance(80) {
        out.push(format!("(seal {addr})"));
    }
    Some(out)
}

/// Damages some of the nodes at the given addresses; `open` is the line that opens the tree after.
pub fn some(w: &mut Writer, addresses: &[u64], open: &str) -> Result<(), Stop> {
    if addresses.is_empty() {
        return Ok(());
    }
    let wanted = 1 + w.random.below(3);
    let mut done = 0;
    for _ in 0..12 {
        let addr = *w.random.pick(addresses);
        let Some(lines) = lines(w, addr) else { continue };
        if done < wanted && w.tried(&lines, open) {
            done += 1;
            for line in lines {
                w.need(line)?;
            }
        }
    }
    Ok(())
}

/// An encrypted mapping, or none, for a node of a virtual tree: a line for the open map.
pub fn mapping(w: &mut Writer, id: u64, xid: u64) -> String {
    let mut key = id.to_le_bytes().to_vec();
    key.extend(xid.to_le_bytes());
    let value = if w.random.chance(50) { format!("{}{}", hex(&[4, 0, 0, 0]), "00".repeat(12)) } else { "-".into() };
    format!("(upsert {} {value})", hex(&key))
}
