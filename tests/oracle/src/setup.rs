//! Lines that set up image, bitmap, object map and slots.

use apfs::btree::BTreeInfo;
use apfs::btree_write::{build, NodeBuild};
use apfs::nx::Container;
use apfs::obj::{OBJECT_TYPE_BTREE, OBJ_PHYSICAL};

use crate::session::Session;
use crate::words::{EmptyRoot, Line};

const MOST_BYTES: u64 = 1 << 30;
const MOST_BLOCKS: u64 = 1 << 20;
const MOST_SLOTS: u64 = 4096;

pub fn is_setup(line: &Line) -> bool {
    use Line::*;
    matches!(line, Image(..) | Slots(..) | Block(..) | Seal(..) | Mark(..) | Count(..) | Empty(..) | Map(..))
}

/// None where the line is out of range; then nothing has changed.
pub fn run(s: &mut Session, line: &Line) -> Option<String> {
    match line {
        Line::Image(blocks, size) => image(s, *blocks, *size),
        Line::Slots(n) => slots(s, *n),
        Line::Map(a) => map(s, *a),
        _ => on_disk(s.disk.as_mut()?, line),
    }
}

fn image(s: &mut Session, blocks: u64, size: u64) -> Option<String> {
    let sizes = (512..=65_536).contains(&size) && size.is_power_of_two();
    if !sizes || !(1..=MOST_BLOCKS).contains(&blocks) || blocks * size > MOST_BYTES {
        return None;
    }
    let (keep_traces, watch) = (s.keep_traces, s.watch);
    *s = Session { disk: Some(Container::new(blocks, size as usize)), keep_traces, watch, ..Session::new() };
    Some(format!("(image {blocks} {size})"))
}

fn slots(s: &mut Session, n: u64) -> Option<String> {
    if !(1..=MOST_SLOTS).contains(&n) {
        return None;
    }
    s.slots = n;
    s.tree = None;
    Some(format!("(slots {n})"))
}

fn map(s: &mut Session, addr: Option<u64>) -> Option<String> {
    s.map = addr;
    Some(addr.map_or("(map -)".into(), |a| format!("(map {a})")))
}

fn on_disk(disk: &mut Container, line: &Line) -> Option<String> {
    Some(match line {
        Line::Block(addr, bytes) => {
            let start = usize::try_from(addr.checked_mul(disk.size as u64)?).ok()?;
            if *addr >= disk.blocks() {
                return None;
            }
            disk.image.get_mut(start..start.checked_add(bytes.len())?)?.copy_from_slice(bytes);
            format!("(block {addr})")
        }
        Line::Seal(addr) => {
            let mut block = disk.block(*addr)?.to_vec();
            apfs::seal_block(&mut block);
            disk.store(*addr, &block);
            format!("(seal {addr})")
        }
        Line::Mark(addr, count) => {
            mark(disk, *addr, *count)?;
            format!("(mark {addr} {count})")
        }
        Line::Count(chunk, blocks, free) => {
            let k = disk.chunks.get_mut(usize::try_from(*chunk).ok()?)?;
            (k.blocks, k.free) = (*blocks, *free);
            format!("(count {chunk} {blocks} {free})")
        }
        Line::Empty(e) => empty(disk, e)?,
        _ => return None,
    })
}

fn mark(disk: &mut Container, addr: u64, count: u64) -> Option<()> {
    if addr.checked_add(count)? > disk.blocks() {
        return None;
    }
    let per_chunk = 8 * disk.size as u64;
    for a in addr..addr + count {
        let k = &mut disk.chunks[(a / per_chunk) as usize];
        let (byte, bit) = ((a % per_chunk) as usize / 8, 1u8 << (a % 8));
        if k.bits[byte] & bit == 0 {
            k.bits[byte] |= bit;
            k.free = k.free.saturating_sub(1);
        }
    }
    Some(())
}

fn empty(disk: &mut Container, e: &EmptyRoot) -> Option<String> {
    disk.block(e.addr)?;
    let info = BTreeInfo {
        flags: e.flags,
        node_size: disk.block_size(),
        key_size: e.key,
        val_size: e.value,
        longest_key: 0,
        longest_val: 0,
        key_count: 0,
        node_count: 1,
    };
    let node = NodeBuild {
        oid: if e.physical { e.addr } else { e.id },
        xid: e.xid,
        obj_type: OBJECT_TYPE_BTREE | if e.physical { OBJ_PHYSICAL } else { 0 },
        subtype: e.subtype,
        level: 0,
        root: true,
        fixed: (e.key != 0).then_some((e.key as usize, e.value as usize)),
        info,
        entries: &[],
    };
    let block = build(&node, disk.size).ok()?;
    disk.store(e.addr, &block);
    mark(disk, e.addr, 1)?;
    Some(format!("(empty {})", e.addr))
}
