//! The container's newest checkpoint: its superblock and where it stored its ephemeral objects.

use crate::bytes::{is_sealed, put_u32, put_u64, seal, u32_at, u64_at};
use crate::disk::Disk;

// nx_superblock_t
const BLOCK_SIZE: usize = 36;
const BLOCK_COUNT: usize = 40;
pub const NEXT_OID: usize = 88;
pub const NEXT_XID: usize = 96;
const DESC_BLOCKS: usize = 104;
const DATA_BLOCKS: usize = 108;
const DESC_BASE: usize = 112;
const DATA_BASE: usize = 120;
const DESC_NEXT: usize = 128;
const DATA_NEXT: usize = 132;
const DESC_INDEX: usize = 136;
const DESC_LEN: usize = 140;
const DATA_INDEX: usize = 144;
const DATA_LEN: usize = 148;
pub const SPACEMAN_OID: usize = 152;
pub const OMAP_OID: usize = 160;
pub const FS_OID: usize = 184;
const NX_MAGIC: u32 = 0x4253_584e;

// checkpoint_map_phys_t: flags, count, then mappings of 40 bytes
const CHECKPOINT_MAP: u32 = 0x4000_000c;
const MAP_LAST: u32 = 1;
const MAPPINGS: usize = 40;
const MAPPING: usize = 40;

/// Where a checkpoint stored an ephemeral object.
#[derive(Clone, Copy)]
pub struct Mapping {
    pub kind: u32,
    pub subtype: u32,
    pub oid: u64,
    pub address: u64,
}

#[derive(Clone)]
pub struct Container {
    pub superblock: Vec<u8>,
    pub mappings: Vec<Mapping>,
}

/// The block size and count that block 0 states.
pub fn sizes(block_0: &[u8]) -> (usize, u64) {
    (u32_at(block_0, BLOCK_SIZE) as usize, u64_at(block_0, BLOCK_COUNT))
}

impl Container {
    /// The newest checkpoint of the ring whose superblock is whole.
    pub fn read(disk: &Disk) -> Self {
        let first = disk.block(0);
        let ring = u64_at(first, DESC_BASE)..u64_at(first, DESC_BASE) + u32_at(first, DESC_BLOCKS) as u64;
        let whole = |&a: &u64| u32_at(disk.block(a), 32) == NX_MAGIC && is_sealed(disk.block(a));
        let newest = ring.filter(whole).max_by_key(|&a| u64_at(disk.block(a), 16)).expect("a whole superblock");
        let superblock = disk.block(newest).to_vec();
        let mappings = mappings(disk, &superblock);
        Self { superblock, mappings }
    }

    pub fn u64(&self, at: usize) -> u64 {
        u64_at(&self.superblock, at)
    }

    fn u32(&self, at: usize) -> u64 {
        u32_at(&self.superblock, at) as u64
    }

    pub fn xid(&self) -> u64 {
        self.u64(16)
    }

    pub fn ephemeral(&self, disk: &Disk, oid: u64) -> Vec<u8> {
        let mapping = self.mappings.iter().find(|m| m.oid == oid).unwrap_or_else(|| panic!("no ephemeral object {oid}"));
        let object = disk.block(mapping.address);
        assert!(is_sealed(object), "ephemeral object {oid} is not sealed");
        object.to_vec()
    }

    /// Writes the next checkpoint: ephemeral objects, map and superblock, each behind the current one's in its ring. Gives the superblock's
    /// address.
    pub fn write_next(mut self, disk: &mut Disk, objects: Vec<(Mapping, Vec<u8>)>) -> u64 {
        let xid = self.xid() + 1;
        let (desc, data) = (self.u32(DESC_BLOCKS), self.u32(DATA_BLOCKS));
        let start = self.u32(DATA_NEXT);
        let count = objects.len() as u64;
        assert!(count + self.u32(DATA_LEN) <= data && 2 + self.u32(DESC_LEN) <= desc, "no room for another checkpoint");
        let mut mappings = Vec::new();
        for (i, (mapping, object)) in objects.into_iter().enumerate() {
            let address = self.u64(DATA_BASE) + (start + i as u64) % data;
            disk.store(address, xid, object);
            mappings.push(Mapping { address, ..mapping });
        }
        let at = self.u32(DESC_NEXT);
        disk.store_physical(self.u64(DESC_BASE) + at, xid, checkpoint_map(disk.size, &mappings));
        let sb = &mut self.superblock;
        put_u64(sb, 16, xid);
        put_u64(sb, NEXT_XID, xid + 1);
        put_u32(sb, DESC_NEXT, ((at + 2) % desc) as u32);
        put_u32(sb, DATA_NEXT, ((start + count) % data) as u32);
        put_u32(sb, DESC_INDEX, at as u32);
        put_u32(sb, DESC_LEN, 2);
        put_u32(sb, DATA_INDEX, start as u32);
        put_u32(sb, DATA_LEN, count as u32);
        seal(sb);
        let address = u64_at(sb, DESC_BASE) + (at + 1) % desc;
        disk.block_mut(address).copy_from_slice(sb);
        disk.block_mut(0).copy_from_slice(sb);
        address
    }
}

fn mappings(disk: &Disk, sb: &[u8]) -> Vec<Mapping> {
    assert_eq!(u32_at(sb, DESC_LEN), 2, "checkpoints with several maps");
    let map = disk.block(u64_at(sb, DESC_BASE) + u32_at(sb, DESC_INDEX) as u64);
    assert!(is_sealed(map) && u32_at(map, 24) == CHECKPOINT_MAP && u64_at(map, 16) == u64_at(sb, 16), "the checkpoint's map");
    let mapping = |i: usize| {
        let at = MAPPINGS + MAPPING * i;
        Mapping { kind: u32_at(map, at), subtype: u32_at(map, at + 4), oid: u64_at(map, at + 24), address: u64_at(map, at + 32) }
    };
    (0..u32_at(map, 36) as usize).map(mapping).collect()
}

fn checkpoint_map(size: usize, mappings: &[Mapping]) -> Vec<u8> {
    let mut map = vec![0; size];
    assert!(MAPPINGS + MAPPING * mappings.len() <= size, "checkpoints with several maps");
    put_u32(&mut map, 24, CHECKPOINT_MAP);
    put_u32(&mut map, 32, MAP_LAST);
    put_u32(&mut map, 36, mappings.len() as u32);
    for (i, m) in mappings.iter().enumerate() {
        let at = MAPPINGS + MAPPING * i;
        put_u32(&mut map, at, m.kind);
        put_u32(&mut map, at + 4, m.subtype);
        put_u32(&mut map, at + 8, size as u32);
        put_u64(&mut map, at + 24, m.oid);
        put_u64(&mut map, at + 32, m.address);
    }
    map
}
