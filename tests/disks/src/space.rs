//! The space manager: which blocks are in use, and what a transaction changes of that.
//!
//! A freed block keeps its bit until the next transaction, so that the checkpoint before stays whole. Changed bitmaps and chunk-info blocks go
//! to new blocks of the manager's own pool, whose bitmap goes to the next block of a ring.

use crate::bytes::{is_sealed, put_u16, put_u32, put_u64, u16_at, u32_at, u64_at};
use crate::container::{Container, Mapping, SPACEMAN_OID};
use crate::disk::Disk;
use crate::queue::{self, Queue};

// spaceman_phys_t
const CIB_COUNT: usize = 64;
const CAB_COUNT: usize = 68;
const FREE_COUNT: usize = 72;
const ADDRESSES: usize = 80;
const POOL_BLOCKS: usize = 152;
const POOL_BITMAPS: usize = 160;
const RING_BASE: usize = 168;
const POOL_BASE: usize = 176;
/// The two queues, of the pool and of all other blocks: count, tree, oldest transaction, most nodes.
const QUEUES: [usize; 2] = [200, 240];
const RING_HEAD: usize = 320;
const RING_TAIL: usize = 322;
const RING_XIDS: usize = 324;
const RING_INDEX: usize = 328;
const RING_NEXT: usize = 332;
const NO_INDEX: u16 = 0xffff;

// chunk_info_block_t: index, count, then chunks of 32 bytes: transaction, address, blocks, free, bitmap
const CHUNKS: usize = 40;
const CHUNK: usize = 32;

pub struct Space {
    xid: u64,
    mapping: Mapping,
    manager: Vec<u8>,
    cibs: Vec<(u64, Vec<u8>)>,
    pool: Vec<u8>,
    /// Freed blocks of the pool; other freed blocks.
    queues: [Queue; 2],
    freed: [Vec<u64>; 2],
    /// The bitmap as it is stored.
    stored: Vec<u8>,
}

impl Space {
    /// Reads the space manager, and puts the bitmap and the counts where the editor is lent them.
    pub fn read(disk: &mut Disk, container: &Container, xid: u64) -> Self {
        let oid = container.u64(SPACEMAN_OID);
        let mapping = *container.mappings.iter().find(|m| m.oid == oid).expect("a space manager");
        let manager = container.ephemeral(disk, oid);
        assert!(u32_at(&manager, CAB_COUNT) == 0 && u32_at(&manager, POOL_BITMAPS) == 1, "a container so large");
        let addresses = u32_at(&manager, ADDRESSES) as usize;
        let cib = |i: usize| {
            let address = u64_at(&manager, addresses + 8 * i);
            assert!(is_sealed(disk.block(address)), "chunk-info block {address} is not sealed");
            (address, disk.block(address).to_vec())
        };
        let cibs: Vec<_> = (0..u32_at(&manager, CIB_COUNT) as usize).map(cib).collect();
        let index = u16_at(&manager, u32_at(&manager, RING_INDEX) as usize) as u64;
        let pool = disk.block(u64_at(&manager, RING_BASE) + index).to_vec();
        let queues = QUEUES.map(|at| Queue::read(disk, container, u64_at(&manager, at + 8)));
        for (at, q) in QUEUES.iter().zip(&queues) {
            assert!(queue::states(&manager, *at, q), "a free queue that is not as the space manager states");
        }
        read_bitmap(disk, &cibs);
        Self { xid, mapping, manager, cibs, pool, queues, freed: [Vec::new(), Vec::new()], stored: disk.bitmap.clone() }
    }

    /// Gives back what earlier transactions freed.
    pub fn release(&mut self, disk: &mut Disk) {
        let [pool, main] = &mut self.queues;
        for run in std::mem::take(&mut main.runs) {
            (run.address..run.address + run.count).for_each(|a| disk.release(a));
        }
        let base = u64_at(&self.manager, POOL_BASE);
        for run in std::mem::take(&mut pool.runs) {
            for i in (run.address..run.address + run.count).map(|a| (a - base) as usize) {
                self.pool[i / 8] &= !(1 << (i % 8));
            }
        }
    }

    pub fn free(&mut self, addresses: &[u64]) {
        self.freed[1].extend(addresses);
    }

    fn pool_take(&mut self) -> u64 {
        let i = (0..u64_at(&self.manager, POOL_BLOCKS) as usize).find(|&i| self.pool[i / 8] >> (i % 8) & 1 == 0);
        let i = i.expect("a free block of the space manager's pool");
        self.pool[i / 8] |= 1 << (i % 8);
        u64_at(&self.manager, POOL_BASE) + i as u64
    }

    /// Writes changed bitmaps, chunk-info blocks and the pool's bitmap; gives the ephemeral objects for the checkpoint.
    pub fn finish(mut self, disk: &mut Disk, next_oid: &mut u64) -> Vec<(Mapping, Vec<u8>)> {
        self.write_chunks(disk);
        self.rotate(disk);
        let free = disk.free.iter().map(|&f| f as u64).sum();
        put_u64(&mut self.manager, FREE_COUNT, free);
        let mut out = Vec::new();
        for (i, at) in QUEUES.into_iter().enumerate() {
            let queue = &mut self.queues[i];
            queue.add(self.xid, std::mem::take(&mut self.freed[i]));
            let nodes = queue.write(disk.size, next_oid);
            let limit = u16_at(&self.manager, at + 24);
            assert!(queue::within_limit(nodes.len(), limit), "a free queue of {} nodes; {limit} are allowed", nodes.len());
            put_u64(&mut self.manager, at, queue.blocks());
            put_u64(&mut self.manager, at + 16, queue.oldest());
            out.extend(nodes);
        }
        out.insert(0, (self.mapping, self.manager));
        out
    }

    /// Chunks whose bits changed get a new bitmap block, and their chunk-info blocks new copies.
    fn write_chunks(&mut self, disk: &mut Disk) {
        let per_cib = (disk.size - CHUNKS) / CHUNK;
        let changed = |c: &usize| disk.bitmap[c * disk.size..][..disk.size] != self.stored[c * disk.size..][..disk.size];
        let chunks: Vec<usize> = (0..disk.counts.len()).filter(changed).collect();
        for &chunk in &chunks {
            let new = self.pool_take();
            let bits = disk.bitmap[chunk * disk.size..][..disk.size].to_vec();
            disk.block_mut(new).copy_from_slice(&bits);
            let (cib, at) = (&mut self.cibs[chunk / per_cib].1, CHUNKS + CHUNK * (chunk % per_cib));
            let old = u64_at(cib, at + 24);
            self.freed[0].extend((old != 0).then_some(old));
            put_u64(cib, at, self.xid);
            put_u32(cib, at + 20, disk.free[chunk]);
            put_u64(cib, at + 24, new);
        }
        for i in 0..self.cibs.len() {
            if chunks.iter().any(|c| c / per_cib == i) {
                let new = self.pool_take();
                let (old, cib) = self.cibs[i].clone();
                disk.store_physical(new, self.xid, cib);
                self.freed[0].push(old);
                let at = u32_at(&self.manager, ADDRESSES) as usize + 8 * i;
                put_u64(&mut self.manager, at, new);
            }
        }
    }

    /// Writes the pool's bitmap to the first free block of its ring; the block before goes to the end of the ring's free list.
    fn rotate(&mut self, disk: &mut Disk) {
        let m = &mut self.manager;
        let next = |i: u16, m: &[u8]| u32_at(m, RING_NEXT) as usize + 2 * i as usize;
        let index = u32_at(m, RING_INDEX) as usize;
        let (old, new) = (u16_at(m, index), u16_at(m, RING_HEAD));
        let after = u16_at(m, next(new, m));
        assert!(new != NO_INDEX && after != NO_INDEX, "the ring of pool bitmaps has no free block");
        let tail = u16_at(m, RING_TAIL);
        let (at_new, at_old, at_tail) = (next(new, m), next(old, m), next(tail, m));
        put_u16(m, RING_HEAD, after);
        put_u16(m, at_new, NO_INDEX);
        put_u16(m, at_old, NO_INDEX);
        put_u16(m, at_tail, old);
        put_u16(m, RING_TAIL, old);
        put_u16(m, index, new);
        let xids = u32_at(m, RING_XIDS) as usize;
        put_u64(m, xids, self.xid);
        let address = u64_at(m, RING_BASE) + new as u64;
        disk.block_mut(address).copy_from_slice(&self.pool);
    }
}

fn read_bitmap(disk: &mut Disk, cibs: &[(u64, Vec<u8>)]) {
    disk.bitmap.clear();
    disk.counts.clear();
    disk.free.clear();
    for (_, cib) in cibs {
        for at in (0..u32_at(cib, 36) as usize).map(|i| CHUNKS + CHUNK * i) {
            let bitmap = u64_at(cib, at + 24);
            let bits = if bitmap == 0 { vec![0; disk.size] } else { disk.block(bitmap).to_vec() };
            disk.bitmap.extend(bits);
            disk.counts.push(u32_at(cib, at + 16));
            disk.free.push(u32_at(cib, at + 20));
        }
    }
}
