//! The space manager's free queues: trees of ephemeral nodes, which the editor does not take (refusal 10). They are read and written here.

use crate::bytes::{put_u16, put_u32, put_u64, seal, u32_at, u64_at};
use crate::container::{Container, Mapping};
use crate::disk::Disk;
use crate::node::{level, spans, HEADER, INFO};

const NODE: u32 = 0x8000_0003;
const FREE_QUEUE: u32 = 9;
const ROOT_FLAG: u16 = 1;
const LEAF_FLAG: u16 = 2;
const FIXED_FLAG: u16 = 4;
const NO_OFFSET: u16 = 0xffff;
const KEY: usize = 16;
const VALUE: usize = 8;

/// Blocks from `address` on that were freed in a transaction and are given back once it is on the disk.
#[derive(Clone, Copy, PartialEq, Eq, PartialOrd, Ord, Debug)]
pub struct Run {
    pub xid: u64,
    pub address: u64,
    pub count: u64,
}

pub struct Queue {
    root: Mapping,
    info: Vec<u8>,
    /// Ids of the nodes below the root.
    spare: Vec<u64>,
    pub runs: Vec<Run>,
}

impl Queue {
    pub fn read(disk: &Disk, container: &Container, oid: u64) -> Self {
        let root = *container.mappings.iter().find(|m| m.oid == oid).expect("a free queue");
        let block = container.ephemeral(disk, oid);
        let info = block[disk.size - INFO..].to_vec();
        let mut queue = Self { root, info, spare: Vec::new(), runs: Vec::new() };
        let mut todo = vec![block];
        while let Some(b) = todo.pop() {
            for s in spans(&b, Some((KEY, VALUE))) {
                let (key, value) = (&b[s.key], s.value.map(|v| u64_at(&b, v.start)));
                if level(&b) > 0 {
                    let child = value.expect("a child");
                    queue.spare.push(child);
                    todo.push(container.ephemeral(disk, child));
                } else {
                    queue.runs.push(Run { xid: u64_at(key, 0), address: u64_at(key, 8), count: value.unwrap_or(1) });
                }
            }
        }
        queue
    }

    /// Adds single blocks; neighbours become one run.
    pub fn add(&mut self, xid: u64, mut addresses: Vec<u64>) {
        addresses.sort();
        for address in addresses {
            match self.runs.last_mut() {
                Some(run) if run.xid == xid && run.address + run.count == address => run.count += 1,
                _ => self.runs.push(Run { xid, address, count: 1 }),
            }
        }
    }

    pub fn blocks(&self) -> u64 {
        self.runs.iter().map(|r| r.count).sum()
    }

    pub fn oldest(&self) -> u64 {
        self.runs.iter().map(|r| r.xid).min().unwrap_or(0)
    }

    /// The nodes of the queue's tree; new ones take ids from `next_oid`. One leaf, or leaves below one index root.
    pub fn write(&self, size: usize, next_oid: &mut u64) -> Vec<(Mapping, Vec<u8>)> {
        let entries: Vec<Entry> = self.runs.iter().map(|r| ((r.xid, r.address), (r.count != 1).then_some(r.count))).collect();
        let fits = capacity(size, true);
        if entries.len() <= fits {
            return vec![(self.root, self.node(size, self.root.oid, true, 0, &entries, 1))];
        }
        let mut spare = self.spare.iter();
        let mut out = Vec::new();
        let mut index = Vec::new();
        for leaf in entries.chunks(capacity(size, false)) {
            let oid = *spare.next().unwrap_or(next_oid);
            *next_oid += (oid == *next_oid) as u64;
            index.push((leaf[0].0, Some(oid)));
            let mapping = Mapping { kind: NODE, subtype: FREE_QUEUE, oid, address: 0 };
            out.push((mapping, self.node(size, oid, false, 0, leaf, 0)));
        }
        assert!(index.len() <= fits, "free queues of more than two levels");
        out.push((self.root, self.node(size, self.root.oid, true, 1, &index, out.len() as u64 + 1)));
        out
    }

    fn node(&self, size: usize, oid: u64, root: bool, level: u16, entries: &[Entry], nodes: u64) -> Vec<u8> {
        let mut b = vec![0; size];
        put_u64(&mut b, 8, oid);
        put_u32(&mut b, 24, if root { self.root.kind } else { NODE });
        put_u32(&mut b, 28, FREE_QUEUE);
        let flags = FIXED_FLAG | if root { ROOT_FLAG } else { 0 } | if level == 0 { LEAF_FLAG } else { 0 };
        put_u16(&mut b, 32, flags);
        put_u16(&mut b, 34, level);
        put_u32(&mut b, 36, entries.len() as u32);
        fill(&mut b, root, entries);
        if root {
            b[size - INFO..].copy_from_slice(&self.info);
            let keys = if level == 0 { entries.len() } else { self.runs.len() };
            put_u64(&mut b, size - 16, keys as u64);
            put_u64(&mut b, size - 8, nodes);
        }
        seal(&mut b);
        b
    }
}

type Entry = ((u64, u64), Option<u64>);

/// Contents, keys and values of a node.
fn fill(b: &mut [u8], root: bool, entries: &[Entry]) {
    let contents = 4 * slots(b.len());
    let end = b.len() - if root { INFO } else { 0 };
    let mut values = 0;
    for (i, ((xid, address), value)) in entries.iter().enumerate() {
        put_u16(b, HEADER + 4 * i, (KEY * i) as u16);
        put_u64(b, HEADER + contents + KEY * i, *xid);
        put_u64(b, HEADER + contents + KEY * i + 8, *address);
        values += if value.is_some() { VALUE } else { 0 };
        put_u16(b, HEADER + 4 * i + 2, if value.is_some() { values as u16 } else { NO_OFFSET });
        if let Some(v) = value {
            put_u64(b, end - values, *v);
        }
    }
    let keys = KEY * entries.len();
    put_u16(b, 42, contents as u16);
    put_u16(b, 44, keys as u16);
    put_u16(b, 46, (end - HEADER - contents - keys - values) as u16);
    put_u16(b, 48, NO_OFFSET);
    put_u16(b, 52, NO_OFFSET);
}

/// Slots of the contents: as many as entries could ever be there, in eights.
fn slots(size: usize) -> usize {
    ((size - HEADER) / (4 + KEY + VALUE)).div_ceil(8) * 8
}

/// Entries that fit whether they have a value or not.
fn capacity(size: usize, root: bool) -> usize {
    let space = size - HEADER - if root { INFO } else { 0 } - 4 * slots(size);
    (space / (KEY + VALUE)).min(slots(size))
}

/// The most nodes that the space manager allows the queue.
pub fn within_limit(nodes: usize, limit: u16) -> bool {
    nodes <= limit as usize
}

/// Whether a stored queue states this many blocks; used when it is read.
pub fn states(manager: &[u8], at: usize, queue: &Queue) -> bool {
    u64_at(manager, at) == queue.blocks() && u64_at(manager, at + 16) == queue.oldest() && u32_at(manager, at + 28) == 0
}
