// Reads and packs the same full nodes of 4,096 bytes with the Rust's btree.rs and btree_write.rs and with the proved code, in
// turns, and prints nodes a second and their ratio.
use crate::btree::{BTreeInfo, Node};
use crate::btree_write::{build, fits, Entry, NodeBuild};
use crate::checksum;
use crate::obj::{OBJECT_TYPE_BTREE, OBJECT_TYPE_FSTREE, OBJECT_TYPE_OMAP, OBJ_PHYSICAL};
use std::hint::black_box;
use std::time::{Duration, Instant};

// A slice as the archive takes it: a pointer and a length.
extern "C" {
    fn rattle_read_node(block: *const u8, block_len: usize, slot: *mut u8, slot_len: usize, order: u64, oid: u64) -> u64;
    fn rattle_pack_node(
        dst: *mut u8,
        dst_len: usize,
        slot: *const u8,
        slot_len: usize,
        n: usize,
        used: u64,
        heads: *const u64,
        heads_len: usize,
        like: *const u8,
        like_len: usize,
    ) -> bool;
}

const SIZE: usize = 4096;
const SLOT: usize = 2 * SIZE;
const NODES: usize = 64;
const PAIR: u64 = 0;
const BYTE: u64 = 1;
const FLETCHER: u64 = u64::MAX - 3;

// A full root, a leaf: what it is built from, its block, and its entries as a slot has them.
struct Case {
    order: u64,
    oid: u64,
    fixed: Option<(usize, usize)>,
    info: BTreeInfo,
    entries: Vec<Entry>,
    block: Vec<u8>,
    slot: Vec<u8>,
    used: usize,
}

impl Case {
    fn node(&self) -> NodeBuild<'_> {
        NodeBuild {
            oid: self.oid,
            xid: 77,
            obj_type: OBJ_PHYSICAL | OBJECT_TYPE_BTREE,
            subtype: if self.order == PAIR { OBJECT_TYPE_OMAP } else { OBJECT_TYPE_FSTREE },
            level: 0,
            root: true,
            fixed: self.fixed,
            info: self.info,
            entries: &self.entries,
        }
    }
}

// Entries of a slot: lengths or marks of key and value, 2 bytes each, then both.
fn records(entries: &[Entry]) -> Vec<u8> {
    let mut slot = Vec::new();
    for (k, v) in entries {
        slot.extend((k.len() as u16).to_le_bytes());
        slot.extend(v.as_ref().map_or(0xffff, |v| v.len() as u16).to_le_bytes());
        slot.extend(k);
        slot.extend(v.iter().flatten());
    }
    slot
}

fn ours_read(b: &[u8], slot: &mut [u8], order: u64, oid: u64) -> u64 {
    unsafe { rattle_read_node(b.as_ptr(), b.len(), slot.as_mut_ptr(), slot.len(), order, oid) }
}

fn ours_pack(dst: &mut [u8], slot: &[u8], n: usize, used: usize, like: &[u8]) -> bool {
    let none: [u64; 0] = [];
    unsafe { rattle_pack_node(dst.as_mut_ptr(), dst.len(), slot.as_ptr(), slot.len(), n, used as u64, none.as_ptr(), 0, like.as_ptr(), like.len()) }
}

#[inline(never)]
fn theirs_read(b: Vec<u8>, info: &BTreeInfo) -> Vec<Entry> {
    Node::parse(b).unwrap().all_entries(info).unwrap()
}

#[inline(never)]
fn theirs_verify_read(b: Vec<u8>, info: &BTreeInfo) -> Vec<Entry> {
    assert!(checksum::verify(&b));
    Node::parse(b).unwrap().all_entries(info).unwrap()
}

#[inline(never)]
fn theirs_pack(b: &NodeBuild) -> Vec<u8> {
    build(b, SIZE).unwrap()
}

// Numbers of a linear congruential generator.
struct Numbers(u64);

impl Numbers {
    fn next(&mut self) -> u64 {
        self.0 = self.0.wrapping_mul(6364136223846793005).wrapping_add(1442695040888963407);
        self.0 >> 33
    }

    fn bytes(&mut self, n: usize) -> Vec<u8> {
        (0..n).map(|_| self.next() as u8).collect()
    }
}

// The next entry: of an object map 16 and 16 bytes, rising; else a rising number and a name of up to 24 bytes, with a value of up to 100
// bytes and now and then none.
fn entry(order: u64, i: u64, x: &mut Numbers) -> Entry {
    if order == PAIR {
        let key = [(1000 + i / 2).to_le_bytes(), (70 + i % 2).to_le_bytes()].concat();
        return (key, Some(x.bytes(16)));
    }
    let (k, v) = (x.next() as usize % 24, x.next() as usize % 101);
    let mut key = (1000 + i).to_be_bytes().to_vec();
    key.extend(x.bytes(k));
    (key, if i % 16 == 7 { None } else { Some(x.bytes(v)) })
}

// A root with as many entries as fit.
fn full(order: u64, x: &mut Numbers) -> Case {
    let size = if order == PAIR { 16 } else { 0 };
    let info = BTreeInfo { flags: 0, node_size: SIZE as u32, key_size: size, val_size: size, longest_key: 16, longest_val: 16, key_count: 0, node_count: 1 };
    let fixed = if order == PAIR { Some((16, 16)) } else { None };
    let mut c = Case { order, oid: 5000 + x.next() % 1000, fixed, info, entries: Vec::new(), block: Vec::new(), slot: Vec::new(), used: 0 };
    while fits(&c.node(), SIZE) {
        c.info.key_count += 1;
        let e = entry(order, c.info.key_count, x);
        c.entries.push(e);
    }
    refused_by_both(&c);
    c.entries.pop();
    c.block = theirs_pack(&c.node());
    c.slot = records(&c.entries);
    c.used = c.slot.len();
    c.slot.resize(SLOT, 0);
    c
}

// One entry too many.
fn refused_by_both(c: &Case) {
    let empty = theirs_pack(&NodeBuild { entries: &[], ..c.node() });
    let slot = records(&c.entries);
    let mut dst = vec![0xaa; SIZE];
    assert!(build(&c.node(), SIZE).is_err(), "a node that is too full is built");
    assert!(!ours_pack(&mut dst, &slot, c.entries.len(), slot.len(), &empty), "a node that is too full is packed");
    assert!(dst == [0xaa; SIZE], "a refusal changes the block");
}

// Both give the same bytes and the same entries; a damaged block is refused by its sum.
fn same(c: &Case) {
    let mut dst = vec![0xaa; SIZE];
    assert!(ours_pack(&mut dst, &c.slot, c.entries.len(), c.used, &c.block), "a node is not packed");
    assert!(dst == c.block, "packed blocks differ");
    let mut slot = vec![0xaa; SLOT];
    assert_eq!(ours_read(&c.block, &mut slot, c.order, c.oid), c.used as u64, "bytes of the entries");
    assert!(slot[..c.used] == c.slot[..c.used], "entries differ");
    assert!(slot[c.used..].iter().all(|&x| x == 0xaa), "bytes after the entries are changed");
    assert!(theirs_verify_read(c.block.clone(), &c.info) == c.entries, "the Rust's entries differ");
    dst[SIZE / 2] ^= 1;
    assert_eq!(ours_read(&dst, &mut slot, c.order, c.oid), FLETCHER, "a damaged node is read");
    assert!(!checksum::verify(&dst));
}

// One pass over all nodes, of which only f is timed: what it needs of its own is made before.
fn pass<'a, T>(cases: &'a [Case], make: impl Fn(&'a Case) -> T, mut f: impl FnMut(&'a Case, T)) -> Duration {
    let made: Vec<T> = cases.iter().map(make).collect();
    let t = Instant::now();
    for (c, m) in cases.iter().zip(made) {
        f(black_box(c), m);
    }
    t.elapsed()
}

fn say(name: &str, kind: &str, theirs: Duration, ours: Duration) {
    let rate = |t: Duration| NODES as f64 / t.as_secs_f64() / 1e6;
    println!("{name:28} {kind}: Rust {:5.3}, Rattle {:5.3} million nodes/s, ratio {:.2}", rate(theirs), rate(ours), rate(ours) / rate(theirs));
}

fn bench(kind: &str, cases: &[Case]) {
    let (mut dst, mut slot) = (vec![0; SIZE], vec![0; SLOT]);
    let mut best = [Duration::MAX; 7];
    for _ in 0..400 {
        let times = [
            pass(cases, |c| c.block.clone(), |c, b| drop(black_box(theirs_read(b, &c.info)))),
            pass(cases, |c| c.block.clone(), |c, b| drop(black_box(theirs_verify_read(b, &c.info)))),
            pass(cases, |_| (), |c, _| drop(black_box(theirs_verify_read(c.block.clone(), &c.info)))),
            pass(cases, |_| (), |c, _| { black_box(ours_read(&c.block, black_box(&mut slot), c.order, c.oid)); }),
            pass(cases, |c| c.node(), |_, n| drop(black_box(theirs_pack(&n)))),
            pass(cases, |_| (), |c, _| { black_box(ours_pack(black_box(&mut dst), &c.slot, c.entries.len(), c.used, &c.block)); }),
            pass(cases, |_| (), |c, _| { black_box(ours_pack(black_box(&mut dst), &c.slot, c.entries.len(), c.used + 1, &c.block)); }),
        ];
        for (b, t) in best.iter_mut().zip(times) {
            *b = t.min(*b);
        }
    }
    say("read, no sum", kind, best[0], best[3]);
    say("read, with sum", kind, best[1], best[3]);
    say("read, with sum and copy", kind, best[2], best[3]);
    say("pack", kind, best[4], best[5]);
    // With a wrong number of bytes in use it ends after the test of the slot, which code that keeps its slots in order does not repeat.
    say("pack, less the slot's test", kind, best[4], best[5] - best[6]);
}

pub fn run() {
    for (kind, order) in [("fixed", PAIR), ("variable", BYTE)] {
        let mut x = Numbers(0x2545_f491_4f6c_dd1d);
        let cases: Vec<Case> = (0..NODES).map(|_| full(order, &mut x)).collect();
        cases.iter().for_each(same);
        let n: usize = cases.iter().map(|c| c.entries.len()).sum();
        println!("{kind} lengths: {NODES} nodes of {SIZE} bytes, {} entries each on average", n / NODES);
        bench(kind, &cases);
    }
}
