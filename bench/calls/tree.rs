// Trees that both editors open: made by the Rust, its blocks in one image.
use apfs::btree::BTreeInfo;
use apfs::btree_write::{build, NodeBuild};
use apfs::nx::Container;
use apfs::obj::{OBJECT_TYPE_BTREE, OBJECT_TYPE_FSTREE, OBJECT_TYPE_OMAP, OBJ_PHYSICAL};
use apfs::write::space;
use apfs::write::tree::{omap_cmp, omap_put, PhysReader, Tree};
use std::cmp::Ordering;
use std::sync::OnceLock;
use std::time::Duration;

pub const SIZE: usize = 4096;

type Key = Vec<u8>;
type Order = fn(&[u8], &[u8]) -> Ordering;

// An object map's entries, 16 and 16 bytes in pair order; or names in byte order with values of up to 100 bytes.
#[derive(Clone, Copy, PartialEq)]
pub enum Kind {
    Fixed,
    Variable,
}

// With how many equal bytes all names begin: COMMON in the environment, else none.
fn common() -> usize {
    static LENGTH: OnceLock<usize> = OnceLock::new();
    *LENGTH.get_or_init(|| std::env::var("COMMON").map_or(0, |s| s.parse().expect("COMMON is a number")))
}

impl Kind {
    pub fn name(self) -> &'static str {
        if self == Kind::Fixed { "fixed" } else { "variable" }
    }

    pub fn order(self) -> u64 {
        if self == Kind::Fixed { 0 } else { 1 }
    }

    fn compare(self) -> Order {
        if self == Kind::Fixed { omap_cmp } else { |a, b| a.cmp(b) }
    }

    pub fn least(self) -> Key {
        if self == Kind::Fixed { vec![0; 16] } else { vec![0] }
    }

    pub fn greatest(self) -> Key {
        vec![0xff; 16]
    }

    fn key(self, x: u64) -> Key {
        if self == Kind::Fixed {
            return [x.to_le_bytes(), 3u64.to_le_bytes()].concat();
        }
        let mut k = vec![b'/'; common()];
        k.extend(x.wrapping_mul(0x9e37_79b9_7f4a_7c15).to_be_bytes());
        k.extend(vec![0x61 + (x % 26) as u8; x as usize % 24]);
        k
    }

    pub fn value(self, x: u64) -> Vec<u8> {
        vec![x as u8; if self == Kind::Fixed { 16 } else { (x * 37 % 101) as usize }]
    }
}

pub struct Numbers(u64);

impl Numbers {
    fn next(&mut self) -> u64 {
        self.0 = self.0.wrapping_mul(6364136223846793005).wrapping_add(1442695040888963407);
        self.0 >> 33
    }
}

// The record of an entry: lengths of key and value, 2 bytes each, then both.
pub fn record(key: &[u8], value: &Option<Vec<u8>>) -> Vec<u8> {
    let v = value.as_deref().unwrap_or(&[]);
    let mark = value.as_ref().map_or(0xffff, |v| v.len() as u16);
    [&(key.len() as u16).to_le_bytes()[..], &mark.to_le_bytes(), key, v].concat()
}

// The Rust's editor with its comparison.
pub struct Theirs(Tree);

impl Theirs {
    pub fn open(disk: &Container, root: u64, kind: Kind) -> Self {
        Self(Tree::open(&PhysReader(disk), root, kind.compare()).unwrap())
    }

    #[inline(never)]
    pub fn get(&mut self, disk: &Container, key: &[u8]) -> Option<Vec<u8>> {
        self.0.get(&PhysReader(disk), key).unwrap().flatten()
    }

    #[inline(never)]
    pub fn floor(&mut self, disk: &Container, key: &[u8]) -> Option<(Key, Option<Vec<u8>>)> {
        self.0.floor(&PhysReader(disk), key).unwrap()
    }

    pub fn load(&mut self, disk: &Container, kind: Kind) -> usize {
        self.0.range(&PhysReader(disk), &kind.least(), &kind.greatest()).unwrap().len()
    }

    // The Rust takes key and value for its own: they are made within the time.
    #[inline(never)]
    pub fn upsert(&mut self, disk: &Container, key: &[u8], value: &[u8]) {
        self.0.upsert(&PhysReader(disk), key.to_vec(), Some(value.to_vec())).unwrap()
    }

    #[inline(never)]
    pub fn remove(&mut self, disk: &Container, key: &[u8]) {
        assert!(self.0.remove(&PhysReader(disk), key).unwrap())
    }

    #[inline(never)]
    pub fn put(&mut self, disk: &Container, id: u64, xid: u64, address: u64) {
        omap_put(&mut self.0, &PhysReader(disk), id, xid, address, SIZE as u32).unwrap()
    }

    pub fn counts(&self) -> (u64, u64) {
        self.0.counts()
    }

    // What a flush takes, with its blocks copied into an image as the library's flush does; the blocks; how many are freed.
    pub fn flush(self, disk: &Container) -> (Duration, Vec<(u64, Vec<u8>)>, u64) {
        let mut space = space::Space::load(disk, 6).unwrap();
        let mut image = vec![0u8; disk.image.len()];
        let mut writes = Vec::new();
        let t = crate::clock();
        let done = self.0.flush(disk, &mut space, &mut writes, 6, &mut 0).unwrap();
        for (at, block) in &writes {
            image[*at as usize * SIZE..][..SIZE].copy_from_slice(block);
        }
        (crate::clock() - t, writes, done.freed)
    }
}

// A tree on disk, keys that are in it and keys that are not.
pub struct Trees {
    pub kind: Kind,
    pub disk: Container,
    pub root: u64,
    pub entries: usize,
    pub sample: Vec<Key>,
    pub new: Vec<Key>,
    numbers: Vec<u64>,
}

impl Trees {
    pub fn new(kind: Kind, nodes: u64, sample: usize, new: usize) -> Self {
        let mut disk = Container::new(2 * nodes + 600, SIZE);
        disk.store(0, &empty(kind));
        use_block(&mut disk, 0);
        let mut theirs = Theirs::open(&disk, 0, kind);
        let (mut x, mut numbers) = (Numbers(12345), Vec::new());
        while theirs.counts().1 < nodes {
            let n = x.next() << 1;
            theirs.upsert(&disk, &kind.key(n), &kind.value(x.next() % 100));
            numbers.push(n);
        }
        let mut space = space::Space::load(&disk, 2).unwrap();
        let mut writes = Vec::new();
        let done = theirs.0.flush(&disk, &mut space, &mut writes, 2, &mut 0).unwrap();
        space.finish(&mut disk).unwrap();
        writes.iter().for_each(|(at, block)| disk.store(*at, block));
        let pick = |x: &mut Numbers| numbers[x.next() as usize % numbers.len()];
        let sample = (0..sample).map(|_| kind.key(pick(&mut x))).collect();
        let new = (0..new).map(|_| kind.key((x.next() << 1) + 1)).collect();
        numbers.sort_by(|a, b| kind.compare()(&kind.key(*a), &kind.key(*b)));
        Self { kind, disk, root: done.root, entries: numbers.len(), sample, new, numbers }
    }

    // Keys that lie apart, so many of them.
    pub fn spread(&self, n: usize) -> Vec<Key> {
        (0..n).map(|i| self.kind.key(self.numbers[i * self.numbers.len() / n])).collect()
    }
}

fn empty(kind: Kind) -> Vec<u8> {
    let size = if kind == Kind::Fixed { 16 } else { 0 };
    let info = BTreeInfo { flags: 0, node_size: SIZE as u32, key_size: size, val_size: size, longest_key: 0, longest_val: 0, key_count: 0, node_count: 1 };
    let node = NodeBuild {
        oid: 0,
        xid: 1,
        obj_type: OBJ_PHYSICAL | OBJECT_TYPE_BTREE,
        subtype: if kind == Kind::Fixed { OBJECT_TYPE_OMAP } else { OBJECT_TYPE_FSTREE },
        level: 0,
        root: true,
        fixed: (size != 0).then_some((16, 16)),
        info,
        entries: &[],
    };
    build(&node, SIZE).unwrap()
}

fn use_block(disk: &mut Container, at: usize) {
    disk.chunks[0].bits[at / 8] |= 1 << (at % 8);
    disk.chunks[0].free -= 1;
}

// The disk's chunks as the library's flush takes them.
pub fn space(disk: &Container) -> crate::ours::Space {
    crate::ours::Space {
        bitmap: disk.chunks.iter().flat_map(|k| k.bits.iter().copied()).collect(),
        counts: disk.chunks.iter().map(|k| k.blocks).collect(),
        free: disk.chunks.iter().map(|k| k.free).collect(),
    }
}

// The same as the crate's.
pub fn crate_space(disk: &Container) -> moachest::Space {
    let crate::ours::Space { bitmap, counts, free } = space(disk);
    moachest::Space { bitmap, counts, free }
}
