//! A small disk for tests, and random numbers.
#![allow(dead_code)]

use moachest::{omap_key, Empty, Options, Order, Reader, Refusal, Space, Tree};

/// Random numbers (splitmix64), the same in every run.
pub struct Random(pub u64);

impl Random {
    pub fn next(&mut self) -> u64 {
        self.0 = self.0.wrapping_add(0x9E37_79B9_7F4A_7C15);
        let mut z = self.0;
        z = (z ^ z >> 30).wrapping_mul(0xBF58_476D_1CE4_E5B9);
        z = (z ^ z >> 27).wrapping_mul(0x94D0_49BB_1331_11EB);
        z ^ z >> 31
    }

    pub fn below(&mut self, n: u64) -> u64 {
        self.next() % n
    }

    pub fn bytes(&mut self, length: u64) -> Vec<u8> {
        (0..length).map(|_| self.below(4) as u8).collect()
    }
}

/// A disk with one tree, physical or virtual.
pub struct Disk {
    pub image: Vec<u8>,
    pub space: Space,
    pub size: usize,
    pub root: u64,
    pub order: Order,
    pub map: Option<u64>,
    pub xid: u64,
    pub next: u64,
    pub options: Options,
}

pub const ROOT_ID: u64 = 1000;

impl Disk {
    /// An empty physical tree at block 0; fixed lengths, or variable ones.
    pub fn physical(blocks: usize, size: usize, order: Order, fixed: Option<(u32, u32)>) -> Disk {
        let mut image = vec![0; blocks * size];
        Empty { fixed, ..Empty::omap(0) }.pack(&mut image[..size]);
        let mut space = Space::new(blocks, size);
        space.mark(0, 1);
        Disk { image, space, size, root: 0, order, map: None, xid: 1, next: ROOT_ID + 1, options: Options::default() }
    }

    /// An empty virtual tree at block 0, and its object map at block 1.
    pub fn mapped(blocks: usize, size: usize, order: Order, fixed: Option<(u32, u32)>) -> Disk {
        let mut disk = Disk::physical(blocks, size, order, fixed);
        Empty { id: ROOT_ID, is_virtual: true, fixed, ..Empty::omap(0) }.pack(&mut disk.image[..size]);
        Empty::omap(1).pack(&mut disk.image[size..2 * size]);
        disk.space.mark(1, 1);
        let mut map = Tree::open(&Reader::physical(&disk.image, size), 1, Order::Pair).unwrap();
        map.omap_put(&Reader::physical(&disk.image, size), ROOT_ID, 1, 0, size as u32).unwrap();
        let done = map.flush(&mut disk.image, &mut disk.space, 1, &mut 0).unwrap();
        disk.space.release(1);
        Disk { root: ROOT_ID, map: Some(done.root), ..disk }
    }

    pub fn reader(&self) -> Reader<'_> {
        match self.map {
            Some(map) => Reader::mapped(&self.image, self.size, map, self.xid),
            None => Reader::physical(&self.image, self.size),
        }
    }

    pub fn open(&self) -> Result<Tree, Refusal> {
        Tree::open_with(&self.reader(), self.root, self.order, self.options)
    }

    /// Flushes a tree, brings its map after it, and gives freed blocks back.
    pub fn commit(&mut self, tree: Tree) {
        self.xid += 1;
        let done = tree.flush(&mut self.image, &mut self.space, self.xid, &mut self.next).unwrap();
        self.root = done.root;
        let mut freed = done.freed_blocks;
        if let Some(root) = self.map {
            let rd = Reader::physical(&self.image, self.size);
            let mut map = Tree::open(&rd, root, Order::Pair).unwrap();
            for (id, address) in done.moved {
                map.omap_put(&rd, id, self.xid, address, self.size as u32).unwrap();
            }
            for id in done.removed {
                map.omap_drop(&rd, id).unwrap();
            }
            let done = map.flush(&mut self.image, &mut self.space, self.xid, &mut 0).unwrap();
            self.map = Some(done.root);
            freed.extend(done.freed_blocks);
        }
        for block in freed {
            self.space.release(block);
        }
    }

    /// Changes a block and seals it again.
    pub fn forge(&mut self, block: u64, change: impl FnOnce(&mut [u8])) {
        let start = block as usize * self.size;
        let block = &mut self.image[start..start + self.size];
        change(block);
        moachest::seal(block);
    }

    /// Puts `n` entries of an object map and flushes: more than 11 make a root with leaves.
    pub fn filled(mut self, n: u64) -> Disk {
        let mut tree = self.open().unwrap();
        for id in 0..n {
            tree.upsert(&self.reader(), omap_key(id, 1), Some(&[id as u8; 16])).unwrap();
        }
        self.commit(tree);
        self
    }

    /// The first block that the root names.
    pub fn first_child(&self) -> u64 {
        let root = &self.image[self.root as usize * self.size..][..self.size];
        let at = self.size - 40 - usize::from(u16::from_le_bytes([root[58], root[59]]));
        u64::from_le_bytes(root[at..at + 8].try_into().unwrap())
    }
}

pub fn omap_disk() -> Disk {
    Disk::physical(256, 512, Order::Pair, Some((16, 16)))
}
