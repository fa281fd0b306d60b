//! The Rust original, as tests/oracle builds it.

use std::cmp::Ordering;

use apfs::map_reader::MapReader;
use apfs::nx::{Chunk, Container, Superblock};
use apfs::write::space::Space;
use apfs::write::tree::{omap_cmp, omap_drop, omap_put, PhysReader, Reader, Tree};

use super::{Answer, Editor, Flushed, Order, Place};
use crate::disk::Disk;
use crate::keys;

/// `own_order`: the file-system tree is edited as it is stored, in its own order.
pub struct Original {
    own_order: bool,
    open: Option<(Tree, Place)>,
}

impl Original {
    pub fn new(own_order: bool) -> Self {
        Self { own_order, open: None }
    }

    fn call<T>(&mut self, disk: &mut Disk, f: impl FnOnce(&mut Tree, &dyn Reader) -> apfs::error::Result<T>) -> Answer<T> {
        let (tree, place) = self.open.as_mut().ok_or("no tree is open")?;
        with_container(disk, |c| with_reader(c, place, |r| f(tree, r))).map_err(|e| e.to_string())
    }
}

fn comparison(order: Order) -> fn(&[u8], &[u8]) -> Ordering {
    match order {
        Order::Pair => omap_cmp,
        Order::Byte => |a, b| a.cmp(b),
        Order::Own(true) => |a, b| keys::compare(a, b, true),
        Order::Own(false) => |a, b| keys::compare(a, b, false),
    }
}

/// Lends image and bitmap to the original's container, and takes them back.
fn with_container<T>(disk: &mut Disk, f: impl FnOnce(&mut Container) -> T) -> T {
    let chunks = disk.bitmap.chunks(disk.size).zip(&disk.counts).zip(&disk.free);
    let chunks = chunks.map(|((bits, &blocks), &free)| Chunk { bits: bits.to_vec(), blocks, free }).collect();
    let image = std::mem::take(&mut disk.image);
    let mut container = Container { sb: Superblock { spaceman_oid: 1 }, size: disk.size, image, chunks };
    let answer = f(&mut container);
    disk.image = container.image;
    for (i, chunk) in container.chunks.iter().enumerate() {
        disk.bitmap[i * disk.size..][..disk.size].copy_from_slice(&chunk.bits);
        disk.free[i] = chunk.free;
    }
    answer
}

fn with_reader<T>(container: &Container, place: &Place, f: impl FnOnce(&dyn Reader) -> T) -> T {
    match place.map {
        None => f(&PhysReader(container)),
        Some(map) => f(&MapReader { container, map, xid: place.xid, moved: &[] }),
    }
}

impl Editor for Original {
    fn name(&self) -> &'static str {
        if self.own_order { "the original, own order" } else { "the original" }
    }

    fn takes_own_order(&self) -> bool {
        self.own_order
    }

    fn checks_nodes(&self) -> bool {
        false
    }

    fn open(&mut self, disk: &mut Disk, place: Place) -> Answer<()> {
        let tree = with_container(disk, |c| with_reader(c, &place, |r| Tree::open(r, place.root, comparison(place.order))));
        self.open = Some((tree.map_err(|e| e.to_string())?, place));
        Ok(())
    }

    fn get(&mut self, disk: &mut Disk, key: &[u8]) -> Answer<Option<Option<Vec<u8>>>> {
        self.call(disk, |t, r| t.get(r, key))
    }

    fn upsert(&mut self, disk: &mut Disk, key: &[u8], value: Option<&[u8]>) -> Answer<()> {
        self.call(disk, |t, r| t.upsert(r, key.to_vec(), value.map(<[u8]>::to_vec)))
    }

    fn remove(&mut self, disk: &mut Disk, key: &[u8]) -> Answer<bool> {
        self.call(disk, |t, r| t.remove(r, key))
    }

    fn omap_put(&mut self, disk: &mut Disk, id: u64, xid: u64, address: u64) -> Answer<()> {
        let size = disk.size as u32;
        self.call(disk, |t, r| omap_put(t, r, id, xid, address, size))
    }

    fn omap_drop(&mut self, disk: &mut Disk, id: u64) -> Answer<()> {
        self.call(disk, |t, r| omap_drop(t, r, id))
    }

    fn flush(&mut self, disk: &mut Disk, xid: u64, mut next: u64) -> Answer<Flushed> {
        let (tree, _) = self.open.take().ok_or("no tree is open")?;
        let (keys, fill) = (tree.counts().0, tree.fill());
        let done = with_container(disk, |c| {
            let mut space = Space::load(c, xid)?;
            let mut writes = Vec::new();
            let done = tree.flush(c, &mut space, &mut writes, xid, &mut next)?;
            let freed = space.freed.clone();
            space.finish(c)?;
            writes.iter().for_each(|(address, bytes)| c.store(*address, bytes));
            Ok((done, freed))
        });
        let (done, freed) = done.map_err(|e: apfs::error::Error| e.to_string())?;
        let (root, allocated, removed, moved) = (done.root, done.allocated, done.removed, done.moved);
        Ok(Flushed { root, allocated, freed, removed, moved, keys, fill, next })
    }
}
