//! The editor under test: open a tree, look up, edit, flush. Two of them give the same blocks.

#[cfg(library)]
pub mod library;
#[cfg(original)]
pub mod original;

use crate::disk::Disk;

#[derive(Clone, Copy, PartialEq, Debug)]
pub enum Order {
    Pair,
    Byte,
    /// The file-system tree's own order (`hashed` as in keys.rs). Only the original can be given one.
    Own(bool),
}

/// Where a tree begins: an address or, with the root of an object map lent, an id as seen from a transaction.
#[derive(Clone, Copy, Debug)]
pub struct Place {
    pub root: u64,
    pub map: Option<u64>,
    pub order: Order,
    pub xid: u64,
}

/// What a flush did.
#[derive(PartialEq, Debug, Default, Clone)]
pub struct Flushed {
    pub root: u64,
    pub allocated: u64,
    pub freed: Vec<u64>,
    pub removed: Vec<u64>,
    pub moved: Vec<(u64, u64)>,
    pub keys: u64,
    pub fill: u64,
    pub next: u64,
}

/// A refusal: its number, or the original's words.
pub type Answer<T> = Result<T, String>;

pub trait Editor {
    fn name(&self) -> &'static str;
    /// Whether it can be given the file-system tree's own order.
    fn takes_own_order(&self) -> bool;
    /// Whether it refuses a node whose keys do not rise, or whose id is not the one wanted.
    fn checks_nodes(&self) -> bool;
    fn open(&mut self, disk: &mut Disk, place: Place) -> Answer<()>;
    /// None: not there. Some(None): a ghost.
    fn get(&mut self, disk: &mut Disk, key: &[u8]) -> Answer<Option<Option<Vec<u8>>>>;
    /// No value: a ghost.
    fn upsert(&mut self, disk: &mut Disk, key: &[u8], value: Option<&[u8]>) -> Answer<()>;
    fn remove(&mut self, disk: &mut Disk, key: &[u8]) -> Answer<bool>;
    fn omap_put(&mut self, disk: &mut Disk, id: u64, xid: u64, address: u64) -> Answer<()>;
    fn omap_drop(&mut self, disk: &mut Disk, id: u64) -> Answer<()>;
    fn flush(&mut self, disk: &mut Disk, xid: u64, next: u64) -> Answer<Flushed>;
}
