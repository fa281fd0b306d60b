//! An open tree: the calls, safe.

mod calls;

use std::fmt;

use crate::flushed::{FlushRefused, Flushed};
use crate::raw;
use crate::reader::{Lent, Reader};
use crate::record::{entries, entry, Entry};
use crate::refusal::Refusal;
use crate::space::Space;
use crate::workspace::Workspace;

type Result<T> = std::result::Result<T, Refusal>;

/// Words of a tree.
const USED: usize = 1;
const KEY_SIZE: usize = 4;
const VALUE_SIZE: usize = 5;
const KEYS: usize = 8;
const NODES: usize = 9;
const BY_ID: usize = 10;
const SUBTYPE: usize = 11;
const ORDER: usize = 12;

/// The library takes no more slots.
const MOST_SLOTS: usize = 4096;

/// The longest value that get can answer is shorter.
const MOST_VALUE: usize = 0x10000;

/// How keys are compared.
#[derive(Clone, Copy, Debug, PartialEq, Eq)]
#[repr(u64)]
pub enum Order {
    /// Keys of 16 bytes: two little-endian u64, compared as numbers, the first one first (`omap_cmp`).
    Pair = 0,
    /// Keys of any length, byte by byte; a prefix comes before what it begins.
    Byte = 1,
}

/// How a tree uses its workspace.
#[derive(Clone, Copy, Debug, PartialEq, Eq)]
pub struct Options {
    /// How many slots there are at first. A slot is room for one loaded or made node and takes about ten blocks of memory.
    pub slots: usize,
    /// How many slots there may be, at most 4,096. Where no slot is free and there may be more, there are twice as many and the call is made
    /// again; else it is refused with [`Refusal::NoSlot`].
    pub most_slots: usize,
    /// Whether every call looks at all slots first. They are the tree's own, so that it finds nothing; it is for those who want no trust at all.
    pub checked: bool,
}

impl Default for Options {
    fn default() -> Options {
        Options { slots: 16, most_slots: 4096, checked: false }
    }
}

/// An open tree. It owns its slots and borrows the image for each call.
///
/// Changes stay in memory until [`flush`](Tree::flush); a tree that is dropped has changed nothing.
pub struct Tree {
    lent: Lent,
    words: [u64; raw::TREE_WORDS],
    work: Workspace,
    options: Options,
    /// The next call has to look at the slots: they have been moved into a larger workspace.
    look: bool,
    out: Vec<u8>,
}

impl Tree {
    /// Opens the tree whose root is `root`: an address, or an object id where the reader has a map.
    pub fn open(rd: &Reader<'_>, root: u64, order: Order) -> Result<Tree> {
        Tree::open_with(rd, root, order, Options::default())
    }

    /// The same, with a number of slots.
    pub fn open_with(rd: &Reader<'_>, root: u64, order: Order, options: Options) -> Result<Tree> {
        let lent = rd.lent;
        let work = Workspace::new(options.slots, lent.size);
        let mut tree = Tree { lent, words: [0; raw::TREE_WORDS], work, options, look: false, out: Vec::new() };
        Refusal::check(tree.open_once(rd.image, root, order as u64))?;
        Ok(tree)
    }

    /// Makes a call: `f` is told whether it may be the trusted one. Where no slot is free it makes it again with more.
    ///
    /// This is where trust comes from. A trusted call requires that the slots are as the calls of this tree left them, and that the image's
    /// length is one that open accepted. Nothing but those calls writes words and slots, which are private. The reader is held to the lengths and
    /// numbers that open accepted. A larger workspace is looked at by the next call, and trusted again only once a call got past refusal 1.
    fn call(&mut self, rd: &Reader<'_>, mut f: impl FnMut(&mut Tree, &[u8], bool) -> u64) -> Result<()> {
        if rd.lent != self.lent {
            return Err(Refusal::Lent);
        }
        loop {
            let trusts = self.trusts();
            let result = Refusal::check(f(self, rd.image, trusts));
            self.looked(&result);
            if result != Err(Refusal::NoSlot) || self.work.slots >= self.most_slots() {
                return result;
            }
            // Before they grow, so that a workspace that is half grown, should memory run out, is never trusted.
            self.look = true;
            self.work.grow(self.lent.size, self.most_slots(), self.used());
        }
    }

    fn most_slots(&self) -> usize {
        self.options.most_slots.min(MOST_SLOTS)
    }

    fn trusts(&self) -> bool {
        !self.options.checked && !self.look
    }

    /// A call that looked at the slots and was not refused with 1 found that they hold together.
    fn looked<T>(&mut self, result: &Result<T>) {
        if !matches!(result, Err(Refusal::Lent)) {
            self.look = false;
        }
    }

    /// The value stored under `key`, copied to the start of `out`; its length. `Some(None)` for a ghost. An output that is too short is refused
    /// with [`Refusal::Output`].
    pub fn get_into(&mut self, rd: &Reader<'_>, key: &[u8], out: &mut [u8]) -> Result<Option<Option<usize>>> {
        let mut answer = [0; raw::ANSWER_WORDS];
        self.call(rd, |t, image, trusts| t.get_once(image, trusts, key, Some(&mut *out), &mut answer))?;
        Ok(held(answer))
    }

    /// The value stored under `key`: `Some(None)` for a ghost entry.
    pub fn get(&mut self, rd: &Reader<'_>, key: &[u8]) -> Result<Option<Option<Vec<u8>>>> {
        let mut answer = [0; raw::ANSWER_WORDS];
        self.growing(rd, MOST_VALUE, |t, image, trusts| t.get_once(image, trusts, key, None, &mut answer))?;
        match held(answer) {
            Some(Some(length)) => Ok(Some(Some(self.out[..length].to_vec()))),
            Some(None) => Ok(Some(None)),
            None => Ok(None),
        }
    }

    /// The entry with the greatest key `<= key`.
    pub fn floor(&mut self, rd: &Reader<'_>, key: &[u8]) -> Result<Option<Entry>> {
        let mut answer = [0; raw::ANSWER_WORDS];
        self.growing(rd, 2 * self.lent.size, |t, image, trusts| t.floor_once(image, trusts, key, &mut answer))?;
        if answer[0] == 0 {
            return Ok(None);
        }
        Ok(Some(entry(&self.out[..answer[1] as usize])))
    }

    /// Every leaf entry with `lo <= key < hi`, in order.
    pub fn range(&mut self, rd: &Reader<'_>, lo: &[u8], hi: &[u8]) -> Result<Vec<Entry>> {
        let most = self.most_slots().max(self.work.slots) * 2 * self.lent.size;
        let mut answer = [0; raw::ANSWER_WORDS];
        self.growing(rd, most, |t, image, trusts| t.range_once(image, trusts, [lo, hi], &mut answer))?;
        Ok(entries(&self.out[..answer[1] as usize]))
    }

    /// Every entry, in order. All nodes are loaded.
    pub fn entries(&mut self, rd: &Reader<'_>) -> Result<Vec<Entry>> {
        // In byte order nothing is above: no key is as long. In pair order the last key of all is left out, and got by itself.
        let (lo, hi) = if self.order() == Order::Pair { (vec![0; 16], vec![0xFF; 16]) } else { (Vec::new(), vec![0xFF; self.lent.size + 1]) };
        let mut all = self.range(rd, &lo, &hi)?;
        if self.order() == Order::Pair {
            all.extend(self.get(rd, &hi)?.map(|value| (hi, value)));
        }
        Ok(all)
    }

    /// Inserts or replaces `key`; without a value, as a ghost.
    pub fn upsert(&mut self, rd: &Reader<'_>, key: impl AsRef<[u8]>, val: Option<&[u8]>) -> Result<()> {
        let key = key.as_ref();
        self.call(rd, |t, image, trusts| t.upsert_once(image, trusts, key, val))
    }

    /// Removes `key`; returns whether it was there.
    pub fn remove(&mut self, rd: &Reader<'_>, key: &[u8]) -> Result<bool> {
        let mut answer = [0; raw::ANSWER_WORDS];
        self.call(rd, |t, image, trusts| t.remove_once(image, trusts, key, &mut answer))?;
        Ok(answer[0] == 1)
    }

    /// Of an object map: points `oid` at `paddr` as of `xid`, dropping its other versions. `size` is the object's, in bytes.
    pub fn omap_put(&mut self, rd: &Reader<'_>, oid: u64, xid: u64, paddr: u64, size: u32) -> Result<()> {
        self.call(rd, |t, image, trusts| t.omap_put_once(image, trusts, [oid, xid], paddr, size))
    }

    /// Of an object map: removes every version of `oid`.
    pub fn omap_drop(&mut self, rd: &Reader<'_>, oid: u64) -> Result<()> {
        self.call(rd, |t, image, trusts| t.omap_drop_once(image, trusts, oid))
    }

    /// Whether there is something to write.
    pub fn changed(&self) -> bool {
        (0..self.used()).any(|n| self.work.is_dirty(n))
    }

    /// How many slots are in use.
    pub fn used(&self) -> usize {
        self.words[USED] as usize
    }

    /// How many slots there are.
    pub fn slots(&self) -> usize {
        self.work.slots
    }

    /// How many entries the tree has, as its root counts them.
    pub fn keys(&self) -> u64 {
        self.words[KEYS]
    }

    /// How many nodes the tree has, as its root counts them.
    pub fn nodes(&self) -> u64 {
        self.words[NODES]
    }

    /// The fixed lengths of keys and values, if they are fixed.
    pub fn fixed(&self) -> Option<(usize, usize)> {
        (self.words[KEY_SIZE] != 0).then_some((self.words[KEY_SIZE] as usize, self.words[VALUE_SIZE] as usize))
    }

    /// Whether nodes are named by id.
    pub fn is_virtual(&self) -> bool {
        self.words[BY_ID] != 0
    }

    /// What it is a tree of.
    pub fn subtype(&self) -> u32 {
        self.words[SUBTYPE] as u32
    }

    /// How keys are compared.
    pub fn order(&self) -> Order {
        if self.words[ORDER] == Order::Pair as u64 {
            Order::Pair
        } else {
            Order::Byte
        }
    }

    /// Writes every changed node to a free block of `image`, with transaction `xid`. `next_oid` supplies ids for new nodes of virtual trees.
    ///
    /// Only blocks that were free are written. The tree is ended; the next [`open`](Tree::open) starts from [`Flushed::root`].
    ///
    /// # Errors
    /// A refused flush wrote nothing and gives the tree back. `?` turns [`FlushRefused`] into the [`Refusal`].
    pub fn flush(self, image: &mut [u8], space: &mut Space, xid: u64, next_oid: &mut u64) -> std::result::Result<Flushed, FlushRefused> {
        let mut tree = self;
        let flushed = tree.flush_or_refuse(image, space, xid, next_oid);
        flushed.map_err(|refusal| FlushRefused { refusal, tree: Box::new(tree) })
    }

    fn flush_or_refuse(&mut self, image: &mut [u8], space: &mut Space, xid: u64, next_oid: &mut u64) -> Result<Flushed> {
        if image.len() != self.lent.length {
            return Err(Refusal::Lent);
        }
        let slots = self.work.slots;
        let mut lists = [vec![0; slots], vec![0; slots], vec![0; slots], vec![0; slots]];
        let mut answer = [0; raw::ANSWER_WORDS];
        let trusts = self.trusts();
        Refusal::check(self.flush_once(image, trusts, space, &mut lists, [xid, *next_oid], &mut answer))?;
        let [mut freed_blocks, mut removed, ids, places] = lists;
        let [root, allocated, freed, gone, moved, keys, fill, next] = answer;
        freed_blocks.truncate(freed as usize);
        removed.truncate(gone as usize);
        *next_oid = next;
        let moved = ids.into_iter().zip(places).take(moved as usize).collect();
        Ok(Flushed { root, moved, removed, allocated, freed, freed_blocks, keys, fill })
    }

    /// Makes a lookup with the tree's own output as long as it is, and again with a longer one while it is refused with 20.
    fn growing(&mut self, rd: &Reader<'_>, most: usize, mut f: impl FnMut(&mut Tree, &[u8], bool) -> u64) -> Result<()> {
        loop {
            let result = self.call(rd, &mut f);
            if result != Err(Refusal::Output) || self.out.len() >= most {
                return result;
            }
            self.out.resize((2 * self.out.len()).clamp(self.lent.size.min(most), most), 0);
        }
    }
}

/// What get's words say: nothing, a ghost, or a value and its length.
fn held(answer: [u64; raw::ANSWER_WORDS]) -> Option<Option<usize>> {
    match answer {
        [0, ..] => None,
        [1, ..] => Some(None),
        [_, length, ..] => Some(Some(length as usize)),
    }
}

impl fmt::Debug for Tree {
    fn fmt(&self, f: &mut fmt::Formatter<'_>) -> fmt::Result {
        let mut f = f.debug_struct("Tree");
        f.field("keys", &self.keys()).field("nodes", &self.nodes()).field("used", &self.used()).field("slots", &self.slots());
        f.field("changed", &self.changed()).finish_non_exhaustive()
    }
}

/// Object-map key: object id, then transaction id.
pub fn omap_key(oid: u64, xid: u64) -> Vec<u8> {
    let mut k = oid.to_le_bytes().to_vec();
    k.extend(xid.to_le_bytes());
    k
}

/// Points `oid` at `paddr` as of `xid`, dropping its other versions: [`Tree::omap_put`] under the name that the Rust has.
pub fn omap_put(t: &mut Tree, rd: &Reader<'_>, oid: u64, xid: u64, paddr: u64, size: u32) -> Result<()> {
    t.omap_put(rd, oid, xid, paddr, size)
}

/// Removes every version of `oid`: [`Tree::omap_drop`] under the name that the Rust has.
pub fn omap_drop(t: &mut Tree, rd: &Reader<'_>, oid: u64) -> Result<()> {
    t.omap_drop(rd, oid)
}
