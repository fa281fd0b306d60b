//! Foreign words and bytes read as the slots that they are, and refusal 1 of them (docs/RULES.md, "Refused with 1").

use std::cmp::Ordering;

use crate::lends::Lends;
use crate::reading::node::{Form, Item, Node};
use crate::reading::tree::Tree;
use crate::session::Place;
use crate::strict::compare;
use crate::words::Order;

pub const HEAD: usize = 9;
const WORDS_EACH: usize = 19;
pub const DEAD: usize = 8;
pub const USED: usize = 2;
const GHOST: u16 = 0xffff;
const ON_DISK: u16 = 0xfffe;
const IN_SLOT: u16 = 0xfffd;

/// Slots with the numbers that they are read by.
pub struct Slots<'a> {
    pub size: usize,
    pub slots: usize,
    pub mapped: u64,
    pub map: u64,
    /// The image's length.
    pub image: usize,
    pub tree: &'a [u64],
    pub heads: &'a [u64],
    pub bytes: &'a [u8],
}

/// The slots as they are lent.
pub fn lent(l: &Lends) -> Slots<'_> {
    after(l, &l.tree, &l.heads, &l.bytes)
}

/// The slots as a call left them.
pub fn after<'a>(l: &Lends, tree: &'a [u64], heads: &'a [u64], bytes: &'a [u8]) -> Slots<'a> {
    Slots { size: l.size, slots: l.slots, mapped: l.mapped, map: l.map, image: l.image.len(), tree, heads, bytes }
}

/// The lent sizes that every call looks at, open too.
pub fn sizes_hold(l: &Slots) -> bool {
    let blocks = l.image / l.size.max(1);
    (512..=65_536).contains(&l.size)
        && l.size.is_power_of_two()
        && l.image % l.size == 0
        && (1..=1 << 20).contains(&blocks)
        && (1..=4096).contains(&l.slots)
        && l.heads.len() == WORDS_EACH * l.slots
        && l.bytes.len() == 8 * l.size * l.slots
}

pub fn order(code: u64) -> Option<Order> {
    [Order::Pair, Order::Byte].get(usize::try_from(code).ok()?).copied()
}

/// One record: its key, what it holds, and what follows it.
fn record(bytes: &[u8]) -> Option<(Vec<u8>, Item, &[u8])> {
    let (head, rest) = bytes.split_at_checked(4)?;
    let (key, mark) = (u16::from_le_bytes([head[0], head[1]]), u16::from_le_bytes([head[2], head[3]]));
    let (key, rest) = rest.split_at_checked(key as usize)?;
    let (value, rest) = rest.split_at_checked(match mark {
        GHOST => 0,
        ON_DISK | IN_SLOT => 8,
        n => n as usize,
    })?;
    let number = || u64::from_le_bytes(value.try_into().expect("a child is 8 bytes"));
    let item = match mark {
        GHOST => Item::Value(None),
        ON_DISK => Item::Disk(number()),
        IN_SLOT => Item::Slot(number() as usize),
        _ => Item::Value(Some(value.to_vec())),
    };
    Some((key.to_vec(), item, rest))
}

/// The node of a slot; none where its words or records are none.
fn node(l: &Slots, n: usize) -> Option<Node> {
    let &[level, count, used, placed, block, named, id, dirty, dead] = &l.heads[HEAD * n..][..HEAD] else { return None };
    let marks = placed <= 1 && named <= 1 && dirty <= 1 && dead <= 1;
    if !marks || (placed == 0 && block != 0) || (named == 0 && id != 0) {
        return None;
    }
    let (id, block) = ((named == 1).then_some(id), (placed == 1).then_some(block));
    let mut node = Node { level: 0, keys: Vec::new(), items: Vec::new(), id, block, dirty: dirty == 1, dead: dead == 1 };
    if node.dead {
        return Some(node);
    }
    node.level = u16::try_from(level).ok()?;
    let slot = &l.bytes[4 * l.size * n..][..4 * l.size];
    let mut rest = slot;
    for _ in 0..count {
        let (key, item, after) = record(rest)?;
        node.keys.push(key);
        node.items.push(item);
        rest = after;
    }
    let taken = (slot.len() - rest.len()) as u64;
    (taken == used && used <= 2 * l.size as u64).then_some(node)
}

/// The tree that words and bytes are; none where a number, a word or a record is none.
pub fn tree_of(l: &Slots) -> Option<Tree> {
    let t: &[u64] = l.tree.get(..14)?;
    let small = |i: usize| u32::try_from(t[i]).ok();
    let used = usize::try_from(t[1]).ok()?;
    if !sizes_hold(l) || t[3] != l.size as u64 || (t[10] != 0) != (l.mapped != 0) || used > l.slots {
        return None;
    }
    let (flags, key, value) = (small(2)?, small(4)?, small(5)?);
    let map = (l.mapped != 0).then_some(l.map);
    let nodes = (0..used).map(|n| node(l, n)).collect::<Option<Vec<Node>>>()?;
    Some(Tree {
        place: Place { root: 0, order: order(t[12])?, map, xid: t[13], moved: Vec::new() },
        form: Form { size: l.size, flags, fixed: (key != 0).then_some((key as usize, value as usize)) },
        subtype: t[11] as u32,
        stored_lengths: (key, value),
        longest: (small(6)?, small(7)?),
        key_count: t[8],
        node_count: t[9],
        nodes,
        root: usize::try_from(t[0]).ok()?,
    })
}

/// An entry that 12 accepts, of the kind that its level has.
fn entry_holds(t: &Tree, level: u16, key: &[u8], item: &Item) -> bool {
    let lengths = t.place.order == Order::Byte || key.len() == 16;
    let fixed = t.form.fixed.is_none_or(|(k, _)| key.len() == k);
    lengths && fixed && match item {
        Item::Value(None) => level == 0,
        Item::Value(Some(v)) => level == 0 && t.form.fixed.is_none_or(|(_, n)| v.len() == n),
        Item::Disk(_) => level > 0,
        Item::Slot(c) => level > 0 && t.nodes.get(*c).is_some_and(|m| !m.dead && m.level + 1 == level),
    }
}

fn node_holds(t: &Tree, n: usize) -> bool {
    let m = &t.nodes[n];
    // Pair order is only asked of keys that have its length.
    let rising = || m.keys.windows(2).all(|k| compare(t.place.order)(&k[0], &k[1]) == Ordering::Less);
    let on_disk = || if m.dirty { t.fits(n) } else { m.block.is_some() && (!t.is_virtual() || m.id.is_some()) };
    let entries = || m.keys.iter().zip(&m.items).all(|(k, i)| entry_holds(t, m.level, k, i));
    m.level <= 32 && (m.level == 0 || !m.keys.is_empty()) && entries() && rising() && on_disk()
}

/// Slots that, dead ones aside, hold together.
pub fn holds_together(t: &Tree) -> bool {
    let live = |n: &usize| !t.nodes[*n].dead;
    if t.nodes.get(t.root).is_none_or(|m| m.dead) || !(0..t.nodes.len()).filter(live).all(|n| node_holds(t, n)) {
        return false;
    }
    let mut named = vec![0; t.nodes.len()];
    named[t.root] = 1;
    for n in (0..t.nodes.len()).filter(live) {
        t.nodes[n].items.iter().for_each(|i| if let Item::Slot(c) = i { named[*c] += 1 });
    }
    named.iter().all(|n| *n <= 1)
}
