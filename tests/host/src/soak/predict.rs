//! What document 01 demands of a call on the slots that are lent, by the oracle's reading of it.

use std::panic::{catch_unwind, AssertUnwindSafe};

use apfs::nx::{Chunk, Container};

use crate::lends::{Call, Lends};
use crate::model::{holds_together, lent, order, sizes_hold, tree_of};
use crate::reading::lookups::Entry;
use crate::reading::tree::{self, check, Answer, Tree};
use crate::session::Place;
use crate::words::Value;

/// What an accepted call leaves.
#[derive(Default)]
pub struct After {
    /// None after flush, which ends the tree.
    pub tree: Option<Tree>,
    pub answer: Vec<u64>,
    pub out: Vec<u8>,
    pub flushed: Option<Flushed>,
}

pub struct Flushed {
    pub disk: Container,
    pub freed: Vec<u64>,
    pub removed: Vec<u64>,
    pub moved: Vec<(u64, u64)>,
}

pub enum Demand {
    Refused(u64),
    Accepted(Box<After>),
    /// The reading has no answer to these slots.
    Untold,
}

/// 1, of what every call but open is lent: the tree if it does not apply.
pub fn held(l: &Lends, call: &Call) -> Answer<Tree> {
    let edit = matches!(call, Call::Upsert(..) | Call::Remove(_) | Call::Put(..) | Call::Drop(_));
    check(!edit || Some(l.scratch.len()) == l.slots.checked_mul(2 * l.size).map(|n| n + 2 * l.size), 1)?;
    let answers = !edit || matches!(call, Call::Remove(_));
    check(!answers || l.answer.len() >= 8, 1)?;
    let t = tree_of(&lent(l)).ok_or(1)?;
    check(holds_together(&t), 1)?;
    if matches!(call, Call::Flush(..)) {
        check(chunks_hold(l), 1)?;
    }
    Ok(t)
}

fn chunks_hold(l: &Lends) -> bool {
    let lists = [&l.freed, &l.removed, &l.ids, &l.places].iter().all(|list| list.len() == l.slots);
    lists && l.bitmap.len() == l.counts.len() * l.size && l.free.len() == l.counts.len()
}

fn put_record(out: &mut Vec<u8>, (key, value): &Entry) {
    let mark = value.as_ref().map_or(0xffff, |v| v.len() as u16);
    out.extend([(key.len() as u16).to_le_bytes(), mark.to_le_bytes()].concat());
    out.extend(key);
    out.extend(value.iter().flatten());
}

fn lookup(t: &mut Tree, disk: &Container, slots: usize, call: &Call, room: usize) -> Answer<(Vec<u64>, Vec<u8>)> {
    let mut out = Vec::new();
    let answer = match call {
        Call::Get(key) => match t.get(disk, slots, key)? {
            None => vec![0],
            Some(None) => vec![1],
            Some(Some(v)) => {
                out = v;
                vec![2, out.len() as u64]
            }
        },
        Call::Floor(key) => t.floor(disk, slots, key)?.map_or(vec![0], |e| {
            put_record(&mut out, &e);
            vec![1, out.len() as u64]
        }),
        Call::Range(lo, hi) => {
            t.check_key(lo)?;
            t.check_key(hi)?;
            let found = t.range(disk, slots, lo, Some(hi))?;
            found.iter().for_each(|e| put_record(&mut out, e));
            vec![found.len() as u64, out.len() as u64]
        }
        _ => unreachable!("not a lookup"),
    };
    check(out.len() <= room, 20)?;
    Ok((answer, out))
}

fn edit(t: &mut Tree, disk: &Container, slots: usize, call: &Call) -> Answer<Vec<u64>> {
    match call {
        Call::Upsert(key, ghost, value) => t.upsert(disk, slots, key, &(*ghost == 0).then(|| value.clone()))?,
        Call::Remove(key) => return Ok(vec![t.remove(disk, slots, key)? as u64]),
        Call::Drop(id) => t.drop_id(disk, slots, *id)?,
        Call::Put(id, xid, address, length) => {
            t.drop_id(disk, slots, *id)?;
            let value: Value = Some([(length << 32).to_le_bytes(), address.to_le_bytes()].concat());
            t.upsert(disk, slots, &[id.to_le_bytes(), xid.to_le_bytes()].concat(), &value)?;
        }
        _ => unreachable!("not an edit"),
    }
    Ok(Vec::new())
}

fn flush(mut t: Tree, mut disk: Container, xid: u64, next: u64) -> Answer<After> {
    if !t.is_virtual() {
        // Of a physical tree nothing is removed, whatever its dead slots are named.
        t.nodes.iter_mut().filter(|n| n.dead).for_each(|n| n.id = None);
    }
    let (fill, keys) = (t.root_fill() as u64, t.key_count);
    let done = t.flush(&mut disk, xid, next)?;
    let (wrote, freed, removed, moved) = (done.wrote.len(), done.freed.len(), done.removed.len(), done.moved.len());
    let counted = [wrote, freed, removed, moved].map(|n| n as u64);
    let answer = [&[t.reference(t.root)], &counted[..], &[keys, fill, done.next]].concat();
    let flushed = Flushed { disk, freed: done.freed, removed: done.removed, moved: done.moved };
    Ok(After { answer, flushed: Some(flushed), ..After::default() })
}

fn open(l: &Lends, disk: &Container, root: u64, code: u64, xid: u64) -> Answer<After> {
    check(l.tree.len() >= 14 && sizes_hold(&lent(l)), 1)?;
    let place = Place { root, order: order(code).ok_or(1)?, map: (l.mapped != 0).then_some(l.map), xid, moved: Vec::new() };
    Ok(After { tree: Some(tree::open(disk, place)?), ..After::default() })
}

fn after(l: &Lends, disk: &Container, call: &Call) -> Answer<After> {
    if let Call::Open(root, code, xid) = call {
        return open(l, disk, *root, *code, *xid);
    }
    let mut t = held(l, call)?;
    let mut after = After::default();
    match call {
        Call::Flush(xid, next) => return flush(t, disk.clone(), *xid, *next),
        Call::Get(_) | Call::Floor(_) | Call::Range(..) => (after.answer, after.out) = lookup(&mut t, disk, l.slots, call, l.out.len())?,
        _ => after.answer = edit(&mut t, disk, l.slots, call)?,
    }
    after.tree = Some(t);
    Ok(after)
}

/// The lent image and chunks as the reading takes them.
fn container(l: &Lends) -> Container {
    let mut disk = Container::new(1, 512);
    let bits = |c: usize| l.bitmap.get(c * l.size..(c + 1) * l.size).unwrap_or(&[]).to_vec();
    let chunk = |(c, blocks): (usize, &u32)| Chunk { bits: bits(c), blocks: *blocks, free: l.free.get(c).copied().unwrap_or(0) };
    // Sizes that are none are refused before the disk is looked at.
    disk.chunks = if l.size <= 65_536 { l.counts.iter().enumerate().map(chunk).collect() } else { Vec::new() };
    disk.size = l.size.max(1);
    disk.image = l.image.clone();
    disk
}

pub fn demand(l: &Lends, call: &Call) -> Demand {
    match catch_unwind(AssertUnwindSafe(|| after(l, &container(l), call))) {
        Ok(Ok(after)) => Demand::Accepted(Box::new(after)),
        Ok(Err(r)) => Demand::Refused(r as u64),
        Err(_) => Demand::Untold,
    }
}
