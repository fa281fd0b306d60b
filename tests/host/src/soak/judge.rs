//! Holds what a call left against what it was lent and what document 01 demands.

use crate::lends::{Call, Guards, Left, Lends};
use crate::model::{self, lent, sizes_hold, tree_of, DEAD, HEAD, USED};
use crate::predict::{After, Demand, Flushed};
use crate::reading::node::{Item, Node};
use crate::reading::tree::Tree;

type Verdict = Result<(), String>;

fn check(holds: bool, why: &str) -> Verdict {
    holds.then_some(()).ok_or_else(|| why.to_string())
}

/// The words and bytes of slots in use that belong to a node; the rest is unused (docs/FORMAT.md).
fn slots_are_kept(l: &Lends, left: &Left) -> bool {
    if !sizes_hold(&lent(l)) || l.tree.len() < 14 {
        return l.heads == *left.heads && l.bytes == *left.bytes;
    }
    let used = usize::try_from(l.tree[1]).unwrap_or(usize::MAX).min(l.slots);
    (0..used).all(|n| {
        let (before, after) = (&l.heads[HEAD * n..][..HEAD], &left.heads[HEAD * n..][..HEAD]);
        let dead = before[DEAD] == 1;
        let words = (0..HEAD).all(|w| before[w] == after[w] || dead && (w == 1 || w == USED));
        let long = if dead { 0 } else { usize::try_from(before[USED]).unwrap_or(usize::MAX).min(4 * l.size) };
        let at = 4 * l.size * n;
        words && l.bytes[at..at + long] == left.bytes[at..at + long]
    })
}

/// What no call changes, and what only flush does.
fn lent_is_kept(l: &Lends, left: &Left, call: &Call) -> Verdict {
    let words: Vec<u8> = match call {
        Call::Get(k) | Call::Floor(k) | Call::Remove(k) => k.clone(),
        Call::Range(a, b) | Call::Upsert(a, _, b) => [&a[..], b].concat(),
        _ => Vec::new(),
    };
    check(words == [&*left.words[0], &*left.words[1]].concat(), "an argument is changed")?;
    check(l.counts == *left.counts, "block counts are changed")?;
    let flushed = matches!(call, Call::Flush(..)) && left.number == 0;
    check(flushed || l.image == *left.image, "the image is changed")?;
    check(flushed || l.bitmap == *left.bitmap && l.free == *left.free, "the bitmap is changed")?;
    let lists = l.freed == *left.freed && l.removed == *left.removed && l.ids == *left.ids && l.places == *left.places;
    check(flushed || lists, "a list is changed")?;
    check(!matches!(call, Call::Flush(..)) || l.tree == *left.tree && l.bytes == *left.bytes, "flush changes what it only reads")
}

fn refused(l: &Lends, left: &Left, call: &Call) -> Verdict {
    check(l.tree == *left.tree, "a refused call changes the tree")?;
    check(l.out == *left.out && l.answer == *left.answer, "a refused call answers")?;
    // To open, all slots are unused.
    let is_open = matches!(call, Call::Open(..));
    check(is_open && sizes_hold(&lent(l)) || slots_are_kept(l, left), "a refused call changes slots in use")
}

fn same_item(a: &Item, b: &Item) -> bool {
    match (a, b) {
        (Item::Value(v), Item::Value(w)) => v == w,
        (Item::Disk(x), Item::Disk(y)) => x == y,
        (Item::Slot(x), Item::Slot(y)) => x == y,
        _ => false,
    }
}

fn same_node(a: &Node, b: &Node) -> bool {
    let place = a.dead == b.dead && a.block == b.block && a.id == b.id;
    let items = || a.items.len() == b.items.len() && a.items.iter().zip(&b.items).all(|(x, y)| same_item(x, y));
    place && (a.dead || a.level == b.level && a.dirty == b.dirty && a.keys == b.keys && items())
}

fn same_tree(wanted: &Tree, found: &Tree) -> Verdict {
    check(wanted.root == found.root, "another root")?;
    check((wanted.key_count, wanted.node_count) == (found.key_count, found.node_count), "other counts")?;
    let form = (wanted.form.flags, wanted.form.fixed, wanted.subtype, wanted.stored_lengths, wanted.longest);
    check(form == (found.form.flags, found.form.fixed, found.subtype, found.stored_lengths, found.longest), "other lengths")?;
    check(wanted.place.order == found.place.order && wanted.place.xid == found.place.xid, "another order or transaction")?;
    check(wanted.nodes.len() == found.nodes.len(), "another number of slots in use")?;
    check(wanted.nodes.iter().zip(&found.nodes).all(|(a, b)| same_node(a, b)), "other nodes")
}

fn is_list(wanted: &[u64], before: &[u64], after: &[u64]) -> bool {
    let n = wanted.len();
    n <= after.len() && wanted == &after[..n] && before[n..] == after[n..]
}

fn flushed(l: &Lends, left: &Left, f: &Flushed) -> Verdict {
    check(f.disk.image == *left.image, "another image")?;
    let bits: Vec<u8> = f.disk.chunks.iter().flat_map(|c| c.bits.iter().copied()).collect();
    check(bits == *left.bitmap && f.disk.chunks.iter().map(|c| c.free).eq(left.free.iter().copied()), "another bitmap")?;
    let (ids, places): (Vec<u64>, Vec<u64>) = f.moved.iter().copied().unzip();
    check(is_list(&f.freed, &l.freed, left.freed) && is_list(&f.removed, &l.removed, left.removed), "another list")?;
    check(is_list(&ids, &l.ids, left.ids) && is_list(&places, &l.places, left.places), "another list of moves")
}

fn accepted(l: &Lends, left: &Left, after: &After) -> Verdict {
    let n = after.answer.len();
    check(left.answer.len() >= n && after.answer == left.answer[..n] && l.answer[n..] == left.answer[n..], "another answer")?;
    let n = after.out.len();
    check(left.out.len() >= n && after.out == left.out[..n] && l.out[n..] == left.out[n..], "another output")?;
    if let Some(f) = &after.flushed {
        return flushed(l, left, f);
    }
    check(l.tree[14..] == left.tree[14..], "words past the tree are changed")?;
    let found = tree_of(&model::after(l, left.tree, left.heads, left.bytes)).ok_or("it leaves slots that are none")?;
    after.tree.as_ref().map_or(Ok(()), |wanted| same_tree(wanted, &found))
}

/// Nothing wrong, or what is.
pub fn judge(l: &Lends, left: &Left, call: &Call, demand: &Demand, guards: &mut Guards) -> Verdict {
    check(left.number <= 20, "a number above 20")?;
    check(guards.are_kept(), "bytes beside a slice are changed")?;
    lent_is_kept(l, left, call)?;
    match demand {
        Demand::Refused(r) if left.number != *r => return Err(format!("demanded {r}, answered {}", left.number)),
        Demand::Accepted(_) if left.number != 0 => return Err(format!("demanded 0, answered {}", left.number)),
        _ => {}
    }
    match demand {
        Demand::Accepted(after) => accepted(l, left, after),
        _ if left.number != 0 => refused(l, left, call),
        _ => Ok(()),
    }
}
