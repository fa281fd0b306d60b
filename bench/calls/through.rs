// The same calls through the safe crate (rust/moachest), as a dock makes them: values come back in vectors of their own.
use crate::tree::{Kind, Theirs, Trees, SIZE};
use crate::{say, timed, turns, Both, PASSES};
use moachest::{Options, Order, Reader, Tree};
use std::hint::black_box;

fn opened(t: &Trees, rd: &Reader, slots: usize) -> Tree {
    let order = if t.kind == Kind::Fixed { Order::Pair } else { Order::Byte };
    let mut tree = Tree::open_with(rd, t.root, order, Options { slots, most_slots: 4096, checked: false }).unwrap();
    tree.range(rd, &t.kind.least(), &t.kind.greatest()).unwrap();
    tree
}

fn lookups(t: &Trees, rd: &Reader, a: &mut Theirs, b: &mut Tree) {
    let keys = &t.sample;
    for k in keys {
        assert_eq!(a.get(&t.disk, k), b.get(rd, k).unwrap().flatten(), "get differs");
        assert_eq!(a.floor(&t.disk, k), b.floor(rd, k).unwrap(), "floor differs");
    }
    say("crate: get", keys.len(), turns(PASSES, || timed(|| keys.iter().for_each(|k| drop(black_box(a.get(&t.disk, k))))), || {
        timed(|| keys.iter().for_each(|k| drop(black_box(b.get(rd, k).unwrap()))))
    }));
    say("crate: floor", keys.len(), turns(PASSES, || timed(|| keys.iter().for_each(|k| drop(black_box(a.floor(&t.disk, k))))), || {
        timed(|| keys.iter().for_each(|k| drop(black_box(b.floor(rd, k).unwrap()))))
    }));
}

fn edits(t: &Trees, rd: &Reader, a: &mut Theirs, b: &mut Tree) {
    let (keys, value) = (&t.sample, t.kind.value(7));
    say("crate: upsert, there", keys.len(), turns(PASSES / 3, || timed(|| keys.iter().for_each(|k| a.upsert(&t.disk, k, &value))), || {
        timed(|| keys.iter().for_each(|k| b.upsert(rd, k, Some(&value)).unwrap()))
    }));
    let (mut put, mut gone) = (Both::default(), Both::default());
    for _ in 0..PASSES {
        put.0.push(timed(|| t.new.iter().for_each(|k| a.upsert(&t.disk, k, &value))));
        put.1.push(timed(|| t.new.iter().for_each(|k| b.upsert(rd, k, Some(&value)).unwrap())));
        gone.0.push(timed(|| t.new.iter().for_each(|k| a.remove(&t.disk, k))));
        gone.1.push(timed(|| t.new.iter().for_each(|k| assert!(b.remove(rd, k).unwrap()))));
    }
    say("crate: upsert, new", t.new.len(), put);
    say("crate: remove", t.new.len(), gone);
    if t.kind == Kind::Fixed {
        let ids: Vec<u64> = keys.iter().map(|k| u64::from_le_bytes(k[..8].try_into().unwrap())).collect();
        say("crate: omap_put", ids.len(), turns(PASSES / 3, || timed(|| ids.iter().for_each(|&id| a.put(&t.disk, id, 9, 77))), || {
            timed(|| ids.iter().for_each(|&id| b.omap_put(rd, id, 9, 77, SIZE as u32).unwrap()))
        }));
    }
    assert_eq!(a.counts(), (b.keys(), b.nodes()), "counts differ");
}

pub fn run(t: &Trees, slots: usize) {
    let rd = Reader::physical(&t.disk.image, SIZE);
    let mut b = opened(t, &rd, slots);
    let mut a = Theirs::open(&t.disk, t.root, t.kind);
    a.load(&t.disk, t.kind);
    lookups(t, &rd, &mut a, &mut b);
    edits(t, &rd, &mut a, &mut b);
}

// A tree opened, changed in so many places, flushed and dropped, as a transaction of a dock does it; the crate finds its slots by itself.
pub fn flushes(t: &mut Trees, dirty: usize) {
    let value = t.kind.value(9);
    let order = if t.kind == Kind::Fixed { Order::Pair } else { Order::Byte };
    let (mut opens, mut took, mut nodes) = (Both::default(), Both::default(), 0);
    for _ in 0..PASSES / 2 {
        let (mut theirs, mut ours) = (None, None);
        opens.0.push(timed(|| theirs = Some(Theirs::open(&t.disk, t.root, t.kind))));
        opens.1.push(timed(|| ours = Some(Tree::open(&Reader::physical(&t.disk.image, SIZE), t.root, order).unwrap())));
        let (mut theirs, mut ours) = (theirs.unwrap(), ours.unwrap());
        for k in t.spread(dirty) {
            theirs.upsert(&t.disk, &k, &value);
            ours.upsert(&Reader::physical(&t.disk.image, SIZE), &k, Some(&value)).unwrap();
        }
        let (time, writes, freed) = theirs.flush(&t.disk);
        took.0.push(time);
        let mut space = crate::tree::crate_space(&t.disk);
        let mut done = None;
        took.1.push(timed(|| done = Some(ours.flush(&mut t.disk.image, &mut space, 6, &mut 0).unwrap())));
        let done = done.unwrap();
        assert_eq!((done.allocated, done.freed), (writes.len() as u64, freed), "flush differs");
        nodes = writes.len();
    }
    say("crate: open", 1, opens);
    say(&format!("crate: flush of {nodes}"), nodes, took);
}
