//! Lookups and edits on the open tree, and the flush that ends it.

use super::entries;
use super::plan::Shape;
use super::writer::{numbers, refused, Stop, Writer};
use crate::words::{hex, hex_or_ghost, Order};

/// What a flush answered.
pub struct Flushed {
    pub root: u64,
    pub removed: Vec<u64>,
    pub moved: Vec<u64>,
}

fn lookup(w: &mut Writer) -> Result<(), Stop> {
    let (r, p) = (&mut w.random, &w.plan);
    let line = match r.below(8) {
        0..=2 => format!("(get {})", hex(&entries::wanted(r, p))),
        3..=5 => format!("(floor {})", hex(&entries::wanted(r, p))),
        6 => {
            let (a, b) = (entries::wanted(r, p), entries::wanted(r, p));
            format!("(range {} {})", hex(&a), hex(&b))
        }
        _ => {
            // A range around one key.
            let a = entries::wanted(r, p);
            let mut b = a.clone();
            let last = if p.order == Order::Pair { 8 } else { b.len().saturating_sub(1) };
            b.get_mut(last).map(|x| *x = x.saturating_add(2));
            format!("(range {} {})", hex(&a), hex(&b))
        }
    };
    w.say(line).map(|_| ())
}

fn edit(w: &mut Writer) -> Result<(), Stop> {
    let (r, p) = (&mut w.random, &w.plan);
    let line = match r.below(10) {
        0..=6 => format!("(upsert {} {})", hex(&entries::key(r, p)), hex_or_ghost(&entries::value(r, p))),
        _ => format!("(remove {})", hex(&entries::wanted(r, p))),
    };
    w.say(line).map(|_| ())
}

fn map_edit(w: &mut Writer) -> Result<(), Stop> {
    let r = &mut w.random;
    let id = 1 + r.below(w.plan.keys.div_ceil(3).max(1));
    let line = if r.chance(75) { format!("(put {id} {} {})", 1 + r.below(9), r.below(1 << 20)) } else { format!("(drop {id})") };
    w.say(line).map(|_| ())
}

/// Takes out a run of neighbouring keys, so that nodes empty and the root's place goes down.
fn clear_run(w: &mut Writer) -> Result<(), Stop> {
    let (lo, hi) = (lowest(w), entries::key(&mut w.random, &w.plan));
    // Asked of a copy: the script itself does not look.
    let listing = w.engine.clone().run(&format!("(range {} {})", hex(&lo), hex(&hi)));
    if refused(&listing) {
        return Ok(());
    }
    let keys: Vec<String> = listing.trim_end_matches(')').split(' ').skip(3).step_by(2).map(String::from).collect();
    let from = w.random.length(keys.len());
    let count = 1 + w.random.length(30);
    for k in keys.into_iter().skip(from).take(count) {
        w.say(format!("(remove {k})"))?;
    }
    Ok(())
}

fn lowest(w: &Writer) -> Vec<u8> {
    if w.plan.order == Order::Pair {
        vec![0; 16]
    } else {
        Vec::new()
    }
}

/// Set-up lines while a tree is open: image, bitmap and map change, loaded nodes do not.
fn beside_the_tree(w: &mut Writer) -> Result<(), Stop> {
    let blocks = w.plan.blocks;
    match (w.engine.map(), w.random.below(3)) {
        (Some(map), 0) => {
            w.say("(map -)".into())?;
            edit(w)?;
            w.say(format!("(map {map})"))?;
        }
        (_, 1) if w.plan.shape == Shape::Damage => {
            // The sum is wrong from now on: whoever loads this block refuses it, and so does a walk.
            let addr = 1 + w.random.below(blocks - 1);
            w.say(format!("(block {addr} x0102030405060708)"))?;
        }
        _ => {
            let from = w.random.below(blocks);
            let count = w.random.below(4).min(blocks - from);
            w.say(format!("(mark {from} {count})"))?;
        }
    }
    Ok(())
}

/// A line outside the language, or a call that is refused for its lengths or goes to the last id.
fn odd_line(w: &mut Writer) -> Result<(), Stop> {
    let last = u64::MAX - w.random.below(2);
    let line = match w.random.below(12) {
        8 => format!("(put {last} {} 7)", w.random.below(3)),
        9 => format!("(drop {last})"),
        10 => format!("(upsert {} x0102030405)", hex(&entries::key(&mut w.random, &w.plan))),
        11 => format!("(range {} {})", hex(&w.random.bytes(17)), hex(&w.random.bytes(16))),
        5 => format!("(get {})", hex(&w.random.bytes(3))),
        6 => format!("(remove {})", hex(&w.random.bytes(15))),
        7 => format!("(upsert {} x)", hex(&w.random.bytes(9))),
        0 => "(get)".into(),
        1 => "(upsert x0g x)".into(),
        2 => format!("(slots {})", 4097 + w.random.below(9)),
        3 => format!("(seal {})", w.plan.blocks),
        _ => "; a comment".into(),
    };
    w.say(line).map(|_| ())
}

/// Some calls on the tree that is open.
pub fn some(w: &mut Writer, count: u64) -> Result<(), Stop> {
    let is_map = w.plan.order == Order::Pair && w.plan.fixed == Some((16, 16));
    let heavy = w.random.chance(30);
    for _ in 0..count {
        match w.random.below(100) {
            0..=29 => lookup(w)?,
            30 => odd_line(w)?,
            31 => beside_the_tree(w)?,
            32..=34 if heavy => clear_run(w)?,
            35..=54 if is_map => map_edit(w)?,
            _ => edit(w)?,
        }
    }
    Ok(())
}

/// Flushes; a refused flush (no blocks) leaves the tree open and gives none.
pub fn flush(w: &mut Writer) -> Result<Option<Flushed>, Stop> {
    let line = format!("(flush {} {})", w.xid, w.next);
    let Some(answer) = w.say(line)? else { return Err(Stop) };
    if refused(&answer) {
        return Ok(None);
    }
    let head = numbers(&answer, "flush");
    w.next = head[6];
    w.xid += 1;
    Ok(Some(Flushed { root: head[1], removed: numbers(&answer, "removed"), moved: numbers(&answer, "moved") }))
}
