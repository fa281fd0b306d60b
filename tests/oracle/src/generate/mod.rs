//! Scripts from a seed. Every line is run by the oracle as it is made, since what comes next depends on
//! the answer: the root that flush gives, the ids that moved, whether the disk is full.

mod calls;
mod damage;
mod engine;
mod entries;
mod laid_out;
mod layout;
mod mapping;
pub mod plan;
mod writer;

use crate::random::Random;
use crate::words::Order;
use plan::{Plan, Shape};
use writer::{refused, Stop, Writer};

/// The tree that the script works on, between rounds.
struct Subject {
    root: u64,
    map: Option<u64>,
    /// Addresses where nodes of it have stood.
    addresses: Vec<u64>,
    /// Addresses of the nodes of a map that was laid out, or the map's root.
    map_addresses: Vec<u64>,
}

const ROOT_ID: u64 = 1000;

/// The lines of the script that the seed and the options give, a comment with both first.
pub fn script(seed: u64, options: &[&str]) -> Result<Vec<String>, String> {
    made(seed, options).map(|w| w.lines)
}

/// The same with what was left out on the way.
pub fn made(seed: u64, options: &[&str]) -> Result<Writer, String> {
    let mut random = Random::new(seed);
    let plan = Plan::new(&mut random, options)?;
    let mut w = Writer::new(random, plan);
    let given: String = options.iter().map(|o| format!(" {o}")).collect();
    w.lines.push(format!("; oracle generate {seed}{given}"));
    w.answers.push(String::new());
    // A script that cannot go on ends there; what it has is still a script.
    let _ = whole(&mut w);
    Ok(w)
}

fn whole(w: &mut Writer) -> Result<(), Stop> {
    w.need(format!("(image {} {})", w.plan.blocks, w.plan.size))?;
    w.need(format!("(slots {})", w.plan.slots))?;
    let mut tree = plant(w)?;
    if w.plan.shape == Shape::Full {
        fill_disk(w)?;
    }
    for _ in 0..w.plan.rounds {
        round(w, &mut tree)?;
    }
    Ok(())
}

/// The first tree: empty, or laid out; with its map where it is virtual.
fn plant(w: &mut Writer) -> Result<Subject, Stop> {
    let laid_out = matches!(w.plan.shape, Shape::Layout | Shape::Damage) || w.random.chance(20);
    let nodes = if laid_out {
        laid_out::plant(w, ROOT_ID, false)?
    } else {
        empty(w)?
    };
    let addresses = nodes.nodes.iter().map(|n| n.1).collect();
    if !w.plan.is_virtual {
        return Ok(Subject { root: nodes.root, map: None, addresses, map_addresses: Vec::new() });
    }
    if let Some(others) = w.plan.map_entries {
        let (map, map_addresses) = mapping::laid_out(w, &nodes.nodes, others)?;
        return Ok(Subject { root: nodes.root, map: Some(map), addresses, map_addresses });
    }
    let map = mapping::begin(w, 0)?;
    let moved: Vec<u64> = nodes.nodes.iter().flat_map(|n| [n.0, n.1]).collect();
    let map = mapping::update(w, map, &[], &moved)?;
    Ok(Subject { root: nodes.root, map: Some(map), addresses, map_addresses: vec![map] })
}

fn empty(w: &mut Writer) -> Result<laid_out::LaidOut, Stop> {
    let p = &w.plan;
    let addr = 1 + w.random.below(p.blocks - 1);
    let (storage, root) = if p.is_virtual { ("virtual", ROOT_ID) } else { ("physical", addr) };
    let (key, value) = p.fixed.unwrap_or((0, 0));
    let (flags, subtype) = (p.flags, p.subtype);
    w.need(format!("(empty {addr} {storage} {ROOT_ID} 3 {subtype} {flags} {key} {value})"))?;
    Ok(laid_out::LaidOut { root, nodes: vec![(root, addr)] })
}

/// Leaves few blocks, in odd places, with counts that say less or more than the bits.
fn fill_disk(w: &mut Writer) -> Result<(), Stop> {
    let per_chunk = 8 * w.plan.size as u64;
    let blocks = w.plan.blocks;
    for _ in 0..3 {
        let from = w.random.below(blocks);
        let count = w.random.below((blocks - from).min(per_chunk));
        w.need(format!("(mark {from} {count})"))?;
    }
    if blocks > per_chunk {
        let left = 1 + w.random.below(9);
        w.need(format!("(mark 0 {})", per_chunk - left))?;
    }
    for chunk in 0..blocks.div_ceil(per_chunk) {
        let there = (blocks - chunk * per_chunk).min(per_chunk);
        if w.random.chance(40) {
            let counted = if w.random.chance(50) { there } else { w.random.below(there + 1) };
            let free = *w.random.pick(&[0, 1, 3, 7, 20, there, there + 5]);
            let too_many = if w.plan.whole_ground && w.random.chance(10) { 4096 } else { 0 };
            w.need(format!("(count {chunk} {} {free})", counted + too_many))?;
        }
    }
    Ok(())
}

fn open_line(w: &Writer, tree: &Subject) -> String {
    let order = if w.plan.order == Order::Pair { "pair" } else { "byte" };
    format!("(open {} {order} {})", tree.root, w.xid)
}

/// Opens, calls, flushes, keeps the map up.
fn round(w: &mut Writer, tree: &mut Subject) -> Result<(), Stop> {
    let open = open_line(w, tree);
    if w.plan.shape == Shape::Damage && w.random.chance(50) {
        damage::some(w, &tree.addresses.clone(), &open)?;
    }
    if w.plan.map_damage && w.random.chance(40) {
        damage::some(w, &tree.map_addresses.clone(), &open)?;
    }
    odd_open(w, tree)?;
    w.need(open.clone())?;
    if w.random.chance(10) {
        // What these calls do is given up by opening again.
        calls::some(w, 5)?;
        w.need(open)?;
    }
    let calls = w.plan.calls;
    calls::some(w, calls)?;
    if w.random.chance(10) {
        walk(w)?;
    }
    let mut flushed = calls::flush(w)?;
    if flushed.is_none() {
        calls::some(w, 3)?;
        flushed = calls::flush(w)?;
    }
    let Some(flushed) = flushed else { return walk(w) };
    if w.random.chance(50) {
        walk(w)?;
    }
    tree.root = flushed.root;
    tree.addresses.extend(w.engine.written());
    if let Some(map) = tree.map {
        let map = mapping::update(w, map, &flushed.removed, &flushed.moved)?;
        tree.map = Some(map);
        tree.map_addresses.push(map);
        encrypt(w, tree, &flushed.moved)?;
    }
    Ok(())
}

fn walk(w: &mut Writer) -> Result<(), Stop> {
    w.say("(walk)".into()).map(|_| ())
}

/// An open that both refuse: an address past the image, an id that has no mapping, a block of zeros.
fn odd_open(w: &mut Writer, tree: &Subject) -> Result<(), Stop> {
    if !w.random.chance(10) {
        return Ok(());
    }
    let root = if tree.map.is_some() { 77 } else { w.plan.blocks + w.random.below(3) };
    let order = if w.plan.order == Order::Pair { "pair" } else { "byte" };
    let answer = w.say(format!("(open {root} {order} {})", w.xid))?;
    debug_assert!(answer.is_none_or(|a| refused(&a)));
    Ok(())
}

/// At times a mapping becomes encrypted or a ghost: loads of that node are refused from then on.
fn encrypt(w: &mut Writer, tree: &mut Subject, moved: &[u64]) -> Result<(), Stop> {
    if w.plan.shape != Shape::Damage || moved.len() < 4 || !w.random.chance(40) {
        return Ok(());
    }
    let id = moved[0];
    let Some(map) = tree.map else { return Ok(()) };
    w.need("(map -)".into())?;
    w.need(format!("(open {map} pair {})", w.xid))?;
    let line = damage::mapping(w, id, w.xid);
    w.say(line)?;
    let next = w.next;
    let flushed = calls::flush(w)?.ok_or(Stop)?;
    w.next = next;
    tree.map = Some(flushed.root);
    w.need(format!("(map {})", flushed.root))?;
    Ok(())
}
