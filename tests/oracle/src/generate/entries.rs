//! Keys that collide and neighbour, and values of all lengths.

use super::plan::Plan;
use crate::random::Random;
use crate::strict::{compare, u64_at};
use crate::words::{Key, Order, Value};

fn pair(a: u64, b: u64) -> Key {
    let mut k = a.to_le_bytes().to_vec();
    k.extend(b.to_le_bytes());
    k
}

fn edge(r: &mut Random) -> u64 {
    *r.pick(&[0, 1, 255, 256, (1 << 32) - 1, 1 << 32, u64::MAX - 1])
}

fn pair_key(r: &mut Random, keys: u64) -> Key {
    if r.chance(4) {
        return pair(edge(r), edge(r));
    }
    // Few ids with several transactions each: versions stand side by side.
    let id = 1 + r.below(keys.div_ceil(3).max(1)) * if r.chance(80) { 1 } else { 256 };
    pair(id, 1 + r.below(4))
}

fn fixed_key(r: &mut Random, keys: u64, length: usize) -> Key {
    let mut k = r.below(keys).to_be_bytes().to_vec();
    k.reverse();
    k.resize(length.max(8), 0);
    k.truncate(length);
    k.reverse();
    k
}

fn variable_key(r: &mut Random, p: &Plan) -> Key {
    let n = r.below(p.keys);
    // The same number always gives the same key; prefixes of each other are common.
    let mut own = Random::new(n / 2);
    let length = 1 + own.length(p.longest_key.max(2) - 1);
    let mut k: Key = vec![0x61; p.alike];
    k.extend((0..length).map(|_| *own.pick(&[0, 1, 0x61, 0x62, 0xff])));
    match (n % 2, r.below(40)) {
        (1, _) => k.push(0),
        (_, 0) => k.truncate(1),
        (_, 1) => k.clear(),
        _ => {}
    }
    k
}

pub fn key(r: &mut Random, p: &Plan) -> Key {
    match (p.order, p.fixed) {
        (Order::Pair, _) => pair_key(r, p.keys),
        (Order::Byte, Some((length, _))) => fixed_key(r, p.keys, length),
        (Order::Byte, None) => variable_key(r, p),
    }
}

/// A key to look up: mostly one that an edit could have put, at times one beside it or of another length.
pub fn wanted(r: &mut Random, p: &Plan) -> Key {
    let mut k = key(r, p);
    match (p.order, r.below(12)) {
        (Order::Byte, 0) => k.push(*r.pick(&[0, 0x61, 0xff])),
        (Order::Byte, 1) => {
            k.pop();
        }
        (Order::Pair, 0) => k[8..].copy_from_slice(&u64::MAX.to_le_bytes()),
        (Order::Pair, 1) => k[8..].copy_from_slice(&0u64.to_le_bytes()),
        _ => {}
    }
    k
}

/// The least key above another of the tree, or the least of all.
pub fn just_above(p: &Plan, before: Option<&Key>) -> Option<Key> {
    match (p.order, p.fixed, before) {
        (Order::Pair, _, None) => Some(vec![0; 16]),
        (Order::Pair, _, Some(k)) => Some(pair(u64_at(k, 0), u64_at(k, 8).checked_add(1)?)),
        (Order::Byte, Some((length, _)), None) => Some(vec![0; length]),
        (Order::Byte, None, None) => Some(Vec::new()),
        (Order::Byte, None, Some(k)) => Some([k.as_slice(), &[0]].concat()),
        (Order::Byte, Some(_), Some(k)) => {
            let kept = k.iter().rposition(|&x| x != 255)?;
            let mut next = k.clone();
            next[kept] += 1;
            next[kept + 1..].fill(0);
            Some(next)
        }
    }
}

pub fn value(r: &mut Random, p: &Plan) -> Value {
    if r.chance(6) {
        return None;
    }
    if let Some((_, v)) = p.fixed {
        return Some(r.bytes(v));
    }
    let length = match r.below(30) {
        0 => 0,
        1 => p.size / 2 + r.length(p.size / 2),
        2 => p.size - 100 + r.length(200),
        _ => r.length(p.longest_value),
    };
    Some(r.bytes(length))
}

/// Rising entries for a tree to begin with, none too long for a leaf of another writer.
pub fn rising(r: &mut Random, p: &Plan) -> Vec<(Key, Value)> {
    let cmp = compare(p.order);
    let mut list: Vec<(Key, Value)> = Vec::new();
    for _ in 0..p.entries {
        let k = key(r, p);
        let v = value(r, p).map(|mut v| {
            if p.fixed.is_none() {
                v.truncate(p.size / 3);
            }
            v
        });
        list.push((k, v));
    }
    list.sort_by(|a, b| cmp(&a.0, &b.0));
    list.dedup_by(|a, b| a.0 == b.0);
    list
}
