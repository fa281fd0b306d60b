//! Random calls, answered as `BTreeMap` answers them, through flushes and new opens: physical and virtual trees, both orders, trusted and checked.

mod common;

use std::collections::BTreeMap;
use std::ops::Bound::{Excluded, Included, Unbounded};

use common::{Disk, Random};
use moachest::{omap_key, Options, Order, Tree};

/// A key as the model compares it: pairs as two numbers, bytes as they are.
#[derive(Clone, Debug, PartialEq, Eq, PartialOrd, Ord)]
enum Key {
    Pair(u64, u64),
    Bytes(Vec<u8>),
}

impl Key {
    fn of(order: Order, bytes: &[u8]) -> Key {
        let number = |at: usize| u64::from_le_bytes(bytes[at..at + 8].try_into().unwrap());
        match order {
            Order::Pair => Key::Pair(number(0), number(8)),
            Order::Byte => Key::Bytes(bytes.to_vec()),
        }
    }

    fn bytes(&self) -> Vec<u8> {
        match self {
            Key::Pair(id, xid) => omap_key(*id, *xid),
            Key::Bytes(bytes) => bytes.clone(),
        }
    }
}

type Model = BTreeMap<Key, Option<Vec<u8>>>;

struct Run {
    random: Random,
    disk: Disk,
    fixed: Option<(u32, u32)>,
    model: Model,
}

impl Run {
    fn key(&mut self) -> Key {
        let random = &mut self.random;
        match (self.disk.order, self.fixed) {
            (Order::Pair, _) => Key::Pair(random.below(60), random.below(3)),
            (Order::Byte, Some((key, _))) => Key::Bytes(random.bytes(u64::from(key))),
            (Order::Byte, None) => {
                let length = random.below(12);
                Key::Bytes(random.bytes(length))
            }
        }
    }

    fn value(&mut self) -> Option<Vec<u8>> {
        if self.random.below(8) == 0 {
            return None;
        }
        let length = self.fixed.map_or_else(|| self.random.below(40), |(_, value)| u64::from(value));
        Some(self.random.bytes(length))
    }

    fn edit(&mut self, tree: &mut Tree) {
        let key = self.key();
        match self.random.below(10) {
            0..=4 => {
                let value = self.value();
                tree.upsert(&self.disk.reader(), key.bytes(), value.as_deref()).unwrap();
                self.model.insert(key, value);
            }
            5..=7 => {
                let there = tree.remove(&self.disk.reader(), &key.bytes()).unwrap();
                assert_eq!(there, self.model.remove(&key).is_some());
            }
            which => self.edit_map(tree, key, which == 8),
        }
        assert_eq!(tree.keys(), self.model.len() as u64);
    }

    /// omap_put and omap_drop, of trees that are object maps.
    fn edit_map(&mut self, tree: &mut Tree, key: Key, puts: bool) {
        let (Key::Pair(id, xid), Some((16, 16))) = (&key, self.fixed) else { return };
        self.model.retain(|k, _| !matches!(k, Key::Pair(other, _) if other == id));
        if !puts {
            return tree.omap_drop(&self.disk.reader(), *id).unwrap();
        }
        let address = self.random.next();
        tree.omap_put(&self.disk.reader(), *id, *xid, address, 512).unwrap();
        let value = [&0u32.to_le_bytes()[..], &512u32.to_le_bytes(), &address.to_le_bytes()].concat();
        self.model.insert(key.clone(), Some(value));
    }

    /// Calls that are refused leave no trace: what follows is answered as before.
    fn refused(&mut self, tree: &mut Tree) {
        let key = self.key().bytes();
        let (keys, nodes, used) = (tree.keys(), tree.nodes(), tree.used());
        let rd = self.disk.reader();
        assert!(tree.upsert(&rd, &key, Some(&[7; 400])).is_err());
        assert!(tree.upsert(&rd, [7; 450], None).is_err());
        assert_eq!((tree.keys(), tree.nodes(), tree.used()), (keys, nodes, used));
    }

    fn look(&mut self, tree: &mut Tree) {
        let (key, other, order) = (self.key(), self.key(), self.disk.order);
        let rd = self.disk.reader();
        assert_eq!(tree.get(&rd, &key.bytes()).unwrap(), self.model.get(&key).cloned());
        let floor = tree.floor(&rd, &key.bytes()).unwrap().map(|(k, v)| (Key::of(order, &k), v));
        let wanted = self.model.range((Unbounded, Included(&key))).next_back();
        assert_eq!(floor, wanted.map(|(k, v)| (k.clone(), v.clone())));
        let range = tree.range(&rd, &key.bytes(), &other.bytes()).unwrap();
        let range: Vec<_> = range.into_iter().map(|(k, v)| (Key::of(order, &k), v)).collect();
        let wanted: Vec<_> = match key < other {
            true => self.model.range((Included(&key), Excluded(&other))).map(|(k, v)| (k.clone(), v.clone())).collect(),
            false => Vec::new(),
        };
        assert_eq!(range, wanted);
    }

    fn run(mut self, rounds: usize) {
        for _ in 0..rounds {
            let mut tree = self.disk.open().unwrap();
            for _ in 0..60 {
                self.edit(&mut tree);
                self.look(&mut tree);
                self.refused(&mut tree);
            }
            self.disk.commit(tree);
            let mut tree = self.disk.open().unwrap();
            let all: Model = tree.entries(&self.disk.reader()).unwrap().into_iter().map(|(k, v)| (Key::of(self.disk.order, &k), v)).collect();
            assert_eq!(all, self.model);
            assert_eq!((tree.used() as u64, tree.keys()), (tree.nodes(), all.len() as u64));
        }
    }
}

fn runs(order: Order, fixed: Option<(u32, u32)>, is_virtual: bool, seed: u64) {
    for checked in [false, true] {
        for slots in [4, 64] {
            let make = if is_virtual { Disk::mapped } else { Disk::physical };
            let mut disk = make(600, 512, order, fixed);
            disk.options = Options { slots, most_slots: 4096, checked };
            let random = Random(seed + u64::from(checked) + slots as u64);
            Run { random, disk, fixed, model: Model::new() }.run(10);
        }
    }
}

#[test]
fn object_map() {
    runs(Order::Pair, Some((16, 16)), false, 1);
}

#[test]
fn pairs_of_any_value() {
    runs(Order::Pair, None, false, 100);
}

#[test]
fn bytes_of_any_length() {
    runs(Order::Byte, None, false, 200);
}

#[test]
fn bytes_of_fixed_lengths() {
    runs(Order::Byte, Some((5, 3)), false, 300);
}

#[test]
fn virtual_pairs() {
    runs(Order::Pair, Some((16, 16)), true, 400);
}

#[test]
fn virtual_bytes() {
    runs(Order::Byte, None, true, 500);
}
