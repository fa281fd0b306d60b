//! Get, floor and range (document 01, Refused).

use std::cmp::Ordering;

use apfs::nx::Container;

use super::node::Item;
use super::tree::{check, Answer, Bounds, Tree};
use crate::words::{Key, Order, Value};

pub type Entry = (Key, Value);

impl Tree {
    /// 12: a key that is not 16 bytes in pair order.
    pub fn check_key(&self, key: &[u8]) -> Answer<()> {
        check(self.place.order == Order::Byte || key.len() == 16, 12)
    }

    pub fn entry(&self, slot: usize, i: usize) -> Entry {
        let Item::Value(v) = &self.nodes[slot].items[i] else { unreachable!("a leaf has values") };
        (self.nodes[slot].keys[i].clone(), v.clone())
    }

    pub fn position(&self, leaf: usize, key: &[u8]) -> Option<usize> {
        self.nodes[leaf].keys.iter().position(|k| k == key)
    }

    pub fn get(&mut self, disk: &Container, slots: usize, key: &[u8]) -> Answer<Option<Value>> {
        self.check_key(key)?;
        let leaf = self.way(disk, slots, key)?.last().expect("a way has a leaf").slot;
        Ok(self.position(leaf, key).map(|i| self.entry(leaf, i).1))
    }

    pub fn floor(&mut self, disk: &Container, slots: usize, key: &[u8]) -> Answer<Option<Entry>> {
        self.check_key(key)?;
        let way = self.way(disk, slots, key)?;
        let (leaf, above) = way.split_last().expect("a way has a leaf");
        let n = self.not_above(leaf.slot, key);
        if n > 0 {
            return Ok(Some(self.entry(leaf.slot, n - 1)));
        }
        let Some(at) = above.iter().rposition(|s| s.child > 0) else { return Ok(None) };
        let (mut slot, mut i) = (above[at].slot, above[at].child - 1);
        let mut bounds = if at > 0 { above[at - 1].bounds.clone() } else { (None, None) };
        loop {
            bounds = self.child_bounds(slot, i, &bounds);
            slot = self.child(disk, slots, slot, i, &bounds)?;
            i = self.nodes[slot].keys.len() - 1;
            if self.nodes[slot].level == 0 {
                return Ok(Some(self.entry(slot, i)));
            }
        }
    }

    /// Entries from `lo` up to `hi`; without a `hi`, to the end.
    pub fn range(&mut self, disk: &Container, slots: usize, lo: &[u8], hi: Option<&[u8]>) -> Answer<Vec<Entry>> {
        let mut out = Vec::new();
        self.collect(disk, slots, self.root, (lo, hi), &(None, None), &mut out)?;
        Ok(out)
    }

    fn collect(&mut self, disk: &Container, slots: usize, slot: usize, span: (&[u8], Option<&[u8]>), bounds: &Bounds, out: &mut Vec<Entry>) -> Answer<()> {
        for i in 0..self.nodes[slot].keys.len() {
            let keys = &self.nodes[slot].keys;
            let below = span.1.is_none_or(|hi| self.order(&keys[i], hi) == Ordering::Less);
            if self.nodes[slot].level == 0 {
                if below && self.order(&keys[i], span.0) != Ordering::Less {
                    out.push(self.entry(slot, i));
                }
                continue;
            }
            let next_above = keys.get(i + 1).is_none_or(|k| self.order(k, span.0) == Ordering::Greater);
            if below && next_above {
                let within = self.child_bounds(slot, i, bounds);
                let child = self.child(disk, slots, slot, i, &within)?;
                self.collect(disk, slots, child, span, &within, out)?;
            }
        }
        Ok(())
    }
}
