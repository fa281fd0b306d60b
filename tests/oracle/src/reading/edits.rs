//! Upsert, remove, put and drop (document 01, Edits).

use apfs::nx::Container;

use super::node::{Item, Node};
use super::tree::{check, Answer, Step, Tree};
use crate::words::{Key, Order, Value};

const HIGHEST_LEVEL: u16 = 32;

impl Tree {
    fn check_lengths(&self, key: &[u8], value: &Value) -> Answer<()> {
        self.check_key(key)?;
        let right = |(k, v): (usize, usize)| key.len() == k && value.as_ref().is_none_or(|x| x.len() == v);
        check(self.form.fixed.is_none_or(right), 12)
    }

    /// Dirty after an edit: the leaf and the root, in a physical tree the whole way.
    fn touch(&mut self, way: &[Step]) {
        let leaf = way.len() - 1;
        for (i, step) in way.iter().enumerate() {
            if !self.is_virtual() || i == leaf || step.slot == self.root {
                self.nodes[step.slot].dirty = true;
            }
        }
    }

    /// Index keys on the way become their child's first key.
    fn set_index_keys(&mut self, way: &[Step]) {
        for pair in way.windows(2).rev() {
            let (parent, child) = (pair[0].slot, pair[1].slot);
            let Some(first) = self.nodes[child].keys.first().cloned() else { continue };
            if !self.nodes[child].dead && self.nodes[parent].keys[pair[0].child] != first {
                self.nodes[parent].keys[pair[0].child] = first;
                self.nodes[parent].dirty = true;
            }
        }
    }

    pub fn upsert(&mut self, disk: &Container, slots: usize, key: &Key, value: &Value) -> Answer<()> {
        self.check_lengths(key, value)?;
        let way = self.way(disk, slots, key)?;
        let leaf = way.last().expect("a way has a leaf").slot;
        match self.position(leaf, key) {
            Some(i) => self.nodes[leaf].items[i] = Item::Value(value.clone()),
            None => {
                self.key_count = self.key_count.checked_add(1).ok_or(17)?;
                self.longest.0 = self.longest.0.max(key.len() as u32);
                let i = self.not_above(leaf, key);
                self.nodes[leaf].keys.insert(i, key.clone());
                self.nodes[leaf].items.insert(i, Item::Value(value.clone()));
            }
        }
        self.longest.1 = self.longest.1.max(value.as_ref().map_or(0, Vec::len) as u32);
        self.touch(&way);
        self.set_index_keys(&way);
        self.cut_way(slots, &way)
    }

    /// Bottom up, a node that does not fit is cut in two.
    fn cut_way(&mut self, slots: usize, way: &[Step]) -> Answer<()> {
        for depth in (0..way.len()).rev() {
            let slot = way[depth].slot;
            if self.nodes[slot].dead || self.fits(slot) {
                continue;
            }
            let lengths = self.nodes[slot].lengths();
            check(lengths.len() > 1, 13)?;
            let cut = self.form.cut(self.nodes[slot].level, &lengths).ok_or(14)?;
            let is_root = slot == self.root;
            if is_root {
                let (k, level) = (&self.nodes[slot].keys, self.nodes[slot].level + 1);
                let entries = [(k[0].len(), Some(8)), (k[cut].len(), Some(8))];
                check(level <= HIGHEST_LEVEL && self.form.fits(true, level, &entries), 15)?;
            }
            let made = if is_root { 2 } else { 1 };
            self.node_count = self.node_count.checked_add(made).ok_or(17)?;
            check(self.nodes.len() + made as usize <= slots, 11)?;
            let right = self.part(slot, cut);
            if is_root {
                self.grow(slot, right);
            } else {
                let (parent, at) = (way[depth - 1].slot, way[depth - 1].child + 1);
                let first = self.nodes[right].keys[0].clone();
                self.nodes[parent].keys.insert(at, first);
                self.nodes[parent].items.insert(at, Item::Slot(right));
                self.nodes[parent].dirty = true;
            }
        }
        Ok(())
    }

    /// Moves the entries from the cut on into a new node; both parts are dirty.
    fn part(&mut self, slot: usize, cut: usize) -> usize {
        let left = &mut self.nodes[slot];
        left.dirty = true;
        let (keys, items) = (left.keys.split_off(cut), left.items.split_off(cut));
        let level = left.level;
        self.nodes.push(Node { level, keys, items, id: None, block: None, dirty: true, dead: false });
        self.nodes.len() - 1
    }

    /// A new root over both parts takes the old one's id and block.
    fn grow(&mut self, left: usize, right: usize) {
        let keys = vec![self.nodes[left].keys[0].clone(), self.nodes[right].keys[0].clone()];
        let old = &mut self.nodes[left];
        let (id, block, level) = (old.id.take(), old.block.take(), old.level + 1);
        let items = vec![Item::Slot(left), Item::Slot(right)];
        self.nodes.push(Node { level, keys, items, id, block, dirty: true, dead: false });
        self.root = self.nodes.len() - 1;
    }

    pub fn remove(&mut self, disk: &Container, slots: usize, key: &[u8]) -> Answer<bool> {
        self.check_key(key)?;
        let way = self.way(disk, slots, key)?;
        let leaf = way.last().expect("a way has a leaf").slot;
        let Some(i) = self.position(leaf, key) else { return Ok(false) };
        self.key_count = self.key_count.checked_sub(1).ok_or(17)?;
        self.nodes[leaf].keys.remove(i);
        self.nodes[leaf].items.remove(i);
        self.touch(&way);
        self.drop_emptied(&way)?;
        self.set_index_keys(&way);
        self.cut_way(slots, &way)?;
        self.go_down(disk, slots)?;
        Ok(true)
    }

    /// Drops emptied nodes, never the root; an emptied index root becomes a leaf.
    fn drop_emptied(&mut self, way: &[Step]) -> Answer<()> {
        for pair in way.windows(2).rev() {
            let (parent, child) = (pair[0].slot, pair[1].slot);
            if !self.nodes[child].keys.is_empty() {
                break;
            }
            self.nodes[child].dead = true;
            self.node_count = self.node_count.checked_sub(1).ok_or(17)?;
            self.nodes[parent].keys.remove(pair[0].child);
            self.nodes[parent].items.remove(pair[0].child);
            self.nodes[parent].dirty = true;
        }
        if self.nodes[self.root].keys.is_empty() {
            self.nodes[self.root].level = 0;
        }
        Ok(())
    }

    /// While an index root has one child that fits as root, that child takes its place.
    fn go_down(&mut self, disk: &Container, slots: usize) -> Answer<()> {
        while self.nodes[self.root].level > 0 && self.nodes[self.root].keys.len() == 1 {
            let old = self.root;
            let bounds = self.child_bounds(old, 0, &(None, None));
            let only = self.child(disk, slots, old, 0, &bounds)?;
            let node = &self.nodes[only];
            if !self.form.fits(true, node.level, &node.lengths()) {
                break;
            }
            self.node_count = self.node_count.checked_sub(1).ok_or(17)?;
            (self.nodes[old].id, self.nodes[only].id) = (self.nodes[only].id, self.nodes[old].id);
            self.nodes[old].dead = true;
            self.nodes[only].dirty = true;
            self.root = only;
        }
        Ok(())
    }

    pub fn drop_id(&mut self, disk: &Container, slots: usize, id: u64) -> Answer<()> {
        check(self.place.order == Order::Pair && self.form.fixed == Some((16, 16)), 12)?;
        let key = |id: u64| [id.to_le_bytes(), [0; 8]].concat();
        let hi = id.checked_add(1).map(key);
        for (k, _) in self.range(disk, slots, &key(id), hi.as_deref())? {
            self.remove(disk, slots, &k)?;
        }
        Ok(())
    }

    pub fn put(&mut self, disk: &Container, slots: usize, mapping: (u64, u64, u64)) -> Answer<()> {
        let (id, xid, addr) = mapping;
        self.drop_id(disk, slots, id)?;
        let flags_and_size = (disk.size as u64) << 32;
        let value = [flags_and_size.to_le_bytes(), addr.to_le_bytes()].concat();
        self.upsert(disk, slots, &[id.to_le_bytes(), xid.to_le_bytes()].concat(), &Some(value))
    }
}
