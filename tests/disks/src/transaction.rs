//! One whole transaction: the file-system tree, the two object maps, the volume's superblock, the space manager and the checkpoint. Nothing
//! that the checkpoint before uses is written over.

use crate::bytes::{put_u64, u64_at};
use crate::container::{Container, Mapping, NEXT_OID, OMAP_OID};
use crate::disk::Disk;
use crate::editor::{Answer, Editor, Flushed, Order, Place};
use crate::keys;
use crate::node;
use crate::plan::{Edit, Lookup, Plan};
use crate::space::Space;
use crate::volume::{Volume, EXTENTREF_TREE, NEXT_OBJ_ID, OM_TREE, ROOT_TREE, VOLUME_OMAP};

// apfs_superblock_t, what a transaction counts
const ALLOC_COUNT: usize = 88;
const NUM_FILES: usize = 184;
const TOTAL_ALLOCED: usize = 224;
const TOTAL_FREED: usize = 232;
const LAST_MOD_TIME: usize = 256;
/// The programs that changed the volume, newest first: name (32 bytes), time, transaction.
const MODIFIED_BY: usize = 320;
const MODIFIED_BY_ENTRY: usize = 48;
const NAME: &[u8] = b"moachest tests/disks";

struct Transaction<'a> {
    disk: &'a mut Disk,
    editor: &'a mut dyn Editor,
    container: Container,
    space: Space,
    xid: u64,
    next_oid: u64,
    /// Blocks that the volume took and gave back.
    taken: u64,
    given: u64,
}

/// Commits a plan. Gives the address of the new superblock.
pub fn commit(disk: &mut Disk, editor: &mut dyn Editor, plan: &Plan) -> Answer<u64> {
    let container = Container::read(disk);
    let xid = container.xid() + 1;
    let mut space = Space::read(disk, &container, xid);
    space.release(disk);
    let next_oid = container.u64(NEXT_OID);
    let mut t = Transaction { disk, editor, container, space, xid, next_oid, taken: 0, given: 0 };
    t.volume(plan)?;
    Ok(t.checkpoint())
}

impl Transaction<'_> {
    fn volume(&mut self, plan: &Plan) -> Answer<()> {
        let volume = Volume::read(self.disk);
        let mut sb = volume.superblock.clone();
        self.data(plan);
        let Flushed { mut moved, removed, .. } = self.records(plan, &volume)?;
        let extents = self.extents(plan, &volume)?;
        put_u64(&mut sb, EXTENTREF_TREE, extents);
        for &id in &plan.copies {
            moved.push((id, self.copy(&volume, id)));
        }
        if !(moved.is_empty() && removed.is_empty() && plan.volume_map.is_empty()) {
            let old = u64_at(&sb, VOLUME_OMAP);
            let new = self.map(old, &moved, &removed, &plan.volume_map)?;
            put_u64(&mut sb, VOLUME_OMAP, new);
        }
        self.stamp(&mut sb, plan);
        let address = self.disk.take();
        self.disk.store(address, self.xid, sb);
        self.space.free(&[volume.address]);
        let old = self.container.u64(OMAP_OID);
        let new = self.map(old, &[(volume.id, address)], &[], &plan.container_map)?;
        put_u64(&mut self.container.superblock, OMAP_OID, new);
        Ok(())
    }

    /// Counts, next id and history of the volume's superblock. Times are made up, so that runs can be compared.
    fn stamp(&self, sb: &mut [u8], plan: &Plan) {
        let add = |sb: &mut [u8], at: usize, n: u64| put_u64(sb, at, u64_at(sb, at).wrapping_add(n));
        add(sb, ALLOC_COUNT, self.taken.wrapping_sub(self.given));
        add(sb, TOTAL_ALLOCED, self.taken);
        add(sb, TOTAL_FREED, self.given);
        for (i, n) in plan.counts.iter().flatten().enumerate() {
            put_u64(sb, NUM_FILES + 8 * i, *n);
        }
        plan.next_id.into_iter().for_each(|id| put_u64(sb, NEXT_OBJ_ID, id));
        let time = u64_at(sb, LAST_MOD_TIME) + 1_000_000_000;
        put_u64(sb, LAST_MOD_TIME, time);
        let entry = &mut sb[MODIFIED_BY..MODIFIED_BY + MODIFIED_BY_ENTRY];
        entry[..NAME.len()].copy_from_slice(NAME);
        put_u64(entry, 32, time);
        put_u64(entry, 40, self.xid);
    }

    /// Blocks of files.
    fn data(&mut self, plan: &Plan) {
        for &(address, count) in &plan.take {
            (address..address + count).for_each(|a| self.disk.mark(a));
            self.taken += count;
        }
        for &(address, count) in &plan.give {
            self.space.free(&(address..address + count).collect::<Vec<_>>());
            self.given += count;
        }
    }

    /// Edits the file-system tree.
    fn records(&mut self, plan: &Plan, volume: &Volume) -> Answer<Flushed> {
        if plan.records.is_empty() {
            return Ok(Flushed::default());
        }
        let root = u64_at(&volume.superblock, ROOT_TREE);
        let done = self.named_tree(volume, root, Some(volume.volume_map), &plan.records, &plan.lookups)?;
        assert_eq!(done.root, root, "the root of a virtual tree keeps its id");
        self.next_oid = done.next;
        Ok(done)
    }

    /// Edits the extent-reference tree; gives its root.
    fn extents(&mut self, plan: &Plan, volume: &Volume) -> Answer<u64> {
        let root = u64_at(&volume.superblock, EXTENTREF_TREE);
        if plan.extents.is_empty() {
            return Ok(root);
        }
        Ok(self.named_tree(volume, root, None, &plan.extents, &[])?.root)
    }

    /// Edits a tree in the file system's order. An editor that cannot be given that order is lent the tree with its keys turned (keys.rs); they are
    /// turned back whatever it answers.
    fn named_tree(&mut self, volume: &Volume, root: u64, map: Option<u64>, edits: &[Edit], lookups: &[Lookup]) -> Answer<Flushed> {
        let hashed = volume.hashed();
        let own = self.editor.takes_own_order();
        let mapped = map.map(|m| node::object_map(self.disk, m).0);
        let mut nodes = if own { Vec::new() } else { node::tree_nodes(self.disk, mapped.as_ref(), root) };
        nodes.iter().for_each(|&a| keys::turn_node(self.disk.block_mut(a), hashed, keys::widen));
        let order = if own { Order::Own(hashed) } else { Order::Byte };
        let done = self.edit_tree(Place { root, map, order, xid: self.container.xid() }, hashed, edits, lookups);
        if let (Ok(done), false) = (&done, own) {
            let written = if map.is_some() { done.moved.iter().map(|m| m.1).collect() } else { node::tree_nodes(self.disk, None, done.root) };
            nodes.extend(written);
            nodes.sort();
            nodes.dedup();
        }
        nodes.iter().for_each(|&a| keys::turn_node(self.disk.block_mut(a), hashed, keys::narrow));
        let done = done?;
        self.taken += done.allocated;
        self.given += done.freed.len() as u64;
        self.space.free(&done.freed);
        Ok(done)
    }

    fn edit_tree(&mut self, place: Place, hashed: bool, edits: &[Edit], lookups: &[Lookup]) -> Answer<Flushed> {
        self.editor.open(self.disk, place)?;
        let form = |key: &[u8]| {
            let mut key = key.to_vec();
            if place.order == Order::Byte {
                keys::widen(&mut key, hashed);
            }
            key
        };
        self.edit(edits, &form)?;
        for (key, value) in lookups {
            let found = self.editor.get(self.disk, &form(key))?;
            assert!(found == value.clone().map(Some), "a lookup after the edits");
        }
        self.editor.flush(self.disk, self.xid, self.next_oid)
    }

    fn edit(&mut self, edits: &[Edit], form: &dyn Fn(&[u8]) -> Vec<u8>) -> Answer<()> {
        for edit in edits {
            match edit {
                Edit::Put(key, value) => self.editor.upsert(self.disk, &form(key), Some(value))?,
                Edit::Ghost(key) => self.editor.upsert(self.disk, &form(key), None)?,
                Edit::Take(key) => assert!(self.editor.remove(self.disk, &form(key))?, "a key to remove is there"),
            }
        }
        Ok(())
    }

    /// A new block for an object that does not change.
    fn copy(&mut self, volume: &Volume, id: u64) -> u64 {
        let old = node::address_of(&node::object_map(self.disk, volume.volume_map).0, id);
        let object = self.disk.block(old).to_vec();
        let new = self.disk.take();
        self.disk.store(new, self.xid, object);
        self.space.free(&[old]);
        self.taken += 1;
        self.given += 1;
        new
    }

    /// Edits an object map, `omap_phys_t` at `address`. Gives its new address.
    fn map(&mut self, address: u64, puts: &[(u64, u64)], drops: &[u64], edits: &[Edit]) -> Answer<u64> {
        let mut phys = self.disk.block(address).to_vec();
        let place = Place { root: u64_at(&phys, OM_TREE), map: None, order: Order::Pair, xid: self.container.xid() };
        self.editor.open(self.disk, place)?;
        for &id in drops {
            self.editor.omap_drop(self.disk, id)?;
        }
        for &(id, place) in puts {
            self.editor.omap_put(self.disk, id, self.xid, place)?;
        }
        self.edit(edits, &|key| key.to_vec())?;
        let done = self.editor.flush(self.disk, self.xid, 0)?;
        self.space.free(&done.freed);
        self.space.free(&[address]);
        self.taken += done.allocated + 1;
        self.given += done.freed.len() as u64 + 1;
        let new = self.disk.take();
        put_u64(&mut phys, OM_TREE, done.root);
        self.disk.store_physical(new, self.xid, phys);
        Ok(new)
    }

    /// Ephemeral objects that did not change are written again, in their old order; new ones follow.
    fn checkpoint(mut self) -> u64 {
        let changed = self.space.finish(self.disk, &mut self.next_oid);
        put_u64(&mut self.container.superblock, NEXT_OID, self.next_oid);
        let is_queue_node = |m: &Mapping| m.subtype == 9;
        let mut objects = Vec::new();
        for m in &self.container.mappings {
            match changed.iter().find(|(c, _)| c.oid == m.oid) {
                Some(c) => objects.push(c.clone()),
                None if is_queue_node(m) => {}
                None => objects.push((*m, self.container.ephemeral(self.disk, m.oid))),
            }
        }
        let old = |c: &Mapping| self.container.mappings.iter().any(|m| m.oid == c.oid);
        objects.extend(changed.iter().filter(|(c, _)| !old(c)).cloned());
        self.container.write_next(self.disk, objects)
    }
}
