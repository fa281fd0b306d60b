//! What the volume should hold: a plain list of records, kept beside the disk. Changes go into a plan.

use std::collections::{BTreeMap, BTreeSet};

use crate::bytes::u64_at;
use crate::disk::Disk;
use crate::keys;
use crate::node::{self, Record};
use crate::plan::{Edit, Plan};
use crate::records::*;
use crate::volume::Volume;

pub const ROOT: u64 = 2;
const PARENT_OF_ROOT: u64 = 1;
/// Bytes in a block of these containers.
const BLOCK: u64 = 4096;

pub struct Model {
    hashed: bool,
    folds_case: bool,
    /// By the turned key, so in the tree's order: the key as it is stored, and the value.
    records: BTreeMap<Vec<u8>, Record>,
    /// The same of the extent-reference tree.
    references: BTreeMap<Vec<u8>, Record>,
    /// Runs of blocks of each file, in the file's order: address, count.
    runs: BTreeMap<u64, Vec<(u64, u64)>>,
    pub inodes: BTreeMap<u64, Inode>,
    pub xattrs: BTreeSet<(u64, String)>,
    next_id: u64,
    time: u64,
    /// Blocks from here on were given to files by `grow`.
    top: u64,
}

impl Model {
    /// A new volume: a root directory and a private one.
    pub fn read(disk: &Disk) -> Self {
        let volume = Volume::read(disk);
        let (hashed, folds_case) = (volume.hashed(), volume.folds_case());
        let mut model = Self {
            hashed,
            folds_case,
            records: BTreeMap::new(),
            references: BTreeMap::new(),
            runs: BTreeMap::new(),
            inodes: BTreeMap::new(),
            xattrs: BTreeSet::new(),
            next_id: volume.next_id(),
            time: 1_600_000_000_000_000_000,
            top: (disk.image.len() / disk.size) as u64,
        };
        for (key, value) in node::records(disk, &volume.nodes(disk)) {
            assert!(keys::says_its_length(&key, hashed));
            model.records.insert(model.turned(&key), (key, value));
        }
        let root = model.value(&inode_key(ROOT)).expect("a root directory");
        assert_eq!(u64_at(&root, 0), PARENT_OF_ROOT);
        let time = u64_at(&root, 16);
        let root = Inode { parent: PARENT_OF_ROOT, id: ROOT, name: "root".into(), kind: Kind::Directory, links: 0, time, bytes: None };
        model.inodes.insert(ROOT, root);
        model
    }

    fn turned(&self, key: &[u8]) -> Vec<u8> {
        let mut turned = key.to_vec();
        keys::widen(&mut turned, self.hashed);
        let mut back = turned.clone();
        keys::narrow(&mut back, self.hashed);
        assert_eq!(back, key, "a key turned and turned back");
        turned
    }

    pub fn value(&self, key: &[u8]) -> Option<Vec<u8>> {
        self.records.get(&self.turned(key)).map(|r| r.1.clone())
    }

    pub fn len(&self) -> usize {
        self.records.len()
    }

    /// Whether the disk's file-system tree and extent-reference tree hold these records, in their own order.
    pub fn is_on(&self, disk: &Disk) -> bool {
        let volume = Volume::read(disk);
        let holds = |nodes: Vec<u64>, records: &BTreeMap<Vec<u8>, Record>| {
            let found = node::records(disk, &nodes);
            let rising = found.windows(2).all(|w| keys::compare(&w[0].0, &w[1].0, self.hashed).is_lt());
            rising && found.iter().eq(records.values())
        };
        holds(volume.nodes(disk), &self.records) && holds(volume.extent_nodes(disk), &self.references)
    }

    fn put(&mut self, plan: &mut Plan, key: Vec<u8>, value: Vec<u8>) {
        self.records.insert(self.turned(&key), (key.clone(), value.clone()));
        plan.records.push(Edit::Put(key, value));
    }

    fn take(&mut self, plan: &mut Plan, key: Vec<u8>) {
        self.records.remove(&self.turned(&key)).expect("a record to take");
        plan.records.push(Edit::Take(key));
    }

    fn entry(&self, directory: u64, name: &str) -> Vec<u8> {
        entry_key(directory, name, self.hashed.then(|| name_hash(name, self.folds_case)))
    }

    /// Changes an inode: its time, then as told.
    pub fn change(&mut self, plan: &mut Plan, id: u64, how: impl FnOnce(&mut Inode)) {
        self.time += 1_000_000_000;
        let inode = self.inodes.get_mut(&id).expect("an inode");
        inode.time = self.time;
        how(inode);
        let value = inode_value(inode);
        self.put(plan, inode_key(id), value);
    }

    pub fn create(&mut self, plan: &mut Plan, parent: u64, name: &str, kind: Kind) -> u64 {
        let id = self.next_id;
        self.next_id += 1;
        self.time += 1_000_000_000;
        let links = if kind == Kind::Directory { 0 } else { 1 };
        let inode = Inode { parent, id, name: name.into(), kind, links, time: self.time, bytes: None };
        self.put(plan, inode_key(id), inode_value(&inode));
        self.put(plan, self.entry(parent, name), entry_value(&inode));
        self.inodes.insert(id, inode);
        if kind == Kind::Link {
            self.set_xattr(plan, id, SYMLINK, b"elsewhere\0");
        }
        self.change(plan, parent, |p| p.links += 1);
        id
    }

    /// Removes a file, a link or an empty directory, with its extended attributes.
    pub fn delete(&mut self, plan: &mut Plan, id: u64) {
        let names: Vec<String> = self.xattrs.range((id, String::new())..(id + 1, String::new())).map(|x| x.1.clone()).collect();
        names.iter().for_each(|name| self.drop_xattr(plan, id, name));
        self.empty(plan, id);
        let inode = self.inodes.remove(&id).expect("an inode");
        self.take(plan, self.entry(inode.parent, &inode.name));
        self.take(plan, inode_key(id));
        self.change(plan, inode.parent, |p| p.links -= 1);
    }

    /// Gives a file more blocks, at its end.
    pub fn extend(&mut self, plan: &mut Plan, id: u64, address: u64, blocks: u64) {
        let byte = self.inodes[&id].bytes.unwrap_or(0);
        if byte == 0 {
            let (key, value) = stream_record(id);
            self.put(plan, key, value);
        }
        let (key, value) = extent_record(id, byte, address, blocks * BLOCK);
        self.put(plan, key, value);
        let (key, value) = reference_record(id, address, blocks);
        self.references.insert(self.turned(&key), (key.clone(), value.clone()));
        plan.extents.push(Edit::Put(key, value));
        plan.take.push((address, blocks));
        self.runs.entry(id).or_default().push((address, blocks));
        self.change(plan, id, |i| i.bytes = Some(byte + blocks * BLOCK));
    }

    /// Gives a file more blocks: those below the ones given last.
    pub fn grow(&mut self, plan: &mut Plan, id: u64, blocks: u64) {
        self.top -= blocks;
        self.extend(plan, id, self.top, blocks);
    }

    /// Takes all blocks of a file, and its data stream.
    pub fn empty(&mut self, plan: &mut Plan, id: u64) {
        let Some(runs) = self.runs.remove(&id) else { return };
        let mut byte = 0;
        for (address, blocks) in runs {
            self.take(plan, extent_record(id, byte, address, 0).0);
            let key = reference_record(id, address, 0).0;
            self.references.remove(&self.turned(&key)).expect("a reference to take");
            plan.extents.push(Edit::Take(key));
            plan.give.push((address, blocks));
            byte += blocks * BLOCK;
        }
        self.take(plan, stream_record(id).0);
        self.change(plan, id, |i| i.bytes = None);
    }

    pub fn rename(&mut self, plan: &mut Plan, id: u64, name: &str) {
        let inode = self.inodes[&id].clone();
        self.take(plan, self.entry(inode.parent, &inode.name));
        self.change(plan, id, |i| i.name = name.into());
        let value = entry_value(&self.inodes[&id]);
        self.put(plan, self.entry(inode.parent, name), value);
    }

    pub fn set_xattr(&mut self, plan: &mut Plan, id: u64, name: &str, data: &[u8]) {
        self.xattrs.insert((id, name.into()));
        self.put(plan, xattr_key(id, name), xattr_value(name, data));
    }

    pub fn drop_xattr(&mut self, plan: &mut Plan, id: u64, name: &str) {
        assert!(self.xattrs.remove(&(id, name.into())));
        self.take(plan, xattr_key(id, name));
    }

    /// The plan with the volume's counts, and with lookups of some records and of some that are not there.
    pub fn finish(&self, mut plan: Plan) -> Plan {
        let count = |kind: Kind| self.inodes.values().filter(|i| i.kind == kind).count() as u64;
        plan.counts = Some([count(Kind::File), count(Kind::Directory) - 1, count(Kind::Link)]);
        plan.next_id = Some(self.next_id);
        let taken: Vec<Vec<u8>> = plan.records.iter().filter_map(|e| if let Edit::Take(k) = e { Some(k.clone()) } else { None }).collect();
        plan.lookups = taken.into_iter().take(20).map(|k| (k.clone(), self.value(&k))).collect();
        let some = self.records.values().step_by(self.records.len() / 20 + 1);
        plan.lookups.extend(some.map(|(k, v)| (k.clone(), Some(v.clone()))));
        plan
    }
}
