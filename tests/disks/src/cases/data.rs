//! Files with data: the extent-reference tree, blocks of every chunk, a container that is full.

use super::{change, Done};
use crate::bench::Bench;
use crate::disk::Disk;
use crate::model::{Model, ROOT};
use crate::plan::{Edit, Plan};
use crate::random::Random;
use crate::records::{xattr_key, xattr_value, Kind};

/// Runs of free blocks among addresses, as the last transaction left them.
fn free_runs(disk: &Disk, addresses: std::ops::Range<u64>) -> Vec<(u64, u64)> {
    let mut out: Vec<(u64, u64)> = Vec::new();
    for address in addresses.filter(|&a| !disk.is_used(a)) {
        match out.last_mut() {
            Some((first, count)) if *first + *count == address => *count += 1,
            _ => out.push((address, 1)),
        }
    }
    out
}

fn chunk(disk: &Disk, i: u64) -> std::ops::Range<u64> {
    let first = i * disk.per_chunk() as u64;
    first..first + disk.counts[i as usize] as u64
}

/// One run; thousands of single blocks in no order; the rest of the first chunk, so that nodes go to the second; then all of it given back.
pub fn data(b: &mut Bench) -> Done {
    let m = &mut Model::read(b.disk());
    let mut r = Random(5);
    let mut ids = Vec::new();
    change(b, m, |m, p| ids.extend(["one", "many", "rest"].map(|name| m.create(p, ROOT, name, Kind::File))))?;
    change(b, m, |m, p| m.extend(p, ids[0], 40_000, 100))?;
    let mut blocks: Vec<u64> = (0..3000).map(|i| 42_000 + i).collect();
    (1..blocks.len()).rev().for_each(|i| blocks.swap(i, r.below(i as u64 + 1) as usize));
    for part in blocks.chunks(1000) {
        change(b, m, |m, p| part.iter().for_each(|&a| m.extend(p, ids[1], a, 1)))?;
    }
    let rest = free_runs(b.disk(), chunk(b.disk(), 0));
    change(b, m, |m, p| rest.iter().for_each(|&(a, n)| m.extend(p, ids[2], a, n)))?;
    for i in 0..20 {
        change(b, m, |m, p| small_file(m, p, i))?;
    }
    for id in ids {
        change(b, m, |m, p| m.delete(p, id))?;
    }
    change(b, m, |m, p| m.change(p, ROOT, |_| {}))
}

/// Files with an attribute that takes most of a node.
fn small_file(m: &mut Model, p: &mut Plan, i: u8) {
    let id = m.create(p, ROOT, &format!("small {i}"), Kind::File);
    m.set_xattr(p, id, "user.large", &vec![i; 3000]);
}

/// Every block taken but a few: a flush that finds too few blocks is refused (16), and the container is as it was. Then room is made.
pub fn full(b: &mut Bench) -> Done {
    let m = &mut Model::read(b.disk());
    let mut id = 0;
    change(b, m, |m, p| id = m.create(p, ROOT, "everything", Kind::File))?;
    let runs: Vec<(u64, u64)> = (0..2).flat_map(|i| free_runs(b.disk(), chunk(b.disk(), i))).collect();
    change(b, m, |m, p| {
        let (last, others) = runs.split_last().expect("free blocks");
        others.iter().for_each(|&(a, n)| m.extend(p, id, a, n));
        m.extend(p, id, last.0, last.1 - 12);
    })?;
    let mut plan = Plan::default();
    plan.records = (0..20).map(|i| Edit::Put(xattr_key(ROOT, &format!("user.{i}")), xattr_value("", &[i; 3500]))).collect();
    b.refused(&plan, &["refusal 16", "the container is full"])?;
    change(b, m, |m, p| m.change(p, ROOT, |_| {}))?;
    change(b, m, |m, p| m.delete(p, id))?;
    change(b, m, |m, p| (0..20).for_each(|i| m.set_xattr(p, ROOT, &format!("user.{i}"), &[i; 3500])))
}
