//! Records of the file-system tree.

use std::collections::BTreeSet;

use super::{change, Done};
use crate::bench::Bench;
use crate::bytes::u64_at;
use crate::model::{Model, ROOT};
use crate::plan::Plan;
use crate::random::Random;
use crate::records::Kind;
use crate::volume::Volume;

/// Kinds of record one after another, each in its own transaction, then all in one.
pub fn records(b: &mut Bench) -> Done {
    let m = &mut Model::read(b.disk());
    let fresh = m.len();
    change(b, m, |m, p| m.change(p, ROOT, |_| {}))?;
    change(b, m, |m, p| m.set_xattr(p, ROOT, "user.note", b"first"))?;
    change(b, m, |m, p| m.set_xattr(p, ROOT, "user.note", &[7; 3000]))?;
    change(b, m, |m, p| m.drop_xattr(p, ROOT, "user.note"))?;
    let mut ids = Vec::new();
    change(b, m, |m, p| ids.push(m.create(p, ROOT, "directory", Kind::Directory)))?;
    let inner = ids[0];
    change(b, m, |m, p| ids.push(m.create(p, inner, "file", Kind::File)))?;
    change(b, m, |m, p| ids.push(m.create(p, inner, "link", Kind::Link)))?;
    change(b, m, |m, p| m.rename(p, ids[1], "another name"))?;
    change(b, m, |m, p| ids.iter().rev().for_each(|&id| m.delete(p, id)))?;
    assert_eq!(m.len(), fresh);
    change(b, m, |m, p| {
        let inner = m.create(p, ROOT, "many", Kind::Directory);
        for i in 0..400 {
            m.create(p, inner, &format!("file number {i}"), Kind::File);
        }
        (0..40).for_each(|i| m.set_xattr(p, ROOT, &format!("user.{i}"), &vec![i; 50 * i as usize]));
    })?;
    change(b, m, |m, p| {
        let files: Vec<u64> = m.inodes.values().filter(|i| i.kind == Kind::File).map(|i| i.id).collect();
        files.iter().for_each(|&id| m.delete(p, id));
    })
}

/// Random changes, a few or many in a transaction.
pub fn random(b: &mut Bench, seed: u64) -> Done {
    let m = &mut Model::read(b.disk());
    let mut r = Random(seed);
    for round in 0..60 {
        let changes = [1, 3, 30, 200][r.below(4) as usize];
        // First the volume grows, then it shrinks.
        let growth = if round < 40 { 70 } else { 25 };
        change(b, m, |m, p| (0..changes).for_each(|_| random_change(m, p, &mut r, growth)))?;
    }
    Ok(())
}

fn random_change(m: &mut Model, p: &mut Plan, r: &mut Random, growth: u64) {
    let ids: Vec<u64> = m.inodes.keys().copied().collect();
    let id = ids[r.below(ids.len() as u64) as usize];
    let number = r.below(1 << 32);
    let name = format!("{}{number}", "Long Name ".repeat(r.below(6) as usize));
    if r.below(100) < growth {
        match r.below(10) {
            8 | 9 if m.inodes[&id].kind == Kind::File => m.grow(p, id, r.below(4) + 1),
            0 => m.change(p, id, |_| {}),
            1 | 2 => m.set_xattr(p, id, &format!("user.{}", number % 5), &vec![number as u8; r.below(1500) as usize]),
            3 if id != ROOT => m.rename(p, id, &name),
            k => {
                let directories: Vec<u64> = m.inodes.values().filter(|i| i.kind == Kind::Directory).map(|i| i.id).collect();
                let parent = directories[r.below(directories.len() as u64) as usize];
                m.create(p, parent, &name, [Kind::Directory, Kind::Link, Kind::File, Kind::File][k as usize % 4]);
            }
        }
        return;
    }
    let xattr = m.xattrs.range((id, String::new())..).find(|x| x.1.starts_with("user")).cloned();
    match xattr {
        _ if m.inodes[&id].kind == Kind::File && r.below(4) == 0 => m.empty(p, id),
        Some((id, name)) if r.below(2) == 0 => m.drop_xattr(p, id, &name),
        _ => {
            let removable = |id: &u64| *id != ROOT && (m.inodes[id].kind != Kind::Directory || m.inodes[id].links == 0);
            if let Some(&id) = ids.iter().cycle().skip(number as usize % ids.len()).take(ids.len()).find(|id| removable(id)) {
                m.delete(p, id);
            }
        }
    }
}

/// Records so large that each takes a node: the volume's map gets a third level of entries that are all in use. Then most of them go.
pub fn many_nodes(b: &mut Bench) -> Done {
    let m = &mut Model::read(b.disk());
    let mut r = Random(11);
    let mut used = BTreeSet::new();
    for _ in 0..20 {
        change(b, m, |m, p| {
            for _ in 0..500 {
                let number = r.below(1 << 40);
                used.insert(number);
                m.set_xattr(p, ROOT, &format!("user.{number}"), &vec![number as u8; 3700]);
            }
        })?;
    }
    let nodes = Volume::read(b.disk()).nodes(b.disk());
    let copies = nodes.iter().skip(1).step_by(9).map(|&a| u64_at(b.disk().block(a), 8)).take(900).collect();
    b.commit(&Plan { copies, ..Plan::default() }, Some(m))?;
    let used: Vec<u64> = used.into_iter().collect();
    for part in used.chunks(700) {
        change(b, m, |m, p| part.iter().for_each(|number| m.drop_xattr(p, ROOT, &format!("user.{number}"))))?;
    }
    Ok(())
}
