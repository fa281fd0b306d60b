//! Checkpoints and object maps.

use super::Done;
use crate::bench::Bench;
use crate::bytes::u64_at;
use crate::plan::{Edit, Plan};
use crate::random::Random;
use crate::volume::Volume;

/// Nothing but new checkpoints. The ring of descriptors has 64 blocks and comes round after 32; that of data has 5,904, four to a checkpoint, and
/// comes round in the last ten.
pub fn checkpoints(b: &mut Bench) -> Done {
    (0..40).try_for_each(|_| b.commit(&Plan::default(), None))?;
    b.commit_unjudged(&Plan::default(), 5904 / 4 - 46)?;
    (0..10).try_for_each(|_| b.commit(&Plan::default(), None))
}

/// An entry that says that an id was deleted: it maps nothing.
fn deleted(id: u64, xid: u64) -> Edit {
    let key = [id.to_le_bytes(), xid.to_le_bytes()].concat();
    let value = [1u32.to_le_bytes(), 4096u32.to_le_bytes()].concat();
    Edit::Put(key, [value, vec![0; 8]].concat())
}

fn gone(id: u64, xid: u64) -> Edit {
    Edit::Take([id.to_le_bytes(), xid.to_le_bytes()].concat())
}

/// Edits of an object map, transaction by transaction: one entry; a second leaf; a third level, ids in no order; several versions of an id;
/// half of them gone; all of them gone.
fn map_edits() -> Vec<Vec<Edit>> {
    let mut random = Random(7);
    let mut ids: Vec<u64> = (0..12_000).map(|i| 100_000 + i).collect();
    (1..ids.len()).rev().for_each(|i| ids.swap(i, random.below(i as u64 + 1) as usize));
    let put = |ids: &[u64], xid: u64| ids.iter().map(|&id| deleted(id, xid)).collect::<Vec<_>>();
    let take = |ids: &[u64], xid: u64| ids.iter().map(|&id| gone(id, xid)).collect::<Vec<_>>();
    let mut out = vec![vec![deleted(99_999, 1)], vec![gone(99_999, 1)], put(&ids[..150], 1), take(&ids[..150], 1)];
    out.extend(ids.chunks(1500).map(|part| put(part, 1)));
    out.push(put(&ids[..500], 2));
    out.push(take(&ids[..500], 1));
    out.extend(ids[6000..].chunks(1500).map(|part| take(part, 1)));
    out.push(take(&ids[500..2000], 1));
    out.push(take(&ids[2000..4000], 1));
    out.push(take(&ids[4000..6000], 1));
    out.push(take(&ids[..500], 2));
    out
}

pub fn container_map(b: &mut Bench) -> Done {
    map_edits().into_iter().try_for_each(|container_map| b.commit(&Plan { container_map, ..Plan::default() }, None))
}

/// The file-system tree's only node gets a new block each time; then entries are added beside it.
pub fn volume_map(b: &mut Bench) -> Done {
    let copies = vec![u64_at(b.disk().block(Volume::read(b.disk()).nodes(b.disk())[0]), 8)];
    (0..5).try_for_each(|_| b.commit(&Plan { copies: copies.clone(), ..Plan::default() }, None))?;
    for volume_map in map_edits() {
        b.commit(&Plan { volume_map, copies: copies.clone(), ..Plan::default() }, None)?;
    }
    Ok(())
}

