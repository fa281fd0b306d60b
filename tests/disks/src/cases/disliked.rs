//! What `apfsck` dislikes by design: the editor is right to write it, but no container holds it. Each must be disliked in these very words.

use super::Done;
use crate::bench::Bench;
use crate::bytes::u64_at;
use crate::container::Container;
use crate::editor::{Order, Place};
use crate::plan::{Edit, Plan};
use crate::volume::Volume;

const UNUSED: u64 = 1_000_000;

fn mapping(id: u64, xid: u64, address: u64) -> Edit {
    let value = [0u32.to_le_bytes(), 4096u32.to_le_bytes()].concat();
    Edit::Put([id, xid].map(u64::to_le_bytes).concat(), [value, address.to_le_bytes().to_vec()].concat())
}

fn ghost(id: u64, xid: u64) -> Edit {
    Edit::Ghost([id, xid].map(u64::to_le_bytes).concat())
}

pub fn disliked(b: &mut Bench) -> Done {
    let volume = Volume::read(b.disk());
    let xid = Container::read(b.disk()).xid() + 1;
    let node = volume.nodes(b.disk())[0];
    let root = u64_at(b.disk().block(node), 8);
    let of_volume = |edit: Edit| Plan { volume_map: vec![edit], ..Plan::default() };
    let of_container = |edit: Edit| Plan { container_map: vec![edit], ..Plan::default() };
    let never = "Omap record: oid-xid combination is never used.";
    b.disliked(&of_volume(mapping(UNUSED, xid, node)), never)?;
    b.disliked(&of_container(mapping(UNUSED, xid, node)), never)?;
    let leaked = "Leaked omap record: unexpected object type.";
    b.disliked(&of_container(mapping(volume.id, xid - 1, volume.address)), leaked)?;
    b.disliked(&Plan { copies: vec![root], ..of_volume(mapping(root, xid - 1, node)) }, leaked)?;
    b.disliked(&of_volume(ghost(UNUSED, xid)), "B-tree: value is out-of-bounds.")?;
    b.disliked(&of_container(ghost(UNUSED, xid)), "B-tree: value is out-of-bounds.")?;
    b.commit(&Plan::default(), None)
}

/// The file-system tree as it is stored is not in byte order: `mkapfs` itself puts `private-dir` before `root`. The library refuses to open it (9).
/// It refuses a free queue too: an ephemeral node's id is not its address (6).
pub fn as_stored(b: &mut Bench) -> Done {
    let place = Volume::read(b.disk()).tree();
    b.not_opened(place, "refusal 9")?;
    let queues: Vec<u64> = Container::read(b.disk()).mappings.iter().filter(|m| m.subtype == 9).map(|m| m.address).collect();
    assert_eq!(queues.len(), 2);
    for root in queues {
        b.not_opened(Place { root, map: None, order: Order::Pair, xid: place.xid }, "refusal 6")?;
    }
    b.commit(&Plan::default(), None)
}
