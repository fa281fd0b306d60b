//! The volume as the newest checkpoint has it.

use crate::bytes::u64_at;
use crate::container::{Container, FS_OID, OMAP_OID};
use crate::disk::Disk;
use crate::editor::{Order, Place};
use crate::node;

// apfs_superblock_t
const INCOMPATIBLE: usize = 56;
pub const VOLUME_OMAP: usize = 128;
pub const ROOT_TREE: usize = 136;
pub const EXTENTREF_TREE: usize = 144;
pub const NEXT_OBJ_ID: usize = 176;
// omap_phys_t
pub const OM_TREE: usize = 48;
/// Names fold case, or are normalized: directory records have hashed keys.
const CASE_INSENSITIVE: u64 = 1;
const NORMALIZATION_INSENSITIVE: u64 = 8;

pub struct Volume {
    pub superblock: Vec<u8>,
    pub address: u64,
    pub id: u64,
    /// Roots of the trees of the two object maps.
    pub container_map: u64,
    pub volume_map: u64,
}

impl Volume {
    pub fn read(disk: &Disk) -> Self {
        let container = Container::read(disk);
        let container_map = u64_at(disk.block(container.u64(OMAP_OID)), OM_TREE);
        let id = container.u64(FS_OID);
        let address = node::address_of(&node::object_map(disk, container_map).0, id);
        let superblock = disk.block(address).to_vec();
        let volume_map = u64_at(disk.block(u64_at(&superblock, VOLUME_OMAP)), OM_TREE);
        Self { superblock, address, id, container_map, volume_map }
    }

    pub fn hashed(&self) -> bool {
        u64_at(&self.superblock, INCOMPATIBLE) & (CASE_INSENSITIVE | NORMALIZATION_INSENSITIVE) != 0
    }

    pub fn folds_case(&self) -> bool {
        u64_at(&self.superblock, INCOMPATIBLE) & CASE_INSENSITIVE != 0
    }

    pub fn next_id(&self) -> u64 {
        u64_at(&self.superblock, NEXT_OBJ_ID)
    }

    /// The file-system tree, in byte order.
    pub fn tree(&self) -> Place {
        let (root, map) = (u64_at(&self.superblock, ROOT_TREE), Some(self.volume_map));
        Place { root, map, order: Order::Byte, xid: u64_at(&self.superblock, 16) }
    }

    /// Addresses of the file-system tree's nodes, a node before its children.
    pub fn nodes(&self, disk: &Disk) -> Vec<u64> {
        node::tree_nodes(disk, Some(&node::object_map(disk, self.volume_map).0), u64_at(&self.superblock, ROOT_TREE))
    }

    /// The same of the extent-reference tree.
    pub fn extent_nodes(&self, disk: &Disk) -> Vec<u64> {
        node::tree_nodes(disk, None, u64_at(&self.superblock, EXTENTREF_TREE))
    }
}
