//! Stands in for the reader of virtual nodes and for the object map (vol.rs and omap.rs, which are not
//! there): an id is looked up with the published `lookup_le` and `omap_cmp`.

use std::sync::Arc;

use crate::btree::{lookup_le, Node};
use crate::bytes::{u32_at, u64_at};
use crate::error::{corrupt, unsupported, Result};
use crate::nx::Container;
use crate::write::allocator::NodeReader;
use crate::write::tree::{omap_cmp, Reader};

const ENCRYPTED: u32 = 4;

pub struct MapReader<'a> {
    pub container: &'a Container,
    /// Address of the object map's root.
    pub map: u64,
    /// The transaction seen.
    pub xid: u64,
    /// Ids that a flush wrote and that the map does not know yet.
    pub moved: &'a [(u64, u64)],
}

impl MapReader<'_> {
    pub fn address(&self, id: u64) -> Result<u64> {
        if let Some(&(_, paddr)) = self.moved.iter().find(|m| m.0 == id) {
            return Ok(paddr);
        }
        let root = self.container.node(self.map)?;
        let info = root.info()?;
        let mut wanted = id.to_le_bytes().to_vec();
        wanted.extend(self.xid.to_le_bytes());
        let found = lookup_le(&NodeReader(self.container), &root, &info, &Ok, &|k| Ok(omap_cmp(k, &wanted)))?;
        let (key, value) = found.ok_or_else(|| corrupt("no mapping"))?;
        if u64_at(&key, 0)? != id {
            return Err(corrupt("no mapping"));
        }
        let value = value.ok_or_else(|| corrupt("no mapping"))?;
        if u32_at(&value, 0)? & ENCRYPTED != 0 {
            return Err(unsupported("encrypted"));
        }
        u64_at(&value, 8)
    }
}

impl Reader for MapReader<'_> {
    fn read(&self, id: u64) -> Result<(Arc<Node>, u64)> {
        let paddr = self.address(id)?;
        Ok((self.container.node(paddr)?, paddr))
    }
}

/// Every entry below a root, leaves left to right, ghosts too, by the published scan.
pub fn walk(container: &Container, virt: Option<&MapReader>, root: u64) -> Result<Vec<(Vec<u8>, Option<Vec<u8>>)>> {
    let address = |r: u64| virt.map_or(Ok(r), |m| m.address(r));
    let node = container.node(address(root)?)?;
    let info = node.info()?;
    let mut out = Vec::new();
    crate::btree::scan_with_ghosts(&NodeReader(container), &node, &info, &address, &mut |k, v| {
        out.push((k.to_vec(), v.map(<[u8]>::to_vec)));
        Ok(true)
    })?;
    Ok(out)
}
