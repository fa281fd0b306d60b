//! Stands in for nx.rs, which leans on files that are not there (omap.rs) and on devices. It holds the
//! image and the bitmap, and answers the five questions that space.rs and tree.rs ask a container.

use std::sync::Arc;

use crate::btree::Node;
use crate::checksum;
use crate::error::{corrupt, Result};
use crate::space_manager;

/// One chunk of the bitmap: a bit for each block, and the two counts as they are stored.
#[derive(Clone)]
pub struct Chunk {
    pub bits: Vec<u8>,
    pub blocks: u32,
    pub free: u32,
}

#[derive(Clone)]
pub struct Superblock {
    pub spaceman_oid: u64,
}

#[derive(Clone)]
pub struct Container {
    pub sb: Superblock,
    pub size: usize,
    pub image: Vec<u8>,
    pub chunks: Vec<Chunk>,
}

impl Container {
    /// An image of zeros with nothing marked used.
    pub fn new(blocks: u64, size: usize) -> Self {
        let per_chunk = 8 * size as u64;
        let chunks = (0..blocks.div_ceil(per_chunk))
            .map(|i| {
                let n = (blocks - i * per_chunk).min(per_chunk) as u32;
                Chunk { bits: vec![0; size], blocks: n, free: n }
            })
            .collect();
        Self { sb: Superblock { spaceman_oid: 1 }, size, image: vec![0; blocks as usize * size], chunks }
    }

    pub fn blocks(&self) -> u64 {
        (self.image.len() / self.size) as u64
    }

    pub fn block_size(&self) -> u32 {
        self.size as u32
    }

    pub fn block(&self, paddr: u64) -> Option<&[u8]> {
        (paddr < self.blocks()).then(|| &self.image[paddr as usize * self.size..][..self.size])
    }

    /// Unlike the published container this reads block 0 too: document 01 puts trees there.
    pub fn node(&self, paddr: u64) -> Result<Arc<Node>> {
        let block = self.block(paddr).ok_or_else(|| corrupt("block address outside the container"))?;
        if !checksum::verify(block) {
            return Err(corrupt("checksum mismatch"));
        }
        Ok(Arc::new(Node::parse(block.to_vec())?))
    }

    /// Only the space manager's own blocks are asked for; they lie past every image.
    pub fn raw_block(&self, paddr: u64) -> Result<Vec<u8>> {
        space_manager::block(self, paddr)
    }

    pub fn ephemeral(&self, _oid: u64) -> Result<Vec<u8>> {
        Ok(space_manager::object(self))
    }

    pub fn ephemeral_paddr(&self, _oid: u64) -> Option<u64> {
        None
    }

    /// Stores a block that flush wrote. One past the image is lost, as no device would hold it.
    pub fn store(&mut self, paddr: u64, bytes: &[u8]) {
        if paddr < self.blocks() {
            self.image[paddr as usize * self.size..][..self.size].copy_from_slice(bytes);
        }
    }
}
