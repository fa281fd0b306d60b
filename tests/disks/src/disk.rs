//! What is lent to an editor: the image, the bitmap with a block for each chunk, the chunks' counts.

use crate::bytes::{put_u64, seal};

#[derive(Clone)]
pub struct Disk {
    pub size: usize,
    pub image: Vec<u8>,
    pub bitmap: Vec<u8>,
    pub counts: Vec<u32>,
    pub free: Vec<u32>,
}

impl Disk {
    pub fn new(image: Vec<u8>, size: usize) -> Self {
        Self { size, image, bitmap: Vec::new(), counts: Vec::new(), free: Vec::new() }
    }

    pub fn block(&self, address: u64) -> &[u8] {
        &self.image[address as usize * self.size..][..self.size]
    }

    pub fn block_mut(&mut self, address: u64) -> &mut [u8] {
        &mut self.image[address as usize * self.size..][..self.size]
    }

    /// Stores an object with its transaction and its seal.
    pub fn store(&mut self, address: u64, xid: u64, mut object: Vec<u8>) {
        put_u64(&mut object, 16, xid);
        seal(&mut object);
        self.block_mut(address).copy_from_slice(&object);
    }

    /// The same for a physical object: its id is its address.
    pub fn store_physical(&mut self, address: u64, xid: u64, mut object: Vec<u8>) {
        put_u64(&mut object, 8, address);
        self.store(address, xid, object);
    }

    pub fn per_chunk(&self) -> usize {
        8 * self.size
    }

    pub fn is_used(&self, address: u64) -> bool {
        self.bitmap[address as usize / 8] >> (address % 8) & 1 == 1
    }

    /// Takes the block that the editor would take next.
    pub fn take(&mut self) -> u64 {
        for chunk in 0..self.free.len() {
            let first = (chunk * self.per_chunk()) as u64;
            let blocks = first..first + self.counts[chunk] as u64;
            if let Some(address) = blocks.into_iter().find(|&a| self.free[chunk] > 0 && !self.is_used(a)) {
                self.mark(address);
                return address;
            }
        }
        panic!("the container is full");
    }

    /// Marks a free block as used.
    pub fn mark(&mut self, address: u64) {
        assert!(!self.is_used(address), "block {address} is in use");
        self.bitmap[address as usize / 8] |= 1 << (address % 8);
        let chunk = address as usize / self.per_chunk();
        self.free[chunk] -= 1;
    }

    /// Gives a block back that no checkpoint uses any more.
    pub fn release(&mut self, address: u64) {
        assert!(self.is_used(address), "block {address} is given back twice");
        self.bitmap[address as usize / 8] &= !(1 << (address % 8));
        let chunk = address as usize / self.per_chunk();
        self.free[chunk] += 1;
    }
}
