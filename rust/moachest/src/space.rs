//! Which blocks are free.

/// Which blocks flush may take: a bitmap and each chunk's counts (docs/RULES.md#bitmap).
///
/// The fields are lent to flush as they are; it is refused with [`Refusal::Lent`](crate::Refusal::Lent) where their lengths are wrong.
#[derive(Clone, Debug, PartialEq, Eq)]
pub struct Space {
    /// One block for each chunk of 8 × size blocks. Block i has bit i % 8 of byte i / 8; 1 means used.
    pub bitmap: Vec<u8>,
    /// Each chunk's block count.
    pub counts: Vec<u32>,
    /// Each chunk's free count.
    pub free: Vec<u32>,
}

impl Space {
    /// The space of an image of `blocks` blocks of `size` bytes, all free.
    pub fn new(blocks: usize, size: usize) -> Space {
        let each = 8 * size;
        let counts: Vec<u32> = (0..blocks.div_ceil(each.max(1))).map(|c| (blocks - c * each).min(each) as u32).collect();
        Space { bitmap: vec![0; counts.len() * size], free: counts.clone(), counts }
    }

    /// Whether a block is marked used; one that has no bit is.
    pub fn is_used(&self, block: u64) -> bool {
        match self.bitmap.get((block / 8) as usize) {
            Some(byte) => byte >> (block % 8) & 1 == 1,
            None => true,
        }
    }

    /// Marks `count` blocks from `first` on as used, and counts those that were free.
    ///
    /// # Panics
    /// If a block has no bit.
    pub fn mark(&mut self, first: u64, count: u64) {
        for block in first..first + count {
            let chunk = self.chunk_of(block);
            if !self.is_used(block) {
                self.bitmap[(block / 8) as usize] |= 1 << (block % 8);
                self.free[chunk] = self.free[chunk].saturating_sub(1);
            }
        }
    }

    /// Marks a block as free again: one that flush freed, once nobody needs the old tree any more.
    ///
    /// # Panics
    /// If the block has no bit.
    pub fn release(&mut self, block: u64) {
        let chunk = self.chunk_of(block);
        if self.is_used(block) {
            self.bitmap[(block / 8) as usize] &= !(1 << (block % 8));
            self.free[chunk] += 1;
        }
    }

    fn chunk_of(&self, block: u64) -> usize {
        let each = 8 * (self.bitmap.len() / self.counts.len().max(1)) as u64;
        assert!(block < 8 * self.bitmap.len() as u64, "block {block} has no bit");
        (block / each) as usize
    }
}

#[cfg(test)]
mod tests {
    use super::Space;

    #[test]
    fn chunks_and_counts() {
        let mut s = Space::new(4096 + 5, 512);
        assert_eq!((s.bitmap.len(), s.counts.clone(), s.free.clone()), (1024, vec![4096, 5], vec![4096, 5]));
        s.mark(4095, 2);
        s.mark(4096, 1);
        assert_eq!(s.free, [4095, 4]);
        assert!(s.is_used(4095) && s.is_used(4096) && !s.is_used(4094) && !s.is_used(4097) && s.is_used(1 << 40));
        s.release(4096);
        s.release(4096);
        assert_eq!((s.free[1], s.is_used(4096)), (5, false));
    }

    #[test]
    fn no_blocks_or_no_size() {
        assert_eq!(Space::new(0, 512).counts, []);
        assert_eq!(Space::new(3, 0).bitmap, []);
    }
}
