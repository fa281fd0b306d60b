//! Image and bitmap, and the lines that set them up.

use crate::checksum;
use crate::words::{EmptyRoot, Line};

const MOST_BYTES: u64 = 1 << 30;
const MOST_BLOCKS: u64 = 1 << 20;
const HEADER: usize = 56;
const INFO: usize = 40;

pub struct Disk {
    pub size: usize,
    pub image: Vec<u8>,
    pub bitmap: Vec<u8>,
    pub counts: Vec<u32>,
    pub free: Vec<u32>,
}

impl Disk {
    /// An image of zeros with nothing marked used; none where the sizes are none.
    pub fn new(blocks: u64, size: u64) -> Option<Self> {
        let sizes = (512..=65_536).contains(&size) && size.is_power_of_two();
        if !sizes || !(1..=MOST_BLOCKS).contains(&blocks) || blocks * size > MOST_BYTES {
            return None;
        }
        let chunks = blocks.div_ceil(8 * size);
        let counts: Vec<u32> = (0..chunks).map(|i| (blocks - i * 8 * size).min(8 * size) as u32).collect();
        let size = size as usize;
        let (image, bitmap) = (vec![0; blocks as usize * size], vec![0; chunks as usize * size]);
        Some(Self { size, image, bitmap, free: counts.clone(), counts })
    }

    pub fn blocks(&self) -> u64 {
        (self.image.len() / self.size) as u64
    }

    pub fn block(&self, addr: u64) -> Option<&[u8]> {
        (addr < self.blocks()).then(|| &self.image[addr as usize * self.size..][..self.size])
    }

    fn block_mut(&mut self, addr: u64) -> Option<&mut [u8]> {
        (addr < self.blocks()).then(|| &mut self.image[addr as usize * self.size..][..self.size])
    }

    /// None where the line is out of range; then nothing has changed.
    pub fn set_up(&mut self, line: &Line) -> Option<String> {
        Some(match line {
            Line::Block(addr, bytes) => {
                self.block(*addr)?;
                let start = *addr as usize * self.size;
                self.image.get_mut(start..start.checked_add(bytes.len())?)?.copy_from_slice(bytes);
                format!("(block {addr})")
            }
            Line::Seal(addr) => {
                checksum::seal(self.block_mut(*addr)?);
                format!("(seal {addr})")
            }
            Line::Mark(addr, count) => {
                self.mark(*addr, *count)?;
                format!("(mark {addr} {count})")
            }
            Line::Count(chunk, blocks, free) => {
                let c = usize::try_from(*chunk).ok()?;
                *self.counts.get_mut(c)? = *blocks;
                self.free[c] = *free;
                format!("(count {chunk} {blocks} {free})")
            }
            Line::Empty(e) => {
                let block = empty(e, self.size)?;
                self.block_mut(e.addr)?.copy_from_slice(&block);
                self.mark(e.addr, 1)?;
                format!("(empty {})", e.addr)
            }
            _ => return None,
        })
    }

    fn mark(&mut self, addr: u64, count: u64) -> Option<()> {
        if addr.checked_add(count)? > self.blocks() {
            return None;
        }
        for a in addr as usize..(addr + count) as usize {
            if self.bitmap[a / 8] >> (a % 8) & 1 == 0 {
                self.bitmap[a / 8] |= 1 << (a % 8);
                let free = &mut self.free[a / (8 * self.size)];
                *free = free.saturating_sub(1);
            }
        }
        Some(())
    }
}

fn put(b: &mut [u8], at: usize, bytes: &[u8]) {
    b[at..at + bytes.len()].copy_from_slice(bytes);
}

/// An empty root leaf; none where its contents alone are longer than the data space.
fn empty(e: &EmptyRoot, size: usize) -> Option<Vec<u8>> {
    let space = size - HEADER - INFO;
    let fixed = e.key != 0;
    let contents = if fixed { (space / (4 + e.key as usize + e.value as usize)).div_ceil(8) * 8 * 4 } else { 16 * 8 };
    let free = space.checked_sub(contents)?;
    let mut b = vec![0; size];
    put(&mut b, 8, &if e.physical { e.addr } else { e.id }.to_le_bytes());
    put(&mut b, 16, &e.xid.to_le_bytes());
    put(&mut b, 24, &(2 | if e.physical { 0x4000_0000u32 } else { 0 }).to_le_bytes());
    put(&mut b, 28, &e.subtype.to_le_bytes());
    put(&mut b, 32, &[if fixed { 7 } else { 3 }]);
    for (i, w) in [0, contents as u16, 0, free as u16, 0xffff, 0, 0xffff, 0].iter().enumerate() {
        put(&mut b, 40 + 2 * i, &w.to_le_bytes());
    }
    for (i, w) in [e.flags, size as u32, e.key, e.value].iter().enumerate() {
        put(&mut b, size - INFO + 4 * i, &w.to_le_bytes());
    }
    put(&mut b, size - 8, &1u64.to_le_bytes());
    checksum::seal(&mut b);
    Some(b)
}
