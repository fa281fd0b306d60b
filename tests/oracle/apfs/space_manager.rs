//! Shows the bitmap of the stand-in container to `Space::load` as a space manager on disk, and takes
//! over what `Space::finish` writes. All its blocks have addresses that no image reaches. One
//! chunk-info block holds every chunk, as long as it needs to be.

use crate::bytes::{u32_at, u64_at};
use crate::error::{corrupt, Result};
use crate::nx::Container;
use crate::write::{put_u32, put_u64, seal};

const BITMAPS: u64 = 1 << 40;
const CHUNK_INFO: u64 = 1 << 41;
const POOL_BITMAP: u64 = 1 << 42;
const POOL: u64 = 1 << 43;

const ADDRESSES: usize = 344;
const POOL_XIDS: usize = 352;
const POOL_INDICES: usize = 360;
const POOL_NEXT: usize = 364;
const LENGTH: usize = 368;

/// The space manager object: one device, no free-queue trees, a pool with room for every block that
/// `finish` may write.
pub fn object(c: &Container) -> Vec<u8> {
    let mut b = vec![0u8; LENGTH];
    let chunks = c.chunks.len();
    put_u32(&mut b, 32, c.block_size());
    put_u32(&mut b, 36, 8 * c.block_size());
    put_u32(&mut b, 40, chunks as u32);
    put_u64(&mut b, 48, c.blocks());
    put_u64(&mut b, 56, chunks as u64);
    put_u32(&mut b, 64, 1);
    put_u64(&mut b, 72, c.chunks.iter().map(|k| k.free as u64).sum());
    put_u32(&mut b, 80, ADDRESSES as u32);
    put_u64(&mut b, 152, chunks as u64 + 1);
    put_u32(&mut b, 160, 1);
    put_u32(&mut b, 164, 2);
    put_u64(&mut b, 168, POOL_BITMAP);
    put_u64(&mut b, 176, POOL);
    // The ring has two blocks: 0 is in use, 1 is the only free one.
    put_u32(&mut b, 320, 0x0001_0001);
    put_u32(&mut b, 324, POOL_XIDS as u32);
    put_u32(&mut b, 328, POOL_INDICES as u32);
    put_u32(&mut b, 332, POOL_NEXT as u32);
    put_u64(&mut b, ADDRESSES, CHUNK_INFO);
    put_u32(&mut b, POOL_NEXT, 0xffff_ffff);
    b
}

/// A block that the space manager keeps for itself.
pub fn block(c: &Container, paddr: u64) -> Result<Vec<u8>> {
    match paddr {
        CHUNK_INFO => Ok(chunk_info(c)),
        POOL_BITMAP => Ok(vec![0; c.size]),
        _ => {
            let i = paddr.wrapping_sub(BITMAPS) as usize;
            let chunk = c.chunks.get(i).ok_or_else(|| corrupt("no such block of the space manager"))?;
            Ok(chunk.bits.clone())
        }
    }
}

fn chunk_info(c: &Container) -> Vec<u8> {
    let mut b = vec![0u8; 40 + 32 * c.chunks.len()];
    put_u32(&mut b, 36, c.chunks.len() as u32);
    for (i, chunk) in c.chunks.iter().enumerate() {
        let e = 40 + 32 * i;
        put_u64(&mut b, e + 8, i as u64 * 8 * c.size as u64);
        put_u32(&mut b, e + 16, chunk.blocks);
        put_u32(&mut b, e + 20, chunk.free);
        put_u64(&mut b, e + 24, BITMAPS + i as u64);
    }
    seal(&mut b);
    b
}

/// Takes over bits and counts from what `Space::finish` wrote; a chunk that it left alone keeps its own.
pub fn take_over(c: &mut Container, writes: &[(u64, Vec<u8>)]) -> Result<()> {
    let written = |addr: u64| writes.iter().find(|w| w.0 == addr).map(|w| &w.1);
    let Some((_, info)) = writes.iter().find(|w| w.1.len() == 40 + 32 * c.chunks.len() && w.0 >= POOL && u64_at(&w.1, 8).ok() == Some(w.0))
    else {
        return Ok(());
    };
    for (i, chunk) in c.chunks.iter_mut().enumerate() {
        let e = 40 + 32 * i;
        chunk.free = u32_at(info, e + 20)?;
        if let Some(bits) = written(u64_at(info, e + 24)?) {
            chunk.bits.clone_from(bits);
        }
    }
    Ok(())
}
