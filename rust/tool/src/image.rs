//! An image file: read whole, its block size found, and blocks written back.

use std::fs::{self, File, OpenOptions};
use std::io::{Seek, SeekFrom, Write};

use crate::args::Args;
use crate::failure::Failure;

const SUPERBLOCK_MAGIC: &[u8; 4] = b"NXSB";

pub struct Image {
    pub name: String,
    pub bytes: Vec<u8>,
    pub size: usize,
}

impl Image {
    pub fn read(args: &Args) -> Result<Image, Failure> {
        let name = args.image.clone();
        let bytes = fs::read(&name).map_err(|why| Failure::Files(format!("{name} cannot be read: {why}")))?;
        let size = match args.number("--size")? {
            Some(size) => size as usize,
            None => superblock_size(&bytes)
                .ok_or_else(|| Failure::usage(format!("{name} has no container superblock at block 0: --size gives the block size")))?,
        };
        if !size.is_power_of_two() || !(512..=65536).contains(&size) {
            return Err(Failure::Files(format!("{size} is no block size: it is a power of two from 512 to 65536")));
        }
        if bytes.is_empty() || bytes.len() % size != 0 {
            return Err(Failure::Files(format!("{name} has {} bytes, which is no number of blocks of {size}", bytes.len())));
        }
        Ok(Image { name, bytes, size })
    }

    pub fn blocks(&self) -> u64 {
        (self.bytes.len() / self.size) as u64
    }

    /// The block at an address, if the image has it.
    pub fn block(&self, address: u64) -> Option<&[u8]> {
        let start = usize::try_from(address).ok()?.checked_mul(self.size)?;
        self.bytes.get(start..start.checked_add(self.size)?)
    }

    /// Whether block 0 is a container superblock.
    pub fn is_container(&self) -> bool {
        superblock_size(&self.bytes).is_some()
    }

    /// Writes these blocks to the file and waits until they are on the disk.
    pub fn write_blocks(&self, addresses: &[u64]) -> Result<(), Failure> {
        let failed = |why: std::io::Error| Failure::Files(format!("{} cannot be written: {why}", self.name));
        let mut file = OpenOptions::new().write(true).open(&self.name).map_err(failed)?;
        for &address in addresses {
            let block = self.block(address).ok_or_else(|| Failure::Files(format!("{} has no block {address}", self.name)))?;
            file.seek(SeekFrom::Start(address * self.size as u64)).map_err(failed)?;
            file.write_all(block).map_err(failed)?;
        }
        file.sync_all().map_err(failed)
    }
}

/// Writes a whole file beside the old one and puts it in its place.
pub fn replace(name: &str, bytes: &[u8]) -> Result<(), Failure> {
    let failed = |why: std::io::Error| Failure::Files(format!("{name} cannot be written: {why}"));
    let beside = format!("{name}.new");
    let mut file = File::create(&beside).map_err(failed)?;
    file.write_all(bytes).map_err(failed)?;
    file.sync_all().map_err(failed)?;
    fs::rename(&beside, name).map_err(failed)
}

fn superblock_size(bytes: &[u8]) -> Option<usize> {
    let found = bytes.get(32..36)? == SUPERBLOCK_MAGIC;
    let size = u32::from_le_bytes(bytes.get(36..40)?.try_into().ok()?);
    found.then_some(size as usize)
}
