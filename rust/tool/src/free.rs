//! Which blocks a command may write to. The tool does not guess: it is told by --free or by --bitmap.

use std::fs;

use moachest::Space;

use crate::args::{number, Args};
use crate::failure::Failure;
use crate::image::{replace, Image};

/// The free blocks, and the file that they came from.
pub struct Free {
    pub space: Space,
    file: Option<(String, usize)>,
}

impl Free {
    pub fn read(args: &Args, image: &Image) -> Result<Free, Failure> {
        let ranges: Vec<&str> = args.all("--free").collect();
        match (args.word("--bitmap")?, ranges.is_empty()) {
            (Some(name), true) => Free::of_bitmap(name, image),
            (None, false) => Free::of_ranges(&ranges, image),
            (None, true) => Err(Failure::usage("which blocks are free? --free FIRST:COUNT or --bitmap FILE says so")),
            (Some(_), false) => Err(Failure::usage("--free or --bitmap, not both")),
        }
    }

    /// All blocks are used but those of the ranges.
    fn of_ranges(ranges: &[&str], image: &Image) -> Result<Free, Failure> {
        let mut space = Space::new(image.blocks() as usize, image.size);
        space.mark(0, image.blocks());
        for range in ranges {
            let (first, count) = range.split_once(':').ok_or_else(|| Failure::usage(format!("--free takes FIRST:COUNT, not {range}")))?;
            let (first, count) = (number("--free", first)?, number("--free", count)?);
            let end = first.checked_add(count).filter(|&end| end <= image.blocks());
            let end = end.ok_or_else(|| Failure::usage(format!("--free {range} goes past the image's {} blocks", image.blocks())))?;
            (first..end).for_each(|block| space.release(block));
        }
        Ok(Free { space, file: None })
    }

    /// Bit i % 8 of byte i / 8 is block i, 1 means used.
    fn of_bitmap(name: &str, image: &Image) -> Result<Free, Failure> {
        let bytes = fs::read(name).map_err(|why| Failure::Files(format!("{name} cannot be read: {why}")))?;
        if (bytes.len() as u64) < image.blocks().div_ceil(8) {
            return Err(Failure::Files(format!("{name} has fewer bits than the image has blocks")));
        }
        let mut space = Space::new(image.blocks() as usize, image.size);
        let used = |block: &u64| bytes[(block / 8) as usize] >> (block % 8) & 1 == 1;
        (0..image.blocks()).filter(used).for_each(|block| space.mark(block, 1));
        Ok(Free { space, file: Some((name.to_string(), bytes.len())) })
    }

    /// A block that is in use and said to be free is a mistake that would cost the tree.
    pub fn spares(&self, blocks: &[u64], whose: &str) -> Result<(), Failure> {
        match blocks.iter().find(|&&block| !self.space.is_used(block)) {
            Some(block) => Err(Failure::Usage(format!("block {block} is {whose}, and is said to be free"))),
            None => Ok(()),
        }
    }

    /// Writes the bitmap's file, if there is one. Bits past the image's blocks stay as they are.
    pub fn write(&self) -> Result<(), Failure> {
        let Some((name, length)) = &self.file else { return Ok(()) };
        let mut bytes = fs::read(name).map_err(|why| Failure::Files(format!("{name} cannot be read: {why}")))?;
        if bytes.len() != *length {
            return Err(Failure::Files(format!("{name} has another length now")));
        }
        for (old, new) in bytes.iter_mut().zip(&self.space.bitmap) {
            *old |= new;
        }
        replace(name, &bytes)
    }
}
