//! The programs of apfsprogs: one makes containers, the other judges them.

use std::fs::{File, OpenOptions};
use std::os::unix::fs::FileExt;
use std::path::{Path, PathBuf};
use std::process::Command;

use crate::container;
use crate::disk::Disk;

fn run(program: &str, arguments: &[&str], path: &Path) -> Result<(), String> {
    let done = Command::new(program).args(arguments).arg(path).output().map_err(|e| format!("{program}: {e}"))?;
    let said = [done.stdout, done.stderr].concat();
    let said = String::from_utf8_lossy(&said).trim().to_string();
    if done.status.success() && said.is_empty() {
        return Ok(());
    }
    Err(format!("{program} {}: {}: {said}", arguments.join(" "), done.status))
}

/// A container in a file, and what the file holds by now.
pub struct Sheet {
    path: PathBuf,
    file: File,
    written: Vec<u8>,
    size: usize,
}

impl Sheet {
    pub fn make(path: &Path, mebibytes: u64, options: &[&str]) -> Result<(Self, Disk), String> {
        let open = OpenOptions::new().read(true).write(true).create(true).truncate(true).open(path);
        let file = open.and_then(|f| f.set_len(mebibytes << 20).map(|()| f)).map_err(|e| e.to_string())?;
        run("mkapfs", options, path)?;
        let written = std::fs::read(path).map_err(|e| e.to_string())?;
        let (size, blocks) = container::sizes(&written);
        assert_eq!(size as u64 * blocks, written.len() as u64);
        let disk = Disk::new(written.clone(), size);
        Ok((Self { path: path.into(), file, written, size }, disk))
    }

    /// All options: also signs of a crash, unknown features and what is merely odd.
    pub fn judge(&self) -> Result<(), String> {
        run("apfsck", &["-cuw"], &self.path)
    }

    /// Writes the blocks that changed; gives how many.
    pub fn write(&mut self, image: &[u8]) -> Result<u64, String> {
        let mut changed = 0;
        let blocks = image.chunks(self.size).zip(self.written.chunks_mut(self.size)).enumerate();
        for (i, (new, old)) in blocks.filter(|(_, (new, old))| new != old) {
            self.file.write_all_at(new, (i * self.size) as u64).map_err(|e| e.to_string())?;
            old.copy_from_slice(new);
            changed += 1;
        }
        Ok(changed)
    }

    /// Judges the file as if the program had ended before it wrote the new superblock: the checkpoint before must be whole.
    pub fn judge_before(&mut self, superblock: u64, block_0: &[u8]) -> Result<(), String> {
        let image = std::mem::take(&mut self.written);
        let put = |at: u64, bytes: &[u8]| self.file.write_all_at(bytes, at * self.size as u64).map_err(|e| e.to_string());
        put(superblock, &vec![0; self.size])?;
        put(0, block_0)?;
        let verdict = self.judge();
        put(superblock, &image[superblock as usize * self.size..][..self.size])?;
        put(0, &image[..self.size])?;
        self.written = image;
        verdict.map_err(|e| format!("the checkpoint before: {e}"))
    }
}
