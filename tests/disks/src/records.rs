//! Records of the file-system tree, as bytes.

use crate::bytes::{put_u16, put_u32, put_u64};
use crate::keys::{key, DIR_REC, DSTREAM, EXTENT, FILE_EXTENT, INODE, XATTR};

const INODE_FIXED: usize = 92;
const NAME_FIELD: (u8, u8) = (4, 2);
const DSTREAM_FIELD: (u8, u8) = (8, 0x20);
const DSTREAM_LENGTH: usize = 40;
/// An extent that no snapshot has seen.
const NEW: u64 = 1 << 60;
const EMBEDDED: u16 = 2;
const SYSTEM_OWNED: u16 = 4;
pub const SYMLINK: &str = "com.apple.fs.symlink";

#[derive(Clone, Copy, PartialEq, Debug)]
pub enum Kind {
    Directory,
    File,
    Link,
}

impl Kind {
    /// The file type as a directory record has it: the high 4 bits of the mode.
    fn code(self) -> u16 {
        match self {
            Kind::Directory => 4,
            Kind::File => 8,
            Kind::Link => 10,
        }
    }
}

#[derive(Clone)]
pub struct Inode {
    pub parent: u64,
    pub id: u64,
    pub name: String,
    pub kind: Kind,
    /// Children of a directory, links of anything else.
    pub links: u32,
    pub time: u64,
    /// Bytes of a file's data stream, if it has one.
    pub bytes: Option<u64>,
}

pub fn inode_key(id: u64) -> Vec<u8> {
    key(id, INODE)
}

/// `j_inode_val_t` with its extended fields: the name and, if there is one, the data stream.
pub fn inode_value(inode: &Inode) -> Vec<u8> {
    let mut v = vec![0; INODE_FIXED];
    put_u64(&mut v, 0, inode.parent);
    put_u64(&mut v, 8, inode.id);
    (16..48).step_by(8).for_each(|at| put_u64(&mut v, at, inode.time));
    put_u32(&mut v, 56, inode.links);
    put_u16(&mut v, 80, inode.kind.code() << 12 | 0o755);
    let mut fields = vec![(NAME_FIELD, [inode.name.as_bytes(), &[0]].concat())];
    if let Some(bytes) = inode.bytes {
        let mut stream = vec![0; DSTREAM_LENGTH];
        put_u64(&mut stream, 0, bytes);
        put_u64(&mut stream, 8, bytes);
        fields.push((DSTREAM_FIELD, stream));
    }
    v.extend(extended(&fields));
    v
}

/// `xf_blob_t`: count and length, then type, flags and length of each field, then their values padded to 8 bytes.
fn extended(fields: &[((u8, u8), Vec<u8>)]) -> Vec<u8> {
    let mut values = Vec::new();
    let mut blob = (fields.len() as u16).to_le_bytes().to_vec();
    for (_, value) in fields {
        values.extend(value);
        values.resize(values.len().div_ceil(8) * 8, 0);
    }
    blob.extend((values.len() as u16).to_le_bytes());
    for ((kind, flags), value) in fields {
        blob.extend([*kind, *flags]);
        blob.extend((value.len() as u16).to_le_bytes());
    }
    blob.extend(values);
    blob
}

/// A data stream's record: it is used once.
pub fn stream_record(id: u64) -> (Vec<u8>, Vec<u8>) {
    (key(id, DSTREAM), 1u32.to_le_bytes().to_vec())
}

/// `j_file_extent_key_t` and its value: blocks from `address` on, at a byte of a file.
pub fn extent_record(id: u64, byte: u64, address: u64, bytes: u64) -> (Vec<u8>, Vec<u8>) {
    ([key(id, FILE_EXTENT), byte.to_le_bytes().to_vec()].concat(), [bytes, address, 0].map(u64::to_le_bytes).concat())
}

/// `j_phys_ext_key_t` and its value, of the extent-reference tree: blocks that one file uses.
pub fn reference_record(id: u64, address: u64, blocks: u64) -> (Vec<u8>, Vec<u8>) {
    let value = [(blocks | NEW).to_le_bytes(), id.to_le_bytes()].concat();
    (key(address, EXTENT), [value, 1u32.to_le_bytes().to_vec()].concat())
}

/// `hash`: of the name, as the volume has it; none where names are not hashed.
pub fn entry_key(directory: u64, name: &str, hash: Option<u32>) -> Vec<u8> {
    let mut k = key(directory, DIR_REC);
    let length = name.len() + 1;
    match hash {
        Some(hash) => k.extend((hash | length as u32).to_le_bytes()),
        None => k.extend((length as u16).to_le_bytes()),
    }
    k.extend(name.as_bytes());
    k.push(0);
    k
}

pub fn entry_value(inode: &Inode) -> Vec<u8> {
    let mut v = inode.id.to_le_bytes().to_vec();
    v.extend(inode.time.to_le_bytes());
    v.extend(inode.kind.code().to_le_bytes());
    v
}

pub fn xattr_key(id: u64, name: &str) -> Vec<u8> {
    let mut k = key(id, XATTR);
    k.extend((name.len() as u16 + 1).to_le_bytes());
    k.extend(name.as_bytes());
    k.push(0);
    k
}

pub fn xattr_value(name: &str, data: &[u8]) -> Vec<u8> {
    let flags = EMBEDDED | if name == SYMLINK { SYSTEM_OWNED } else { 0 };
    let mut v = flags.to_le_bytes().to_vec();
    v.extend((data.len() as u16).to_le_bytes());
    v.extend(data);
    v
}

/// The hash of a name of plain letters, in the high 22 bits: CRC-32C over its characters as 32-bit numbers.
pub fn name_hash(name: &str, folds_case: bool) -> u32 {
    let mut crc = u32::MAX;
    for c in name.chars() {
        assert!(c.is_ascii(), "names here need no normalization");
        let c = if folds_case { c.to_ascii_lowercase() } else { c };
        for byte in (c as u32).to_le_bytes() {
            crc ^= byte as u32;
            (0..8).for_each(|_| crc = crc >> 1 ^ if crc & 1 == 1 { 0x82f6_3b78 } else { 0 });
        }
    }
    (crc & 0x3f_ffff) << 10
}
