//! Keys of the file-system tree: their own order, and the form in which byte order is that order.
//!
//! A key begins with a number that has the object id in its low 60 bits and the record's type above them. What
//! follows depends on the type. The tree's order is: object id, type, then the number that follows or the name.
//! Byte order on the keys as they are stored differs from this: numbers are little-endian, and a name's length
//! stands before it. `widen` turns a key into a form of the same length for which byte order is the tree's order:
//! numbers big-endian, the length of a name (which the key's own length tells) zero. `narrow` turns it back.

use std::cmp::Ordering;

use crate::bytes::{is_sealed, put_u16, put_u32, put_u64, seal, u16_at, u32_at, u64_at};
use crate::node::spans;

pub const EXTENT: u64 = 2;
pub const INODE: u64 = 3;
pub const XATTR: u64 = 4;
const SIBLING_LINK: u64 = 5;
pub const DSTREAM: u64 = 6;
pub const FILE_EXTENT: u64 = 8;
pub const DIR_REC: u64 = 9;
const SNAP_NAME: u64 = 11;
const FILE_INFO: u64 = 13;
const ID: u64 = 0x0fff_ffff_ffff_ffff;
/// The length of a name in the low 10 bits of a hashed directory record's number.
const NAME_LENGTH: u32 = 0x3ff;

pub fn key(id: u64, kind: u64) -> Vec<u8> {
    (id | kind << 60).to_le_bytes().to_vec()
}

pub fn id_of(key: &[u8]) -> u64 {
    u64_at(key, 0) & ID
}

fn kind_of(key: &[u8]) -> u64 {
    u64_at(key, 0) >> 60
}

/// The tree's order. `hashed`: directory records have the hash of their name.
pub fn compare(a: &[u8], b: &[u8], hashed: bool) -> Ordering {
    let head = |k: &[u8]| (id_of(k), kind_of(k));
    let tail = || match kind_of(a) {
        DIR_REC if hashed => (u32_at(a, 8) & !NAME_LENGTH).cmp(&(u32_at(b, 8) & !NAME_LENGTH)).then_with(|| a[12..].cmp(&b[12..])),
        DIR_REC | XATTR | SNAP_NAME => a[10..].cmp(&b[10..]),
        FILE_EXTENT | SIBLING_LINK | FILE_INFO => u64_at(a, 8).cmp(&u64_at(b, 8)),
        _ => Ordering::Equal,
    };
    head(a).cmp(&head(b)).then_with(tail)
}

pub fn widen(key: &mut [u8], hashed: bool) {
    let (id, kind) = (id_of(key), kind_of(key));
    match kind {
        DIR_REC if hashed => {
            let hash = u32_at(key, 8) & !NAME_LENGTH;
            key[8..12].copy_from_slice(&hash.to_be_bytes());
        }
        DIR_REC | XATTR | SNAP_NAME => put_u16(key, 8, 0),
        FILE_EXTENT | SIBLING_LINK | FILE_INFO => key[8..16].reverse(),
        _ => {}
    }
    key[..8].copy_from_slice(&(id << 4 | kind).to_be_bytes());
}

pub fn narrow(key: &mut [u8], hashed: bool) {
    let head = u64::from_be_bytes(key[..8].try_into().unwrap());
    let kind = head & 15;
    put_u64(key, 0, head >> 4 | kind << 60);
    match kind {
        DIR_REC if hashed => {
            let hash = u32::from_be_bytes(key[8..12].try_into().unwrap());
            let length = (key.len() - 12) as u32;
            put_u32(key, 8, hash | length);
        }
        DIR_REC | XATTR | SNAP_NAME => {
            let length = (key.len() - 10) as u16;
            put_u16(key, 8, length);
        }
        FILE_EXTENT | SIBLING_LINK | FILE_INFO => key[8..16].reverse(),
        _ => {}
    }
}

/// Turns every key of a node, where it lies, and seals the node again.
pub fn turn_node(block: &mut [u8], hashed: bool, turn: fn(&mut [u8], bool)) {
    assert!(is_sealed(block), "a node to turn is not sealed");
    for span in spans(block, None) {
        turn(&mut block[span.key], hashed);
    }
    seal(block);
}

/// Whether a stored key says its own name's length, as `narrow` assumes.
pub fn says_its_length(key: &[u8], hashed: bool) -> bool {
    match kind_of(key) {
        DIR_REC if hashed => (u32_at(key, 8) & NAME_LENGTH) as usize == key.len() - 12,
        DIR_REC | XATTR | SNAP_NAME => u16_at(key, 8) as usize == key.len() - 10,
        _ => true,
    }
}
