//! The root of an empty tree. The library edits trees and does not make the first one; what is packed here, open holds to its rules.

const HEADER: usize = 56;
const INFO: usize = 40;
const PHYSICAL: u32 = 0x4000_0000;
const BTREE: u32 = 2;
const OMAP: u32 = 11;
const ROOT_LEAF: u16 = 3;
const FIXED: u16 = 4;

/// The root of an empty tree, to be packed into a block.
#[derive(Clone, Debug)]
pub struct Empty {
    /// Of a physical tree the block's address; of a virtual one its root's id.
    pub id: u64,
    /// The transaction that writes it.
    pub xid: u64,
    /// Whether nodes are named by id.
    pub is_virtual: bool,
    /// What it is a tree of.
    pub subtype: u32,
    /// Flags of the tree info; 0x40: lengths are not padded to 8.
    pub flags: u32,
    /// The fixed lengths of keys and values.
    pub fixed: Option<(u32, u32)>,
}

impl Empty {
    /// An object map's root, at the block `address`.
    pub fn omap(address: u64) -> Empty {
        Empty { id: address, xid: 0, is_virtual: false, subtype: OMAP, flags: 0, fixed: Some((16, 16)) }
    }

    /// Packs and seals the root into a block.
    ///
    /// # Panics
    /// If the block is shorter than 512 bytes or longer than 65,536.
    pub fn pack(&self, block: &mut [u8]) {
        let size = block.len();
        assert!((512..=65536).contains(&size), "{size} is no block size");
        let space = size - HEADER - INFO;
        let (key, value) = self.fixed.unwrap_or((0, 0));
        let contents = match self.fixed {
            Some(_) => (space / (4 + key as usize + value as usize)).next_multiple_of(8) * 4,
            None => 16 * 8,
        };
        block.fill(0);
        let mut put = |at: usize, bytes: &[u8]| block[at..at + bytes.len()].copy_from_slice(bytes);
        put(8, &self.id.to_le_bytes());
        put(16, &self.xid.to_le_bytes());
        put(24, &(BTREE | if self.is_virtual { 0 } else { PHYSICAL }).to_le_bytes());
        put(28, &self.subtype.to_le_bytes());
        put(32, &(ROOT_LEAF | if self.fixed.is_some() { FIXED } else { 0 }).to_le_bytes());
        put(42, &(contents as u16).to_le_bytes());
        put(46, &((space - contents) as u16).to_le_bytes());
        put(48, &[0xFF, 0xFF, 0, 0, 0xFF, 0xFF, 0, 0]);
        let info = size - INFO;
        put(info, &self.flags.to_le_bytes());
        put(info + 4, &(size as u32).to_le_bytes());
        put(info + 8, &key.to_le_bytes());
        put(info + 12, &value.to_le_bytes());
        put(info + 32, &1u64.to_le_bytes());
        seal(block);
    }
}

/// Stores a block's Fletcher sum in its first 8 bytes.
///
/// # Panics
/// If the block has no 8 bytes.
pub fn seal(block: &mut [u8]) {
    const M: u64 = 0xFFFF_FFFF;
    let (mut s1, mut s2) = (0u64, 0u64);
    for word in block[8..].chunks_exact(4) {
        s1 = (s1 + u64::from(u32::from_le_bytes(word.try_into().expect("4 bytes")))) % M;
        s2 = (s2 + s1) % M;
    }
    let c1 = M - (s1 + s2) % M;
    let c2 = M - (s1 + c1) % M;
    block[..8].copy_from_slice(&(c2 << 32 | c1).to_le_bytes());
}

#[cfg(test)]
mod tests {
    use super::seal;

    #[test]
    fn seals_of_the_rules() {
        let mut block = [0; 32];
        seal(&mut block);
        assert_eq!(block[..8], [0xFF; 8]);
        block[8] = 1;
        seal(&mut block);
        assert_eq!(block[..8], 0x0000_0006_FFFF_FFF8u64.to_le_bytes());
    }
}
