//! A node as the picture needs it. The tool reads it itself; that a tree is sound only the library says.

const HEADER: usize = 56;
const INFO: usize = 40;
const ROOT: u16 = 1;
const FIXED: u16 = 4;

pub struct Node {
    pub xid: u64,
    pub level: u16,
    pub entries: u32,
    /// Bytes in use of the data space, and its length.
    pub used: usize,
    pub space: usize,
    /// The first key.
    pub first: Option<Vec<u8>>,
    /// Of an index node what it names its children by.
    pub children: Vec<u64>,
}

fn u16_at(block: &[u8], at: usize) -> Option<usize> {
    Some(usize::from(u16::from_le_bytes(block.get(at..at + 2)?.try_into().ok()?)))
}

fn u64_at(block: &[u8], at: usize) -> Option<u64> {
    Some(u64::from_le_bytes(block.get(at..at.checked_add(8)?)?.try_into().ok()?))
}

impl Node {
    /// The node of a block; none where an entry lies outside. `key` is the tree's fixed key length, 0 if there is none.
    pub fn read(block: &[u8], key: usize) -> Option<Node> {
        let flags = u16_at(block, 32)? as u16;
        let level = u16_at(block, 34)? as u16;
        let entries = u32::from_le_bytes(block.get(36..40)?.try_into().ok()?);
        let end = block.len() - if flags & ROOT != 0 { INFO } else { 0 };
        let space = end.checked_sub(HEADER)?;
        let free = u16_at(block, 46)? + u16_at(block, 50)? + u16_at(block, 54)?;
        let contents = HEADER + u16_at(block, 40)?;
        let keys = contents + u16_at(block, 42)?;
        let width = if flags & FIXED != 0 { 4 } else { 8 };
        let mut node = Node { xid: u64_at(block, 16)?, level, entries, used: space.saturating_sub(free), space, first: None, children: Vec::new() };
        if entries as usize > block.len() / width {
            return None;
        }
        for i in 0..if level > 0 { entries as usize } else { 0 } {
            let value = u16_at(block, contents + i * width + width / 2)?;
            node.children.push(u64_at(block, end.checked_sub(value)?)?);
        }
        if entries > 0 {
            let start = keys + u16_at(block, contents)?;
            let length = if width == 4 { key } else { u16_at(block, contents + 2)? };
            node.first = Some(block.get(start..start + length)?.to_vec());
        }
        Some(node)
    }

    /// How full it is, in percent.
    pub fn fill(&self) -> usize {
        self.used * 100 / self.space.max(1)
    }
}

#[cfg(test)]
mod tests {
    use super::Node;

    /// Any bytes at all are read or not, and never reached past.
    #[test]
    fn any_block() {
        let mut state = 1u64;
        let mut random = || {
            state = state.wrapping_mul(6364136223846793005).wrapping_add(1442695040888963407);
            (state >> 33) as u8
        };
        for round in 0..20000 {
            let mut block = [0u8; 512];
            block.iter_mut().for_each(|byte| *byte = random());
            // Half of them with few entries, so that the reader gets further.
            if round % 2 == 0 {
                block[37..40].fill(0);
                block[41] &= 1;
                block[43] &= 1;
            }
            if let Some(node) = Node::read(&block, usize::from(random())) {
                assert!(node.used <= node.space && node.fill() <= 100);
                assert_eq!(node.children.len(), if node.level > 0 { node.entries as usize } else { 0 });
            }
        }
    }
}
