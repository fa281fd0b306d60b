//! What a flush did, or why it was refused.

use std::error::Error;
use std::fmt;

use crate::refusal::Refusal;
use crate::tree::Tree;

/// What [`Tree::flush`] did.
#[derive(Clone, Debug, PartialEq, Eq)]
pub struct Flushed {
    /// The root: its address (physical) or object id (virtual).
    pub root: u64,
    /// Virtual trees: nodes written, as (id, new address).
    pub moved: Vec<(u64, u64)>,
    /// Virtual trees: ids of nodes no longer in the tree.
    pub removed: Vec<u64>,
    /// Blocks written.
    pub allocated: u64,
    /// Blocks freed.
    pub freed: u64,
    /// Their addresses. Their bits stay set: [`Space::release`](crate::Space::release) them once nobody needs the old tree.
    pub freed_blocks: Vec<u64>,
    /// Entries of the tree.
    pub keys: u64,
    /// How full the root is, in percent.
    pub fill: u64,
}

/// A flush that was refused, with the tree, which is as it was.
pub struct FlushRefused {
    /// Why.
    pub refusal: Refusal,
    /// The tree.
    pub tree: Box<Tree>,
}

impl fmt::Debug for FlushRefused {
    fn fmt(&self, f: &mut fmt::Formatter<'_>) -> fmt::Result {
        f.debug_struct("FlushRefused").field("refusal", &self.refusal).field("tree", &self.tree).finish()
    }
}

impl fmt::Display for FlushRefused {
    fn fmt(&self, f: &mut fmt::Formatter<'_>) -> fmt::Result {
        self.refusal.fmt(f)
    }
}

impl Error for FlushRefused {
    fn source(&self) -> Option<&(dyn Error + 'static)> {
        Some(&self.refusal)
    }
}

impl From<FlushRefused> for Refusal {
    fn from(refused: FlushRefused) -> Refusal {
        refused.refusal
    }
}
