//! What a transaction is to change.

pub enum Edit {
    Put(Vec<u8>, Vec<u8>),
    Ghost(Vec<u8>),
    Take(Vec<u8>),
}

/// A key, and its value if it is there.
pub type Lookup = (Vec<u8>, Option<Vec<u8>>);

#[derive(Default)]
pub struct Plan {
    /// Of the file-system tree, keys as they are stored.
    pub records: Vec<Edit>,
    /// Looked up in the file-system tree after the edits.
    pub lookups: Vec<Lookup>,
    /// Of the extent-reference tree, keys as they are stored; runs of blocks that files take and give back (address, count).
    pub extents: Vec<Edit>,
    pub take: Vec<(u64, u64)>,
    pub give: Vec<(u64, u64)>,
    pub volume_map: Vec<Edit>,
    pub container_map: Vec<Edit>,
    /// Ids of file-system nodes that get a new block without a change.
    pub copies: Vec<u64>,
    /// Files, directories and symbolic links of the volume; its next id.
    pub counts: Option<[u64; 3]>,
    pub next_id: Option<u64>,
}
