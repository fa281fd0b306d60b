//! Where a tree's nodes are read.

/// The image that a tree's nodes are read from, and how they are named: by address, or by id through an object map.
///
/// It is lent to each call anew, so that the image is free between calls. A tree takes only readers like the one that it was opened with.
#[derive(Clone, Copy)]
pub struct Reader<'a> {
    pub(crate) image: &'a [u8],
    pub(crate) lent: Lent,
}

/// What a reader has besides the image's bytes: what a tree remembers of it.
#[derive(Clone, Copy, Debug, PartialEq, Eq)]
pub(crate) struct Lent {
    /// Bytes of the image.
    pub length: usize,
    /// Bytes of a block.
    pub size: usize,
    /// The address of the object map's root.
    pub map: Option<u64>,
    /// The transaction from which the map is looked at.
    pub xid: u64,
}

impl<'a> Reader<'a> {
    /// Reads a physical tree's nodes by address. `size` is the block size.
    pub fn physical(image: &'a [u8], size: usize) -> Reader<'a> {
        Reader { image, lent: Lent { length: image.len(), size, map: None, xid: 0 } }
    }

    /// Reads a virtual tree's nodes by id, through the object map whose root is at block `map`, as seen from transaction `xid`.
    pub fn mapped(image: &'a [u8], size: usize, map: u64, xid: u64) -> Reader<'a> {
        Reader { image, lent: Lent { length: image.len(), size, map: Some(map), xid } }
    }

    /// The image.
    pub fn image(&self) -> &'a [u8] {
        self.image
    }

    /// The block size.
    pub fn size(&self) -> usize {
        self.lent.size
    }
}

impl Lent {
    /// The map as the library takes it: whether there is one, and its root's address.
    pub fn mapped(self) -> (u64, u64) {
        (u64::from(self.map.is_some()), self.map.unwrap_or(0))
    }
}
