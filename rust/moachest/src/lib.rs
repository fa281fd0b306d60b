//! A B-tree editor for APFS disks, safe to call from Rust. The calls are those of `libmoachest.a`, whose code is proved: each equals a short
//! definition, ends on any bytes without fault, and a refused one leaves no trace. This crate itself is tested, not proved.
//!
//! A [`Tree`] is opened on an image, which is bytes; edited in memory; and flushed, which writes changed nodes to free blocks only and answers
//! where the root is now. Names and arguments follow the `Tree` of winapfs.
//!
//! ```
//! use moachest::{Empty, Order, Reader, Space, Tree};
//!
//! # fn main() -> Result<(), moachest::Refusal> {
//! // A disk of 32 blocks of 512 bytes, with an empty object map at block 0.
//! let mut image = vec![0; 32 * 512];
//! Empty::omap(0).pack(&mut image[..512]);
//! let mut space = Space::new(32, 512);
//! space.mark(0, 1);
//!
//! let mut tree = Tree::open(&Reader::physical(&image, 512), 0, Order::Pair)?;
//! tree.omap_put(&Reader::physical(&image, 512), 5, 1, 9, 512)?;
//! tree.omap_put(&Reader::physical(&image, 512), 5, 2, 10, 512)?;
//! let done = tree.flush(&mut image, &mut space, 2, &mut 0)?;
//! assert_eq!((done.root, done.allocated, done.freed, done.keys, done.fill), (1, 1, 1, 1, 23));
//!
//! // Block 0 is as it was until its owner takes it back; the new tree starts at block 1.
//! let rd = Reader::physical(&image, 512);
//! let mut tree = Tree::open(&rd, done.root, Order::Pair)?;
//! let (key, value) = tree.floor(&rd, &moachest::omap_key(5, u64::MAX))?.expect("id 5 is mapped");
//! assert_eq!(key, moachest::omap_key(5, 2));
//! assert_eq!(value.expect("no ghost")[8..], 10u64.to_le_bytes());
//! # Ok(())
//! # }
//! ```
//!
//! # What the crate sees to
//!
//! - A tree's slots are its own. No one else can write them, so that calls need not look at them each time: they are the library's trusted
//!   calls ([`raw`] says what those trust). Every call compares the image's length, the block size and the map with those that the tree was
//!   opened with, and is refused with [`Refusal::Lent`] where they differ. With [`Options::checked`] every call looks at its slots all the same.
//! - Outputs and slots grow. A call that is refused for want of room changed nothing; it is made again with more.

#![warn(missing_docs)]

mod empty;
mod flushed;
#[allow(missing_docs)]
pub mod raw;
mod reader;
mod record;
mod refusal;
mod room;
mod space;
mod tree;
mod workspace;

pub use empty::{seal, Empty};
pub use flushed::{FlushRefused, Flushed};
pub use reader::Reader;
pub use record::Entry;
pub use refusal::Refusal;
pub use space::Space;
pub use tree::{omap_drop, omap_key, omap_put, Options, Order, Tree};
