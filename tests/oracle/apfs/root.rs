//! The crate that holds the Rust sources under test. `build` replaces @SOURCES@ by the directory of
//! the sources, @HERE@ by the directory of the stand-ins and @MADE@ by the directory of files that it
//! makes from the sources (whole files with lines appended, or functions cut out of one).

#![allow(dead_code, unused_imports)]

#[path = "@SOURCES@/error.rs"]
pub mod error;
#[path = "@SOURCES@/bytes.rs"]
pub mod bytes;
#[path = "@SOURCES@/checksum.rs"]
pub mod checksum;
#[path = "@SOURCES@/obj.rs"]
pub mod obj;
#[path = "@SOURCES@/btree.rs"]
pub mod btree;
#[path = "@SOURCES@/spaceman.rs"]
pub mod spaceman;
#[path = "@MADE@/btree_write.rs"]
pub mod btree_write;

#[path = "@HERE@/container.rs"]
pub mod nx;
#[path = "@HERE@/space_manager.rs"]
pub mod space_manager;
#[path = "@HERE@/map_reader.rs"]
pub mod map_reader;

pub mod write {
    use crate::checksum;

    include!("@MADE@/write_functions.rs");

    #[path = "@SOURCES@/write/space.rs"]
    pub mod allocator;
    #[path = "@HERE@/recorded_space.rs"]
    pub mod space;
    #[path = "@MADE@/tree.rs"]
    pub mod tree;
}

/// The Fletcher sum that belongs in the first 8 bytes of a block.
pub fn seal_block(block: &mut [u8]) {
    write::seal(block)
}
