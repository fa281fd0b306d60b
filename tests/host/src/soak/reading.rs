//! The oracle's reading of document 01, without its script front: the soak hands it foreign slots.

#[path = "../../../oracle/src/reading/edits.rs"]
mod edits;
#[path = "../../../oracle/src/reading/flush.rs"]
pub mod flush;
#[path = "../../../oracle/src/reading/lookups.rs"]
pub mod lookups;
#[path = "../../../oracle/src/reading/node.rs"]
pub mod node;
#[path = "../../../oracle/src/reading/tree.rs"]
pub mod tree;
