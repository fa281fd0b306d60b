
// Lines below are appended by tests/oracle/build; above them stands the published file, unchanged.

/// Bytes that contents, keys and values take in a node, and the data space, also where they do not fit.
pub fn used_and_space(b: &NodeBuild, node_size: usize) -> (usize, usize) {
    let aligned = b.info.flags & BTREE_KV_NONALIGNED == 0;
    let pad = |n: usize| if aligned { align8(n) } else { n };
    let contents = toc_slots(b, node_size, b.level == 0) * if b.fixed.is_some() { 4 } else { 8 };
    let entry = |e: &Entry| pad(e.0.len()) + e.1.as_ref().map_or(0, |v| pad(v.len()));
    (contents + b.entries.iter().map(entry).sum::<usize>(), data_space(node_size, b.root))
}
