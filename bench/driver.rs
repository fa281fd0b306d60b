// Compares the proved code with the Rust that it was ported from. bench/run puts the Rust's files before this text, by
// their paths: `checksum`, `error`, `bytes`, `obj`, `btree`, `btree_write`, and of write/mod.rs the three functions of `write`.
fn main() {
    sums::run();
    nodes::run();
}
