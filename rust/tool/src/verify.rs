//! `moachest verify`: whether a tree is well formed (docs/RULES.md#well-formed). Every node is loaded by the library.

use std::fmt::Write;

use moachest::Refusal;

use crate::args::Args;
use crate::failure::Failure;
use crate::image::Image;
use crate::trees::{Named, NAMES};

pub fn verify(args: Args) -> Result<String, Failure> {
    args.only(&NAMES)?;
    let (named, image) = (Named::read(&args)?, Image::read(&args)?);
    let mut out = String::new();
    if let Some(map) = named.its_map() {
        let _ = writeln!(out, "object map: {}", well_formed(&map, &image)?);
    }
    let _ = writeln!(out, "tree: {}", well_formed(&named, &image)?);
    Ok(out)
}

fn well_formed(named: &Named, image: &Image) -> Result<String, Failure> {
    let mut tree = named.open(image).map_err(not_so)?;
    let entries = tree.entries(&named.reader(image)).map_err(|refusal| not_so(refusal.into()))?.len();
    if tree.keys() != entries as u64 || tree.nodes() != tree.used() as u64 {
        let (keys, nodes, used) = (tree.keys(), tree.nodes(), tree.used());
        return Err(Failure::NotSo(format!("not well formed: the root counts {keys} entries in {nodes} nodes, and there are {entries} in {used}")));
    }
    Ok(format!("well formed, {entries} entries in {} nodes", tree.used()))
}

/// A refused load means a tree that is not well formed; too few slots mean nothing.
fn not_so(failure: Failure) -> Failure {
    match failure {
        Failure::Refused(Refusal::NoSlot) => Failure::Refused(Refusal::NoSlot),
        Failure::Refused(refusal) => Failure::NotSo(format!("not well formed: {refusal}")),
        other => other,
    }
}
