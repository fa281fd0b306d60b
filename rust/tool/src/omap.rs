//! `moachest omap`: an object map's entries, listed, found, put and dropped.

use std::fmt::Write;

use moachest::{omap_key, Flushed, Reader, Refusal, Tree};

use crate::args::Args;
use crate::failure::Failure;
use crate::free::Free;
use crate::image::Image;
use crate::trees::{blocks_of, Named};

fn number(bytes: &[u8]) -> u64 {
    bytes.iter().rev().fold(0, |n, &byte| n << 8 | u64::from(byte))
}

/// A line of a version: id, transaction, address, size, flags.
fn line(key: &[u8], value: Option<&[u8]>) -> String {
    let (id, xid) = (number(&key[..8]), number(&key[8..]));
    match value {
        Some(v) if v.len() == 16 => format!("{id:>20} {xid:>20} {:>20} {:>10} {:>#8x}\n", number(&v[8..]), number(&v[4..8]), number(&v[..4])),
        _ => format!("{id:>20} {xid:>20} {:>20}\n", "none"),
    }
}

fn heading() -> String {
    format!("{:>20} {:>20} {:>20} {:>10} {:>8}\n", "id", "transaction", "address", "size", "flags")
}

/// An object map has keys and values of 16 bytes.
fn open(image: &Image, named: &Named) -> Result<Tree, Failure> {
    let tree = named.open(image)?;
    match tree.fixed() {
        Some((16, 16)) => Ok(tree),
        _ => Err(Failure::NotSo(format!("the tree at block {} is no object map: its keys and values are not 16 bytes", named.root))),
    }
}

pub fn list(args: Args) -> Result<String, Failure> {
    args.only(&["--root", "--size", "--slots"])?;
    let (named, image) = (Named::omap(&args)?, Image::read(&args)?);
    let entries = open(&image, &named)?.entries(&named.reader(&image))?;
    let lines = entries.iter().map(|(key, value)| line(key, value.as_deref()));
    Ok(std::iter::once(heading()).chain(lines).collect())
}

pub fn get(args: Args) -> Result<String, Failure> {
    args.only(&["--root", "--size", "--slots", "--id", "--xid"])?;
    let (named, id, image) = (Named::omap(&args)?, args.needed("--id")?, Image::read(&args)?);
    let found = open(&image, &named)?.floor(&named.reader(&image), &omap_key(id, named.xid))?;
    match found {
        Some((key, Some(value))) if key[..8] == id.to_le_bytes() => Ok(heading() + &line(&key, Some(&value))),
        _ => Err(Failure::NotSo(format!("id {id} has no mapping as seen from transaction {}", named.xid))),
    }
}

pub fn put(args: Args) -> Result<String, Failure> {
    let more = ["--id", "--xid", "--address", "--length"];
    let (id, xid, address) = (args.needed("--id")?, args.needed("--xid")?, args.needed("--address")?);
    let length = args.number("--length")?;
    edit(&args, &more, Some(xid), |tree, rd| {
        let length = length.unwrap_or(rd.size() as u64);
        let length = u32::try_from(length).map_err(|_| Failure::usage("--length is at most 4294967295"))?;
        Ok(tree.omap_put(rd, id, xid, address, length)?)
    })
}

pub fn drop(args: Args) -> Result<String, Failure> {
    let id = args.needed("--id")?;
    edit(&args, &["--id"], None, |tree, rd| Ok(tree.omap_drop(rd, id)?))
}

/// Opens, edits and flushes in memory; with --write, writes what flush wrote.
fn edit(args: &Args, more: &[&str], xid: Option<u64>, change: impl FnOnce(&mut Tree, &Reader<'_>) -> Result<(), Failure>) -> Result<String, Failure> {
    let known = ["--root", "--size", "--slots", "--free", "--bitmap", "--transaction", "--write"];
    args.only(&[&known[..], more].concat())?;
    let xid = args.number("--transaction")?.or(xid).ok_or_else(|| Failure::usage("--transaction is missing"))?;
    let (named, mut image) = (Named::omap(args)?, Image::read(args)?);
    let mut tree = open(&image, &named)?;
    let mut free = Free::read(args, &image)?;
    free.spares(&blocks_of(&image, &named, &tree)?, "the tree's own")?;
    if image.is_container() {
        free.spares(&[0], "the container superblock")?;
    }
    change(&mut tree, &named.reader(&image))?;
    let before = free.space.clone();
    let done = flush(tree, &mut image, &mut free, xid)?;
    let written: Vec<u64> = (0..image.blocks()).filter(|&b| !before.is_used(b) && free.space.is_used(b)).collect();
    if args.has("--write") {
        // New blocks first: until they are on the disk nothing names them. The bitmap after them.
        image.write_blocks(&written)?;
        free.write()?;
    }
    Ok(report(&named, &done, &written, args.has("--write")))
}

fn flush(tree: Tree, image: &mut Image, free: &mut Free, xid: u64) -> Result<Flushed, Failure> {
    // A physical tree takes no ids.
    let done: Result<Flushed, Refusal> = tree.flush(&mut image.bytes, &mut free.space, xid, &mut 0).map_err(Refusal::from);
    Ok(done?)
}

fn report(named: &Named, done: &Flushed, written: &[u64], wrote: bool) -> String {
    let blocks = |list: &[u64]| list.iter().map(|block| format!(" {block}")).collect::<String>();
    let mut out = String::new();
    let _ = writeln!(out, "root {} (was {})", done.root, named.root);
    let _ = writeln!(out, "entries {}", done.keys);
    let _ = writeln!(out, "written{}", blocks(written));
    let _ = writeln!(out, "freed{}", blocks(&done.freed_blocks));
    let _ = writeln!(out, "{}", if wrote { "the image is written" } else { "nothing is written: --write writes the image" });
    out
}
