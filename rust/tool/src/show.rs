//! `moachest tree show`: a tree as a picture.

use std::fmt::Write;

use moachest::{Order, Tree};

use crate::args::Args;
use crate::failure::Failure;
use crate::image::Image;
use crate::node::Node;
use crate::trees::{Finder, Named, NAMES};

const BAR: usize = 20;
const MOST_LEVELS: u64 = 33;

pub fn show(args: Args) -> Result<String, Failure> {
    args.only(&[&NAMES[..], &["--depth", "--keys"]].concat())?;
    let (named, image) = (Named::read(&args)?, Image::read(&args)?);
    let tree = named.open(&image)?;
    let mut picture = Picture {
        finder: Finder::new(&image, &named, &tree)?,
        order: named.order,
        keys: args.has("--keys"),
        depth: args.number("--depth")?.unwrap_or(MOST_LEVELS),
        nodes: 0,
        most: image.blocks(),
        out: heading(&named, &tree),
    };
    picture.draw(named.root, "", "", 0)?;
    Ok(picture.out)
}

fn heading(named: &Named, tree: &Tree) -> String {
    let kind = if tree.is_virtual() { "virtual" } else { "physical" };
    let order = if named.order == Order::Pair { "pair" } else { "byte" };
    let lengths = tree.fixed().map_or("variable lengths".to_string(), |(key, value)| format!("keys of {key}, values of {value}"));
    format!("{kind} tree, {order} order, {lengths}: {} entries in {} nodes\n", tree.keys(), tree.nodes())
}

struct Picture<'a> {
    finder: Finder<'a>,
    order: Order,
    keys: bool,
    depth: u64,
    /// Nodes drawn, and as many as there can be: a damaged tree can name a block again and again.
    nodes: u64,
    most: u64,
    out: String,
}

impl Picture<'_> {
    /// A node's line, then its children. `lead` comes before its own line, `below` before those of its children.
    fn draw(&mut self, name: u64, lead: &str, below: &str, depth: u64) -> Result<(), Failure> {
        self.nodes += 1;
        if self.nodes > self.most {
            return Err(Failure::NotSo("the tree names a block twice".to_string()));
        }
        let address = self.finder.address(name)?;
        let node = address.and_then(|address| self.finder.node(address));
        let (Some(address), Some(node)) = (address, node) else {
            let _ = writeln!(self.out, "{lead}{name}: cannot be read");
            return Ok(());
        };
        self.line(lead, name, address, &node);
        if depth + 1 >= self.depth.min(MOST_LEVELS) {
            return Ok(());
        }
        for (i, &child) in node.children.iter().enumerate() {
            let (own, next) = if i + 1 < node.children.len() { ("├─ ", "│  ") } else { ("└─ ", "   ") };
            self.draw(child, &format!("{below}{own}"), &format!("{below}{next}"), depth + 1)?;
        }
        Ok(())
    }

    fn line(&mut self, lead: &str, name: u64, address: u64, node: &Node) {
        let place = if name == address { format!("block {address}") } else { format!("id {name} at block {address}") };
        let kind = if node.level == 0 { "leaf".to_string() } else { format!("level {}", node.level) };
        let what = if node.level == 0 { "entries" } else { "children" };
        let line = format!("{lead}{kind} {place}");
        let _ = write!(self.out, "{line:<40} {} {:>3}% {:>5} {what}, transaction {}", bar(node.fill()), node.fill(), node.entries, node.xid);
        if let (true, Some(key)) = (self.keys, &node.first) {
            let _ = write!(self.out, ", from {}", key_text(self.order, key));
        }
        self.out.push('\n');
    }
}

/// How full, as a bar.
fn bar(percent: usize) -> String {
    let full = (percent * BAR).div_ceil(100).min(BAR);
    "█".repeat(full) + &"░".repeat(BAR - full)
}

/// A pair as `id@transaction`, bytes in hexadecimal.
fn key_text(order: Order, key: &[u8]) -> String {
    let number = |part: &[u8]| u64::from_le_bytes(part.try_into().expect("8 bytes"));
    match order {
        Order::Pair if key.len() == 16 => format!("{}@{}", number(&key[..8]), number(&key[8..])),
        _ => key.iter().fold("x".to_string(), |text, byte| text + &format!("{byte:02x}")),
    }
}
