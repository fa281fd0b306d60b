//! Trees of an image: how one is named, opened and walked.

use moachest::{omap_key, Options, Order, Reader, Tree};

use crate::args::Args;
use crate::failure::Failure;
use crate::image::Image;
use crate::node::Node;

/// The options that name a tree.
pub const NAMES: [&str; 6] = ["--root", "--size", "--map", "--xid", "--order", "--slots"];

/// A tree that the words of a command name.
pub struct Named {
    pub root: u64,
    pub map: Option<u64>,
    pub xid: u64,
    pub order: Order,
    options: Options,
}

impl Named {
    pub fn read(args: &Args) -> Result<Named, Failure> {
        let order = match args.word("--order")? {
            None | Some("pair") => Order::Pair,
            Some("byte") => Order::Byte,
            Some(other) => return Err(Failure::usage(format!("--order is pair or byte, and not {other}"))),
        };
        let options = Options { most_slots: args.number("--slots")?.unwrap_or(4096) as usize, ..Options::default() };
        let options = Options { slots: options.slots.min(options.most_slots), ..options };
        let (map, xid) = (args.number("--map")?, args.number("--xid")?.unwrap_or(u64::MAX));
        Ok(Named { root: args.needed("--root")?, map, xid, order, options })
    }

    /// The object map at a block.
    pub fn omap(args: &Args) -> Result<Named, Failure> {
        let named = Named::read(args)?;
        Ok(Named { map: None, order: Order::Pair, ..named })
    }

    /// The map of a virtual tree, as a tree.
    pub fn its_map(&self) -> Option<Named> {
        self.map.map(|root| Named { root, map: None, order: Order::Pair, ..*self })
    }

    pub fn reader<'a>(&self, image: &'a Image) -> Reader<'a> {
        match self.map {
            Some(map) => Reader::mapped(&image.bytes, image.size, map, self.xid),
            None => Reader::physical(&image.bytes, image.size),
        }
    }

    pub fn open(&self, image: &Image) -> Result<Tree, Failure> {
        Ok(Tree::open_with(&self.reader(image), self.root, self.order, self.options)?)
    }
}

/// Finds a tree's nodes: by address, or through its object map.
pub struct Finder<'a> {
    image: &'a Image,
    map: Option<(Named, Tree)>,
    xid: u64,
    key: usize,
}

impl<'a> Finder<'a> {
    pub fn new(image: &'a Image, named: &Named, tree: &Tree) -> Result<Finder<'a>, Failure> {
        let map = named.its_map().map(|map| map.open(image).map(|tree| (map, tree))).transpose()?;
        Ok(Finder { image, map, xid: named.xid, key: tree.fixed().map_or(0, |(key, _)| key) })
    }

    /// The address of what a node names a child by.
    pub fn address(&mut self, name: u64) -> Result<Option<u64>, Failure> {
        let Some((named, map)) = &mut self.map else { return Ok(Some(name)) };
        let found = map.floor(&named.reader(self.image), &omap_key(name, self.xid))?;
        Ok(match found {
            Some((key, Some(value))) if key[..8] == name.to_le_bytes() => Some(u64::from_le_bytes(value[8..16].try_into().expect("8 bytes"))),
            _ => None,
        })
    }

    pub fn node(&self, address: u64) -> Option<Node> {
        Node::read(self.image.block(address)?, self.key)
    }
}

/// The addresses of all nodes of a tree that the library loads. A tree that names a block twice ends at as many nodes as there are blocks.
pub fn blocks_of(image: &Image, named: &Named, tree: &Tree) -> Result<Vec<u64>, Failure> {
    let mut finder = Finder::new(image, named, tree)?;
    let (mut found, mut names) = (Vec::new(), vec![named.root]);
    while let Some(name) = names.pop() {
        let lost = || Failure::NotSo(format!("the node {name} cannot be read"));
        let address = finder.address(name)?.ok_or_else(lost)?;
        let node = finder.node(address).ok_or_else(lost)?;
        found.push(address);
        if found.len() as u64 > image.blocks() {
            return Err(Failure::NotSo("the tree names a block twice".to_string()));
        }
        names.extend(node.children);
    }
    Ok(found)
}
