//! What kind of script a seed gives: sizes, order, lengths, storage and shape, each of which an option
//! can settle beforehand.

use crate::random::Random;
use crate::words::Order;

#[derive(Clone, Copy, PartialEq, Eq, Debug)]
pub enum Shape {
    /// Edits on a tree that begins empty.
    Edits,
    /// Edits on a tree laid out as another writer might.
    Layout,
    /// As layout, with nodes damaged in ways that the Rust refuses too.
    Damage,
    /// Few free blocks, several chunks, odd counts.
    Full,
}

#[derive(Clone, Debug)]
pub struct Plan {
    pub size: usize,
    pub blocks: u64,
    pub slots: u64,
    pub order: Order,
    pub fixed: Option<(usize, usize)>,
    /// Tree flags; only 0x40, no padding, means anything here.
    pub flags: u32,
    pub subtype: u32,
    pub is_virtual: bool,
    pub shape: Shape,
    pub rounds: u64,
    pub calls: u64,
    /// How many different keys there are, about.
    pub keys: u64,
    pub longest_key: usize,
    /// Keys of variable lengths begin with so many equal bytes.
    pub alike: usize,
    pub longest_value: usize,
    /// Entries that a laid-out tree begins with.
    pub entries: usize,
    /// Nothing is left out: the script is for document 01 alone.
    pub whole_ground: bool,
    /// Index keys of laid-out trees lie as low as they can.
    pub low_keys: bool,
    /// Laid-out index nodes have single children, and there are more levels than the entries need.
    pub chains: bool,
    /// The map of a virtual tree is laid out too, with so many mappings of other ids.
    pub map_entries: Option<u64>,
    /// Nodes of the map are damaged.
    pub map_damage: bool,
    /// Damage is mostly one clause of a refusal alone.
    pub clauses: bool,
}

fn size(r: &mut Random) -> usize {
    match r.below(100) {
        0..=54 => 512,
        55..=66 => 1024,
        67..=74 => 2048,
        75..=91 => 4096,
        92..=94 => 8192,
        95..=97 => 16_384,
        98 => 32_768,
        _ => 65_536,
    }
}

fn fixed(r: &mut Random, order: Order) -> Option<(usize, usize)> {
    match order {
        Order::Pair if r.chance(60) => Some((16, 16)),
        Order::Pair if r.chance(50) => Some((16, *r.pick(&[0, 1, 8, 24]))),
        Order::Byte if r.chance(40) => Some((*r.pick(&[1, 4, 8, 13, 16, 40]), *r.pick(&[0, 3, 8, 16, 50]))),
        _ => None,
    }
}

fn blocks(r: &mut Random, size: usize, shape: Shape) -> u64 {
    let per_chunk = 8 * size as u64;
    match shape {
        Shape::Full if size <= 1024 && r.chance(50) => per_chunk + 1 + r.below(per_chunk),
        Shape::Full => 8 + r.below(40),
        _ if size > 8192 => 24 + r.below(24),
        _ => 60 + r.below(400),
    }
}

impl Plan {
    /// The plan of a seed; options are words such as `size=512`.
    pub fn new(r: &mut Random, options: &[&str]) -> Result<Self, String> {
        let option = |name: &str| options.iter().rev().find_map(|o| o.strip_prefix(name)?.strip_prefix('='));
        let number = |name: &str, drawn: u64| option(name).map_or(Ok(drawn), |v| v.parse().map_err(|_| format!("{name}={v}")));
        let drawn_shape = *r.pick(&[Shape::Edits, Shape::Edits, Shape::Layout, Shape::Layout, Shape::Damage, Shape::Full]);
        let shape = shape_named(option("shape"), drawn_shape)?;
        let size = number("size", size(r) as u64)? as usize;
        let drawn_order = if r.chance(50) { Order::Pair } else { Order::Byte };
        let order = match option("order") {
            Some("pair") => Order::Pair,
            Some("byte") => Order::Byte,
            None => drawn_order,
            Some(o) => return Err(format!("order={o}")),
        };
        let fixed = lengths(option("lengths"), fixed(r, order))?;
        let drawn_virtual = r.chance(40);
        let small = *r.pick(&[20, 40, 100]);
        Ok(Self {
            size,
            shape,
            order,
            fixed,
            blocks: number("blocks", blocks(r, size, shape))?,
            slots: number("slots", *r.pick(&[64, 64, 4096, 4096, 12, 5]))?,
            flags: if number("unpadded", r.chance(25) as u64)? != 0 { 0x40 } else { 0 } | *r.pick(&[0, 0, 4, 0x12, 0x8000_0000]),
            subtype: *r.pick(&[11, 11, 14, 0, u32::MAX]),
            is_virtual: number("virtual", drawn_virtual as u64)? != 0,
            rounds: number("rounds", 1 + r.below(6))?,
            calls: number("calls", *r.pick(&[3, 10, 25, 60]))?,
            keys: number("keys", *r.pick(&[8, 30, 120, 400]))?,
            longest_key: number("longest-key", *r.pick(&[6, 12, 40, size as u64 / 6, size as u64 / 3]))? as usize,
            longest_value: number("longest-value", *r.pick(&[0, 8, 24, 60, size as u64 / 4, size as u64 / 2]))? as usize,
            whole_ground: is_whole_ground(options),
            entries: number("entries", *r.pick(&[3, 15, small, size as u64 / 10]))? as usize,
            // Never drawn, so that a seed gives the script that it always gave.
            alike: number("alike", 0)? as usize,
            low_keys: number("low-keys", 0)? != 0,
            chains: number("chains", 0)? != 0,
            map_entries: option("map-entries").map(|_| number("map-entries", 0)).transpose()?,
            map_damage: number("map-damage", 0)? != 0,
            clauses: number("clauses", 0)? != 0,
        })
    }
}

/// Whether the options ask for scripts that also go where the Rust parts from document 01.
pub fn is_whole_ground(options: &[&str]) -> bool {
    options.contains(&"ground=whole")
}

fn shape_named(name: Option<&str>, drawn: Shape) -> Result<Shape, String> {
    match name {
        None => Ok(drawn),
        Some("edits") => Ok(Shape::Edits),
        Some("layout") => Ok(Shape::Layout),
        Some("damage") => Ok(Shape::Damage),
        Some("full") => Ok(Shape::Full),
        Some(s) => Err(format!("shape={s}")),
    }
}

/// `variable`, or key and value length with a slash between.
fn lengths(option: Option<&str>, drawn: Option<(usize, usize)>) -> Result<Option<(usize, usize)>, String> {
    match option {
        None => Ok(drawn),
        Some("variable") => Ok(None),
        Some(text) => {
            let parts = text.split_once('/').and_then(|(k, v)| Some((k.parse().ok()?, v.parse().ok()?)));
            parts.map(Some).ok_or_else(|| format!("lengths={text}"))
        }
    }
}
