//! One line of the script language, read into a value. A line that is not in the language is none.

pub type Key = Vec<u8>;
/// A value, or a ghost.
pub type Value = Option<Vec<u8>>;

#[derive(Clone, Copy, PartialEq, Eq, Debug)]
pub enum Order {
    Pair,
    Byte,
}

#[derive(Clone, Debug)]
pub struct EmptyRoot {
    pub addr: u64,
    pub physical: bool,
    pub id: u64,
    pub xid: u64,
    pub subtype: u32,
    pub flags: u32,
    pub key: u32,
    pub value: u32,
}

#[derive(Clone, Debug)]
pub enum Line {
    Image(u64, u64),
    Slots(u64),
    Block(u64, Vec<u8>),
    Seal(u64),
    Mark(u64, u64),
    Count(u64, u32, u32),
    Empty(EmptyRoot),
    Map(Option<u64>),
    Open(u64, Order, u64),
    Get(Key),
    Floor(Key),
    Range(Key, Key),
    Upsert(Key, Value),
    Remove(Key),
    Put(u64, u64, u64),
    Drop(u64),
    Flush(u64, u64),
    Walk,
}

fn number(w: &str) -> Option<u64> {
    (!w.is_empty() && w.bytes().all(|b| b.is_ascii_digit())).then(|| w.parse().ok())?
}

fn number32(w: &str) -> Option<u32> {
    number(w)?.try_into().ok()
}

fn digit(b: u8) -> Option<u8> {
    match b {
        b'0'..=b'9' => Some(b - b'0'),
        b'a'..=b'f' => Some(b - b'a' + 10),
        _ => None,
    }
}

fn bytes(w: &str) -> Option<Vec<u8>> {
    let digits = w.strip_prefix('x')?.as_bytes();
    if digits.len() % 2 != 0 {
        return None;
    }
    digits.chunks(2).map(|d| Some(digit(d[0])? * 16 + digit(d[1])?)).collect()
}

fn value(w: &str) -> Option<Value> {
    if w == "-" {
        Some(None)
    } else {
        bytes(w).map(Some)
    }
}

fn order(w: &str) -> Option<Order> {
    match w {
        "pair" => Some(Order::Pair),
        "byte" => Some(Order::Byte),
        _ => None,
    }
}

fn empty_root(w: &[&str]) -> Option<EmptyRoot> {
    let [addr, storage, id, xid, subtype, flags, key, value] = w else { return None };
    let physical = match *storage {
        "physical" => true,
        "virtual" => false,
        _ => return None,
    };
    Some(EmptyRoot {
        addr: number(addr)?,
        physical,
        id: number(id)?,
        xid: number(xid)?,
        subtype: number32(subtype)?,
        flags: number32(flags)?,
        key: number32(key)?,
        value: number32(value)?,
    })
}

/// Reads one line without its line feed.
pub fn line(text: &str) -> Option<Line> {
    let inner = text.strip_prefix('(')?.strip_suffix(')')?;
    let words: Vec<&str> = inner.split(' ').collect();
    Some(match words.as_slice() {
        ["image", a, b] => Line::Image(number(a)?, number(b)?),
        ["slots", n] => Line::Slots(number(n)?),
        ["block", a, b] => Line::Block(number(a)?, bytes(b)?),
        ["seal", a] => Line::Seal(number(a)?),
        ["mark", a, n] => Line::Mark(number(a)?, number(n)?),
        ["count", c, b, f] => Line::Count(number(c)?, number32(b)?, number32(f)?),
        ["empty", rest @ ..] => Line::Empty(empty_root(rest)?),
        ["map", "-"] => Line::Map(None),
        ["map", a] => Line::Map(Some(number(a)?)),
        ["open", r, o, x] => Line::Open(number(r)?, order(o)?, number(x)?),
        ["get", k] => Line::Get(bytes(k)?),
        ["floor", k] => Line::Floor(bytes(k)?),
        ["range", a, b] => Line::Range(bytes(a)?, bytes(b)?),
        ["upsert", k, v] => Line::Upsert(bytes(k)?, value(v)?),
        ["remove", k] => Line::Remove(bytes(k)?),
        ["put", i, x, a] => Line::Put(number(i)?, number(x)?, number(a)?),
        ["drop", i] => Line::Drop(number(i)?),
        ["flush", x, n] => Line::Flush(number(x)?, number(n)?),
        ["walk"] => Line::Walk,
        _ => return None,
    })
}

/// A byte string as the language writes it.
pub fn hex(b: &[u8]) -> String {
    const DIGITS: &[u8; 16] = b"0123456789abcdef";
    let mut s = String::with_capacity(1 + 2 * b.len());
    s.push('x');
    for &x in b {
        s.push(DIGITS[(x >> 4) as usize] as char);
        s.push(DIGITS[(x & 15) as usize] as char);
    }
    s
}

pub fn hex_or_ghost(v: &Value) -> String {
    v.as_ref().map_or("-".into(), |v| hex(v))
}

/// What a line is called in its answer.
pub fn name(l: &Line) -> &'static str {
    match l {
        Line::Image(..) => "image",
        Line::Slots(..) => "slots",
        Line::Block(..) => "block",
        Line::Seal(..) => "seal",
        Line::Mark(..) => "mark",
        Line::Count(..) => "count",
        Line::Empty(..) => "empty",
        Line::Map(..) => "map",
        Line::Open(..) => "open",
        Line::Get(..) => "get",
        Line::Floor(..) => "floor",
        Line::Range(..) => "range",
        Line::Upsert(..) => "upsert",
        Line::Remove(..) => "remove",
        Line::Put(..) => "put",
        Line::Drop(..) => "drop",
        Line::Flush(..) => "flush",
        Line::Walk => "walk",
    }
}
