//! The state that a script works on, and its lines answered by the library.

use crate::disk::Disk;
use crate::library::{Chunks, ANSWER_WORDS};
use crate::walk::{walk, Entry, Place};
use crate::words::{self, hex, hex_or_ghost, Line, Order};
use crate::workspace::Workspace;

const MOST_SLOTS: u64 = 4096;
const GHOST: usize = 0xffff;

pub struct Runner {
    /// Calls on an open tree leave out refusal 1 of its slots: nobody else writes them here.
    trusted: bool,
    disk: Option<Disk>,
    slots: usize,
    map: Option<u64>,
    open: Option<Workspace>,
    /// Slots for the next open: a refused one keeps the old tree.
    spare: Option<Workspace>,
    walked: Option<Place>,
    out: Vec<u8>,
}

/// The entries of records that stand one after another.
fn entries(mut records: &[u8]) -> Vec<Entry> {
    let mut out = Vec::new();
    while let [a, b, c, d, rest @ ..] = records {
        let (key, mark) = (u16::from_le_bytes([*a, *b]) as usize, u16::from_le_bytes([*c, *d]) as usize);
        let length = if mark == GHOST { 0 } else { mark };
        let value = (mark != GHOST).then(|| rest[key..key + length].to_vec());
        out.push((rest[..key].to_vec(), value));
        records = &rest[key + length..];
    }
    out
}

fn listed(head: &str, entries: &[Entry]) -> String {
    let mut s = format!("({head} {}", entries.len());
    entries.iter().for_each(|(k, v)| s.push_str(&format!(" {} {}", hex(k), hex_or_ghost(v))));
    s + ")"
}

fn numbers(name: &str, list: &[u64]) -> String {
    list.iter().fold(format!("\n({name}"), |s, x| s + &format!(" {x}")) + ")"
}

impl Runner {
    pub fn new(trusted: bool) -> Self {
        Self { trusted, disk: None, slots: 64, map: None, open: None, spare: None, walked: None, out: Vec::new() }
    }

    /// The answer to a line; none for a comment.
    pub fn run(&mut self, text: &str) -> Option<String> {
        if text.is_empty() || text.starts_with(';') {
            return None;
        }
        Some(words::line(text).and_then(|line| self.line(&line)).unwrap_or("(error)".into()))
    }

    /// None where the line is out of range, or needs an image or a tree that is not there.
    fn line(&mut self, line: &Line) -> Option<String> {
        match line {
            Line::Image(blocks, size) => {
                let disk = Disk::new(*blocks, *size)?;
                *self = Self { disk: Some(disk), ..Self::new(self.trusted) };
                Some(format!("(image {blocks} {size})"))
            }
            Line::Slots(n) => {
                (1..=MOST_SLOTS).contains(n).then_some(())?;
                (self.slots, self.open, self.spare, self.out) = (*n as usize, None, None, Vec::new());
                Some(format!("(slots {n})"))
            }
            Line::Map(a) => {
                self.map = *a;
                Some(a.map_or("(map -)".into(), |a| format!("(map {a})")))
            }
            Line::Open(root, order, xid) => self.open(*root, *order, *xid),
            Line::Flush(xid, next) => self.flush(*xid, *next),
            Line::Walk => {
                let entries = walk(self.disk.as_ref()?, self.walked.as_ref()?);
                Some(entries.map_or_else(|r| format!("(walk refused {r})"), |e| listed("walk", &e)))
            }
            Line::Get(_) | Line::Floor(_) | Line::Range(..) => self.lookup(line),
            Line::Upsert(..) | Line::Remove(_) | Line::Put(..) | Line::Drop(_) => self.edit(line),
            _ => self.disk.as_mut()?.set_up(line),
        }
    }

    fn open(&mut self, root: u64, order: Order, xid: u64) -> Option<String> {
        let disk = self.disk.as_mut()?;
        let mut w = self.spare.take().unwrap_or_else(|| Workspace::new(self.slots, disk.size));
        let r = w.lent(disk, self.map, false).open(root, order as u64, xid);
        if r != 0 {
            self.spare = Some(w);
            return Some(format!("(open {r})"));
        }
        let place = Place { root, order, map: self.map, xid, moved: Vec::new() };
        (self.walked, w.place) = (Some(place.clone()), Some(place));
        let answer = format!("(open 0 {} {})", w.keys(), w.nodes());
        self.spare = self.open.replace(w);
        Some(answer)
    }

    fn lookup(&mut self, line: &Line) -> Option<String> {
        let (disk, w) = (self.disk.as_mut()?, self.open.as_mut()?);
        // Room for all that the slots can hold; pages that nobody writes take no memory.
        if self.out.is_empty() {
            self.out = vec![0; 4 * w.slots * w.size];
        }
        let (out, mut answer) = (&mut self.out, [0; ANSWER_WORDS]);
        let map = w.place.as_ref()?.map;
        let mut lent = w.lent(disk, map, self.trusted);
        let r = match line {
            Line::Get(key) => lent.get(key, out, &mut answer),
            Line::Floor(key) => lent.floor(key, out, &mut answer),
            Line::Range(lo, hi) => lent.range(lo, hi, out, &mut answer),
            _ => return None,
        };
        let length = answer[1] as usize;
        Some(match (line, r, answer[0]) {
            (_, 1.., _) => format!("({} {r})", words::name(line)),
            (Line::Get(_), _, 1) => "(get 0 -)".into(),
            (Line::Get(_), _, 2) => format!("(get 0 {})", hex(&out[..length])),
            (Line::Floor(_), _, 1) => entries(&out[..length]).iter().map(|(k, v)| format!("(floor 0 {} {})", hex(k), hex_or_ghost(v))).collect(),
            (Line::Range(..), _, n) => {
                let found = entries(&out[..length]);
                if found.len() as u64 != n { format!("(range 0 {n} of {})", found.len()) } else { listed("range 0", &found) }
            }
            (_, _, 0) => format!("({} 0 none)", words::name(line)),
            (_, _, other) => format!("({} 0 {other})", words::name(line)),
        })
    }

    fn edit(&mut self, line: &Line) -> Option<String> {
        let (disk, w) = (self.disk.as_mut()?, self.open.as_mut()?);
        let mut answer = [0; ANSWER_WORDS];
        let (map, size) = (w.place.as_ref()?.map, w.size as u64);
        let mut lent = w.lent(disk, map, self.trusted);
        let r = match line {
            Line::Upsert(key, value) => lent.upsert(key, value.is_none() as u64, value.as_deref().unwrap_or(&[])),
            Line::Remove(key) => lent.remove(key, &mut answer),
            Line::Put(id, xid, address) => lent.put(*id, *xid, *address, size),
            Line::Drop(id) => lent.drop(*id),
            _ => return None,
        };
        let name = words::name(line);
        if r != 0 {
            return Some(format!("({name} {r})"));
        }
        let found = if !matches!(line, Line::Remove(_)) { "" } else if answer[0] == 1 { " yes" } else { " no" };
        Some(format!("({name} 0{found} {} {})", w.keys(), w.nodes()))
    }

    fn flush(&mut self, xid: u64, next: u64) -> Option<String> {
        let (disk, w) = (self.disk.as_mut()?, self.open.as_mut()?);
        let place = w.place.clone()?;
        let (mut bitmap, mut free, counts) = (disk.bitmap.clone(), disk.free.clone(), disk.counts.clone());
        let mut lists: [Vec<u64>; 4] = std::array::from_fn(|_| vec![0; w.slots]);
        let [freed, removed, ids, places] = &mut lists;
        let mut chunks = Chunks { bitmap: &mut bitmap, counts: &counts, free: &mut free, freed, removed, ids, places };
        let mut a = [0; ANSWER_WORDS];
        let r = w.lent(disk, place.map, self.trusted).flush(&mut chunks, xid, next, &mut a);
        if r != 0 {
            return Some(format!("(flush {r})"));
        }
        // Bits are taken from the lowest on, so rising addresses are the order in which blocks were written.
        let taken = |i: &usize| (bitmap[i / 8] & !disk.bitmap[i / 8]) >> (i % 8) & 1 == 1;
        let wrote: Vec<usize> = (0..8 * bitmap.len()).filter(taken).collect();
        (disk.bitmap, disk.free) = (bitmap, free);
        let moved: Vec<(u64, u64)> = (0..a[4] as usize).map(|i| (lists[2][i], lists[3][i])).collect();
        let mut s = format!("(flush 0 {} {} {} {} {} {})", a[0], a[1], a[2], a[5], a[6], a[7]);
        s += &(numbers("freed", &lists[0][..a[2] as usize]) + &numbers("removed", &lists[1][..a[3] as usize]));
        s += &numbers("moved", &moved.iter().flat_map(|m| [m.0, m.1]).collect::<Vec<_>>());
        wrote.iter().for_each(|&b| s += &format!("\n(wrote {b} {})", hex(disk.block(b as u64).unwrap_or(&[]))));
        self.walked = Some(Place { root: a[0], moved, ..place });
        self.spare = self.open.take();
        Some(s)
    }
}
