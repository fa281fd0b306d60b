//! Document 01's plain list: what lookups, counts and walks must say. The Rust's own answers are held
//! against it while scripts run, so that a stand-in gone wrong is noticed.

use std::cmp::Ordering;

use crate::session::Session;
use crate::strict::{compare, u64_at};
use crate::words::{self, hex, hex_or_ghost, Key, Line, Order, Value};

#[derive(Default)]
pub struct PlainList {
    /// None where no tree is open, or one that does not walk (a damaged node).
    list: Option<(Order, Vec<(Key, Value)>)>,
    /// Block size of the image, which put stores.
    size: u32,
    /// A block was overwritten since the tree was opened: a walk may be refused.
    overwritten: bool,
}

fn listed(name: &str, entries: &[&(Key, Value)]) -> String {
    let mut s = format!("({name} {}", entries.len());
    entries.iter().for_each(|(k, v)| s.push_str(&format!(" {} {}", hex(k), hex_or_ghost(v))));
    s + ")"
}

/// Entries of a walk's answer.
fn walked(answer: &str) -> Option<Vec<(Key, Value)>> {
    let words: Vec<&str> = answer.strip_prefix("(walk ")?.strip_suffix(')')?.split(' ').collect();
    words[0].parse::<u64>().ok()?;
    let entry = |w: &[&str]| {
        let Some(Line::Upsert(k, v)) = words::line(&format!("(upsert {} {})", w[0], w[1])) else { return None };
        Some((k, v))
    };
    words[1..].chunks(2).map(entry).collect()
}

impl PlainList {
    /// Feeds a line and its answer to the list; an error says what the list has instead.
    pub fn feed(&mut self, session: &mut Session, text: &str, answer: &str) -> Result<(), String> {
        let Some(line) = words::line(text) else { return Ok(()) };
        let refused = answer.ends_with(" refused)") || answer == "(error)";
        match &line {
            Line::Image(_, size) if !refused => *self = Self { size: *size as u32, ..Self::default() },
            Line::Slots(_) if !refused => self.list = None,
            Line::Open(_, order, _) if !refused => {
                self.overwritten = false;
                // A tree whose stored key count is wrong is not well formed; nothing is said of it.
                let keys = answer.split(' ').nth(2).and_then(|w| w.parse().ok());
                let walk = session.run("(walk)").as_deref().and_then(walked);
                self.list = walk.filter(|l| keys == Some(l.len())).map(|l| (*order, l));
            }
            Line::Block(..) => self.overwritten = true,
            Line::Flush(..) if !refused => return self.flushed(session, answer),
            _ if refused => {}
            _ => return self.called(&line, answer),
        }
        Ok(())
    }

    /// After a flush the walk is the list, and the key count its length.
    fn flushed(&mut self, session: &mut Session, answer: &str) -> Result<(), String> {
        let Some((_, list)) = self.list.take() else { return Ok(()) };
        let walk = session.run("(walk)").unwrap_or_default();
        if self.overwritten && walk == "(walk refused)" {
            return Ok(());
        }
        let entries: Vec<&(Key, Value)> = list.iter().collect();
        let keys = answer.split(' ').nth(5).and_then(|w| w.parse().ok());
        if walk != listed("walk", &entries) || keys != Some(list.len()) {
            return Err(format!("after flush the plain list has {} entries, the walk says {walk}", list.len()));
        }
        Ok(())
    }

    fn called(&mut self, line: &Line, answer: &str) -> Result<(), String> {
        let size = self.size;
        let Some((order, list)) = &mut self.list else { return Ok(()) };
        let expected = match line {
            Line::Get(k) => list.iter().find(|e| e.0 == *k).map_or("(get 0 none)".into(), |e| format!("(get 0 {})", hex_or_ghost(&e.1))),
            Line::Floor(k) => floor(*order, list, k),
            Line::Range(lo, hi) => {
                let cmp = compare(*order);
                let within = |e: &&(Key, Value)| cmp(&e.0, lo) != Ordering::Less && cmp(&e.0, hi) == Ordering::Less;
                listed("range 0", &list.iter().filter(within).collect::<Vec<_>>())
            }
            _ => return edited(*order, list, line, answer, size),
        };
        if expected == answer { Ok(()) } else { Err(format!("the plain list says {expected}")) }
    }
}

fn floor(order: Order, list: &[(Key, Value)], k: &Key) -> String {
    let cmp = compare(order);
    let found = list.iter().rev().find(|e| cmp(&e.0, k) != Ordering::Greater);
    found.map_or("(floor 0 none)".into(), |(k, v)| format!("(floor 0 {} {})", hex(k), hex_or_ghost(v)))
}

fn upsert(order: Order, list: &mut Vec<(Key, Value)>, k: &Key, v: Value) {
    let cmp = compare(order);
    match list.binary_search_by(|e| cmp(&e.0, k)) {
        Ok(i) => list[i].1 = v,
        Err(i) => list.insert(i, (k.clone(), v)),
    }
}

fn edited(order: Order, list: &mut Vec<(Key, Value)>, line: &Line, answer: &str, size: u32) -> Result<(), String> {
    let before = list.len();
    let mut found = "";
    match line {
        Line::Upsert(k, v) => upsert(order, list, k, v.clone()),
        Line::Remove(k) => {
            list.retain(|e| e.0 != *k);
            found = if list.len() < before { " yes" } else { " no" };
        }
        Line::Drop(id) => list.retain(|e| u64_at(&e.0, 0) != *id),
        Line::Put(id, xid, addr) => {
            list.retain(|e| u64_at(&e.0, 0) != *id);
            let mut k = id.to_le_bytes().to_vec();
            k.extend(xid.to_le_bytes());
            let mut v = (size as u64 * (1 << 32)).to_le_bytes().to_vec();
            v.extend(addr.to_le_bytes());
            upsert(order, list, &k, Some(v));
        }
        _ => return Ok(()),
    }
    let expected = format!("({} 0{found} {} ", words::name(line), list.len());
    if answer.starts_with(&expected) { Ok(()) } else { Err(format!("the plain list says {expected}..)")) }
}
