//! All that a call is lent, and the call itself through the C interface, every slice under guard.

use crate::guard::{Arena, Side};
use crate::library::{Chunks, Lent};

#[derive(Clone, Debug)]
pub enum Call {
    Open(u64, u64, u64),
    Get(Vec<u8>),
    Floor(Vec<u8>),
    Range(Vec<u8>, Vec<u8>),
    Upsert(Vec<u8>, u64, Vec<u8>),
    Remove(Vec<u8>),
    Put(u64, u64, u64, u64),
    Drop(u64),
    Flush(u64, u64),
}

impl Call {
    pub fn name(&self) -> &'static str {
        match self {
            Call::Open(..) => "open",
            Call::Get(_) => "get",
            Call::Floor(_) => "floor",
            Call::Range(..) => "range",
            Call::Upsert(..) => "upsert",
            Call::Remove(_) => "remove",
            Call::Put(..) => "put",
            Call::Drop(_) => "drop",
            Call::Flush(..) => "flush",
        }
    }
}

#[derive(Clone)]
pub struct Lends {
    pub size: usize,
    pub slots: usize,
    pub mapped: u64,
    pub map: u64,
    pub tree: Vec<u64>,
    pub image: Vec<u8>,
    pub heads: Vec<u64>,
    pub bytes: Vec<u8>,
    pub scratch: Vec<u8>,
    pub out: Vec<u8>,
    pub answer: Vec<u64>,
    pub bitmap: Vec<u8>,
    pub counts: Vec<u32>,
    pub free: Vec<u32>,
    pub freed: Vec<u64>,
    pub removed: Vec<u64>,
    pub ids: Vec<u64>,
    pub places: Vec<u64>,
}

/// What a call left in the guarded copies.
pub struct Left {
    pub number: u64,
    pub tree: &'static mut [u64],
    pub image: &'static mut [u8],
    pub heads: &'static mut [u64],
    pub bytes: &'static mut [u8],
    pub scratch: &'static mut [u8],
    pub out: &'static mut [u8],
    pub answer: &'static mut [u64],
    pub bitmap: &'static mut [u8],
    pub counts: &'static mut [u32],
    pub free: &'static mut [u32],
    pub freed: &'static mut [u64],
    pub removed: &'static mut [u64],
    pub ids: &'static mut [u64],
    pub places: &'static mut [u64],
    /// The two byte strings among the arguments.
    pub words: [&'static mut [u8]; 2],
}

/// One arena for each slice; sizes in bytes.
pub struct Guards {
    arenas: Vec<Arena>,
    pub side: Side,
}

const WORKSPACE: usize = 6 << 20;
const SMALL: usize = 1 << 18;
const ARENAS: usize = 16;

impl Guards {
    pub fn new() -> Self {
        let room = |i: usize| if (1..6).contains(&i) { WORKSPACE } else { SMALL };
        Self { arenas: (0..ARENAS).map(|i| Arena::new(room(i))).collect(), side: Side::End }
    }

    /// Lends copies of everything. Only flush is lent the last ones.
    fn lend(&mut self, l: &Lends, words: [&[u8]; 2], flush: bool) -> Left {
        let side = self.side;
        let [a, b, c, d, e, f, g, h, i, j, k, m, n, o, p, q] = &mut self.arenas[..] else { unreachable!("there are so many arenas") };
        Left {
            number: 0,
            tree: a.place(&l.tree, side),
            image: b.place(&l.image, side),
            heads: c.place(&l.heads, side),
            bytes: d.place(&l.bytes, side),
            scratch: e.place(if flush { &[] } else { &l.scratch }, side),
            out: f.place(&l.out, side),
            answer: g.place(&l.answer, side),
            bitmap: h.place(&l.bitmap, side),
            counts: i.place(&l.counts, side),
            free: j.place(&l.free, side),
            freed: k.place(&l.freed, side),
            removed: m.place(&l.removed, side),
            ids: n.place(&l.ids, side),
            places: o.place(&l.places, side),
            words: [p.place(words[0], side), q.place(words[1], side)],
        }
    }

    pub fn are_kept(&mut self) -> bool {
        self.arenas.iter_mut().all(Arena::is_kept)
    }

    pub fn call(&mut self, l: &Lends, call: &Call, trusted: bool) -> Left {
        let words: [&[u8]; 2] = match call {
            Call::Get(k) | Call::Floor(k) | Call::Remove(k) => [k, &[]],
            Call::Range(a, b) | Call::Upsert(a, _, b) => [a, b],
            _ => [&[], &[]],
        };
        let mut left = self.lend(l, words, matches!(call, Call::Flush(..)));
        let (size, slots, mapped, map) = (l.size, l.slots, l.mapped, l.map);
        let (tree, image, heads, bytes, scratch) = (&mut *left.tree, &mut *left.image, &mut *left.heads, &mut *left.bytes, &mut *left.scratch);
        let mut lent = Lent { trusted, tree, image, heads, bytes, scratch, size, slots, mapped, map };
        let (out, answer, [x, y]) = (&mut *left.out, &mut *left.answer, &left.words);
        left.number = match call {
            Call::Open(root, order, xid) => lent.open(*root, *order, *xid),
            Call::Get(_) => lent.get(x, out, answer),
            Call::Floor(_) => lent.floor(x, out, answer),
            Call::Range(..) => lent.range(x, y, out, answer),
            Call::Upsert(_, ghost, _) => lent.upsert(x, *ghost, y),
            Call::Remove(_) => lent.remove(x, answer),
            Call::Put(id, xid, address, length) => lent.put(*id, *xid, *address, *length),
            Call::Drop(id) => lent.drop(*id),
            Call::Flush(xid, next) => {
                let (bitmap, counts, free) = (&mut *left.bitmap, &*left.counts, &mut *left.free);
                let (freed, removed, ids, places) = (&mut *left.freed, &mut *left.removed, &mut *left.ids, &mut *left.places);
                lent.flush(&mut Chunks { bitmap, counts, free, freed, removed, ids, places }, *xid, *next, answer)
            }
        };
        left
    }
}
