//! What a life's tree is like, and calls on it.

use crate::bend;
use crate::lends::Call;
use crate::random::Random;
use crate::words::Order;

pub struct Plan {
    pub size: usize,
    pub blocks: u64,
    pub slots: usize,
    pub order: Order,
    pub fixed: Option<(usize, usize)>,
    pub flags: u32,
    pub is_virtual: bool,
    /// How many steps its life has; fewer where a call copies much.
    pub steps: u64,
    /// Bytes of the output.
    pub out: usize,
    longest: usize,
}

fn size(r: &mut Random) -> usize {
    match r.below(200) {
        0..=159 => 512,
        160..=183 => 1024,
        184..=197 => 4096,
        198 => 16_384,
        _ => 65_536,
    }
}

fn lengths(r: &mut Random, order: Order) -> Option<(usize, usize)> {
    match order {
        _ if r.chance(40) => None,
        Order::Pair => Some((16, *r.pick(&[16, 16, 16, 0, 8, 40]))),
        Order::Byte => Some((*r.pick(&[1, 4, 8, 13]), *r.pick(&[0, 3, 8, 50]))),
    }
}

impl Plan {
    pub fn new(r: &mut Random) -> Self {
        let size = size(r);
        let drawn = *r.pick(&[1, 2, 3, 4, 5, 6, 8, 12, 20]);
        let slots = if size > 4096 { 3 } else if size > 1024 { drawn.min(5) } else { drawn };
        let order = *r.pick(&[Order::Pair, Order::Pair, Order::Byte]);
        Self {
            size,
            blocks: if size > 4096 { 10 } else { 16 + r.below(40) },
            slots,
            order,
            fixed: lengths(r, order),
            flags: *r.pick(&[0, 0, 0x40]),
            is_virtual: r.chance(40),
            steps: if size > 4096 { 15 } else { 20 + r.below(150) },
            out: *r.pick(&[0, 16, 300, 2048, 2048, 4 * size * slots]),
            longest: *r.pick(&[2, 6, 12, size / 8, size / 3]),
        }
    }

    fn key(&self, r: &mut Random) -> Vec<u8> {
        if r.chance(2) {
            let n = if r.chance(5) { 60_000 + r.length(10_000) } else { r.length(40) };
            return r.bytes(n);
        }
        match (self.order, self.fixed) {
            (Order::Pair, _) => [r.below(40).to_le_bytes(), r.below(3).to_le_bytes()].concat(),
            (_, Some((n, _))) => (0..n).map(|i| if i < 2 { r.below(8) as u8 } else { 1 }).collect(),
            _ => {
                let n = r.length(self.longest);
                (0..n).map(|i| if i < 3 { r.below(5) as u8 } else { 7 }).collect()
            }
        }
    }

    fn value(&self, r: &mut Random) -> Vec<u8> {
        let n = match self.fixed {
            _ if r.chance(1) => r.length(200),
            Some((_, n)) => n,
            None if r.chance(1) && r.chance(10) => 60_000 + r.length(10_000),
            None => *r.pick(&[0, 8, 16, 40, 100, self.size / 4, self.size / 3, self.size / 2, self.size]),
        };
        vec![r.next() as u8; n]
    }

    /// A call as a caller in good faith makes it, but for a wrong length now and then.
    pub fn call(&self, r: &mut Random) -> Call {
        let key = self.key(r);
        match r.below(100) {
            0..=44 => Call::Upsert(key, r.chance(4) as u64, self.value(r)),
            45..=61 => Call::Remove(key),
            62..=71 => Call::Get(key),
            72..=79 => Call::Floor(key),
            80..=87 => Call::Range(key, self.key(r)),
            88..=93 => Call::Drop(r.below(40)),
            _ => Call::Put(r.below(40), r.below(3), r.below(99), self.size as u64),
        }
    }

    /// Any call, with numbers that are none.
    pub fn hostile_call(&self, r: &mut Random, root: u64, xid: u64) -> Call {
        let bent = bend::number(r);
        match r.below(100) {
            0..=11 => Call::Flush(xid, if r.chance(30) { bent } else { 5000 }),
            12..=17 => {
                let root = if r.chance(60) { root } else if self.is_virtual { 1024 } else { bent };
                Call::Open(root, if r.chance(10) { bent } else { self.order as u64 }, if r.chance(20) { bent } else { xid })
            }
            18..=19 => Call::Put(bent, bend::number(r), bend::number(r), bend::number(r)),
            20 => Call::Drop(bent),
            21 => Call::Upsert(self.key(r), bent, self.value(r)),
            _ => self.call(r),
        }
    }
}
