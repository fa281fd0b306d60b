//! One life: a tree made and edited by real calls, and between them calls on bent copies of what they are lent.

use crate::bend;
use crate::disk::Disk;
use crate::guard::Side;
use crate::judge::judge;
use crate::lends::{Call, Guards, Lends};
use crate::library::lengths;
use crate::plan::Plan;
use crate::predict::{demand, Demand};
use crate::random::Random;
use crate::totals::Totals;
use crate::words::{EmptyRoot, Line};

const MAP_AT: u64 = 0;
const TREE_AT: u64 = 5;
const TREE_ID: u64 = 1024;

pub struct Life<'a> {
    pub r: Random,
    plan: Plan,
    guards: &'a mut Guards,
    totals: &'a mut Totals,
    base: Lends,
    root: u64,
    xid: u64,
    next: u64,
    /// Print each call.
    pub told: bool,
}

/// A fault, or the end of a life that can go on no further.
pub enum End {
    Fault(String),
    Over,
}

type Step<T> = Result<T, End>;

fn empty(disk: &mut Disk, plan: &Plan, is_map: bool) {
    let physical = is_map || !plan.is_virtual;
    let (key, value) = if is_map { (16, 16) } else { plan.fixed.unwrap_or((0, 0)) };
    let (addr, flags) = if is_map { (MAP_AT, 0) } else { (TREE_AT, plan.flags) };
    let root = EmptyRoot { addr, physical, id: TREE_ID, xid: 1, subtype: 11, flags, key: key as u32, value: value as u32 };
    disk.set_up(&Line::Empty(root)).expect("the plan's sizes hold");
}

fn lends(plan: &Plan, r: &mut Random) -> Lends {
    let (size, slots) = (plan.size, plan.slots);
    let mut disk = Disk::new(plan.blocks, size as u64).expect("the plan's sizes hold");
    empty(&mut disk, plan, false);
    if plan.is_virtual {
        empty(&mut disk, plan, true);
    }
    let list = || vec![0x7777; slots];
    Lends {
        size,
        slots,
        mapped: 0,
        map: 0,
        tree: vec![0x1234; 14 + r.length(2)],
        image: disk.image,
        heads: vec![0xabab; 19 * slots],
        bytes: vec![0xa5; 8 * size * slots],
        scratch: vec![0x3c; (2 * slots + 2) * size],
        out: vec![0x5a; plan.out],
        answer: vec![0x99; 8 + r.length(1)],
        bitmap: disk.bitmap,
        counts: disk.counts,
        free: disk.free,
        freed: list(),
        removed: list(),
        ids: list(),
        places: list(),
    }
}

impl<'a> Life<'a> {
    pub fn new(seed: u64, guards: &'a mut Guards, totals: &'a mut Totals) -> Self {
        let mut r = Random::new(seed);
        let plan = Plan::new(&mut r);
        guards.side = if seed % 2 == 0 { Side::End } else { Side::Start };
        let base = lends(&plan, &mut r);
        Self { r, plan, guards, totals, base, root: TREE_AT, xid: 2, next: 2000, told: false }
    }

    /// One call on what is lent, judged. What it leaves is lent to the next.
    fn call(&mut self, l: &mut Lends, call: &Call, bent: bool) -> Step<u64> {
        let demanded = demand(l, call);
        let held = !matches!(demanded, Demand::Refused(1) | Demand::Untold) && !matches!(call, Call::Open(..));
        let trusted = held && self.r.chance(30);
        let left = self.guards.call(l, call, trusted);
        if self.told {
            let (bent, trusted) = (if bent { "bent " } else { "" }, if trusted { " trusted" } else { "" });
            println!("{bent}{}{trusted} tree {:?}: {}", call.name(), l.tree, left.number);
        }
        self.totals.note(call.name(), left.number, bent, trusted, matches!(demanded, Demand::Untold));
        if let Err(why) = judge(l, &left, call, &demanded, self.guards) {
            return Err(End::Fault(format!("{why}: {call:?} trusted {trusted} bent {bent}, tree {:?}", l.tree)));
        }
        l.heads.copy_from_slice(left.heads);
        l.bytes.copy_from_slice(left.bytes);
        if left.number == 0 {
            l.tree.copy_from_slice(left.tree);
            l.answer.copy_from_slice(left.answer);
        }
        if left.number == 0 && matches!(call, Call::Flush(..)) {
            l.image.copy_from_slice(left.image);
            l.bitmap.copy_from_slice(left.bitmap);
            l.free.copy_from_slice(left.free);
            let lists = [(&mut l.freed, left.freed), (&mut l.removed, left.removed), (&mut l.ids, left.ids), (&mut l.places, left.places)];
            lists.into_iter().for_each(|(list, after)| list.copy_from_slice(after));
        }
        Ok(left.number)
    }

    /// A call on the tree itself; refused where the life needs it, it ends.
    fn wanted(&mut self, call: Call) -> Step<()> {
        let mut l = std::mem::replace(&mut self.base, empty_lends());
        let r = self.call(&mut l, &call, false);
        self.base = l;
        if r? == 0 { Ok(()) } else { Err(End::Over) }
    }

    fn open(&mut self) -> Step<()> {
        let (map, order) = (self.plan.is_virtual, self.plan.order as u64);
        self.base.mapped = map as u64;
        self.wanted(Call::Open(if map { TREE_ID } else { self.root }, order, self.xid))
    }

    /// Flushes; freed blocks may be taken again from then on.
    fn flush(&mut self) -> Step<u64> {
        self.xid += 1;
        self.wanted(Call::Flush(self.xid, self.next))?;
        let a = self.base.answer.clone();
        for addr in self.base.freed[..a[2] as usize].iter().map(|a| *a as usize).collect::<Vec<_>>() {
            self.base.bitmap[addr / 8] &= !(1 << (addr % 8));
            self.base.free[addr / (8 * self.plan.size)] += 1;
        }
        self.next = a[7];
        Ok(a[0])
    }

    /// The map takes the ids in, and is flushed.
    fn map_moves(&mut self, removed: &[u64], moved: &[(u64, u64)]) -> Step<()> {
        let (size, next) = (self.plan.size as u64, self.next);
        self.base.mapped = 0;
        self.wanted(Call::Open(self.base.map, 0, self.xid))?;
        for (id, place) in moved {
            self.wanted(Call::Put(*id, self.xid, *place, size))?;
        }
        for id in removed {
            self.wanted(Call::Drop(*id))?;
        }
        self.base.map = self.flush()?;
        self.next = next;
        Ok(())
    }

    /// Flushes the tree and opens it again.
    fn turn(&mut self) -> Step<()> {
        self.root = self.flush()?;
        if self.plan.is_virtual {
            let (removed, moved) = (self.base.answer[3] as usize, self.base.answer[4] as usize);
            let moved: Vec<(u64, u64)> = (0..moved).map(|i| (self.base.ids[i], self.base.places[i])).collect();
            let removed = self.base.removed[..removed].to_vec();
            self.map_moves(&removed, &moved)?;
        }
        self.open()
    }

    fn bent(&mut self) -> Step<()> {
        let mut l = self.base.clone();
        for _ in 0..1 + self.r.below(3) {
            bend::one(&mut self.r, &mut l);
        }
        for _ in 0..1 + self.r.below(5) {
            if self.r.chance(20) {
                bend::one(&mut self.r, &mut l);
            }
            let call = self.plan.hostile_call(&mut self.r, self.root, self.xid);
            self.call(&mut l, &call, true)?;
        }
        Ok(())
    }

    /// The lengths that the library asks for: 0 where open accepts no such slots or size.
    fn lengths(&mut self) -> Step<()> {
        let slots = *self.r.pick(&[0, 1, 7, 4095, 4096, 4097, 1 << 61, usize::MAX]);
        let size = if self.r.chance(50) { 512 << self.r.below(8) } else { bend::number(&mut self.r) as usize };
        let (n, s) = (slots as u64, size as u64);
        let (some, sized) = ((1..=4096).contains(&slots), (512..=65_536).contains(&size) && size.is_power_of_two());
        let words = if some { 19 * n } else { 0 };
        let (bytes, scratch) = if some && sized { (8 * n * s, (2 * n + 2) * s) } else { (0, 0) };
        if lengths(slots, size) == (words, bytes, scratch) {
            return Ok(());
        }
        Err(End::Fault(format!("lengths of {slots} slots of {size}: {:?}", lengths(slots, size))))
    }

    /// The whole life.
    pub fn live(&mut self) -> Step<()> {
        self.lengths()?;
        if self.plan.is_virtual {
            self.map_moves(&[], &[(TREE_ID, TREE_AT)])?;
        }
        self.open()?;
        for _ in 0..self.plan.steps {
            match self.r.below(100) {
                0..=2 => self.turn()?,
                3..=44 => {
                    let call = self.plan.call(&mut self.r);
                    let mut l = std::mem::replace(&mut self.base, empty_lends());
                    let done = self.call(&mut l, &call, false);
                    self.base = l;
                    done?;
                }
                _ => self.bent()?,
            }
        }
        Ok(())
    }
}

/// What stands in while a call has the lends.
fn empty_lends() -> Lends {
    let (w, b, c) = (Vec::new, Vec::new, Vec::new);
    Lends {
        size: 0, slots: 0, mapped: 0, map: 0, tree: w(), image: b(), heads: w(), bytes: b(), scratch: b(), out: b(), answer: w(), bitmap: b(),
        counts: c(), free: c(), freed: w(), removed: w(), ids: w(), places: w(),
    }
}
