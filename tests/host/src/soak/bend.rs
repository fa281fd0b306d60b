//! Bends what is lent: single words, bytes, numbers and lengths, or all of a part at random.

use crate::lends::Lends;
use crate::model::HEAD;
use crate::random::Random;

/// A number that some test may stumble over.
pub fn number(r: &mut Random) -> u64 {
    let small = r.below(20);
    let any = r.next();
    let shift = r.below(64);
    let known = [0, 0, 1, 1, 2, 3, 4, 8, 31, 32, 33, 512, 1 << 16, u32::MAX as u64, 1 << 32, 1 << 63, u64::MAX - 1, u64::MAX];
    match r.below(22) {
        i @ 0..18 => known[i as usize],
        18 | 19 => small,
        20 => any,
        _ => any >> shift,
    }
}

fn slot_in_use(r: &mut Random, l: &Lends) -> usize {
    let used = l.tree.get(1).copied().unwrap_or(0).clamp(1, l.slots.clamp(1, 4096) as u64);
    r.below(used) as usize
}

fn head(r: &mut Random, l: &mut Lends) {
    let (n, w) = (slot_in_use(r, l), r.below(HEAD as u64) as usize);
    let bent = number(r);
    if let Some(word) = l.heads.get_mut(HEAD * n + w) {
        *word = if r.chance(30) { word.wrapping_add(1) } else if r.chance(30) { word.wrapping_sub(1) } else { bent };
    }
}

/// A byte of a slot's records, more often one of the first.
fn record(r: &mut Random, l: &mut Lends) {
    let n = slot_in_use(r, l);
    let used = l.heads.get(HEAD * n + 2).copied().unwrap_or(0).clamp(1, 4 * l.size.clamp(1, 1 << 16) as u64);
    let at = if r.chance(40) { r.below(used.min(32)) } else { r.below(used) } as usize;
    let bent = *r.pick(&[0, 1, 2, 7, 8, 15, 16, 17, 0xfc, 0xfd, 0xfe, 0xff]);
    if let Some(byte) = l.bytes.get_mut(4 * l.size * n + at) {
        *byte = if r.chance(30) { *byte ^ 1 << r.below(8) } else { bent };
    }
}

fn lent(r: &mut Random, l: &mut Lends) {
    match r.below(5) {
        0 => l.size = *r.pick(&[0, 1, 511, 513, 512, 1024, 2048, 4096, 65_536, 131_072, usize::MAX, 1 << 63]),
        1 => l.slots = if r.chance(50) { l.slots ^ 1 } else { *r.pick(&[0, 1, 2, 4096, 4097, usize::MAX, 1 << 60]) },
        2 => l.mapped ^= 1,
        3 => l.mapped = number(r),
        _ => l.map = number(r),
    }
}

fn other_length<T: Clone + Default>(r: &mut Random, list: &mut Vec<T>, step: usize) {
    let n = list.len();
    let length = match r.below(6) {
        0 => 0,
        1 => n.saturating_sub(1),
        2 => n + 1,
        3 => n.saturating_sub(step),
        4 => n + step,
        _ => r.length(n),
    };
    list.resize(length, T::default());
}

fn lengths(r: &mut Random, l: &mut Lends) {
    let (size, slots) = (l.size.clamp(1, 1 << 16), l.slots.clamp(1, 64));
    match r.below(12) {
        0 => other_length(r, &mut l.tree, 1),
        1 => other_length(r, &mut l.image, size),
        2 => other_length(r, &mut l.heads, 19),
        3 => other_length(r, &mut l.bytes, 8 * size),
        4 => other_length(r, &mut l.scratch, size),
        5 => other_length(r, &mut l.answer, 1),
        6 => other_length(r, &mut l.bitmap, size),
        7 => other_length(r, &mut l.counts, 1),
        8 => other_length(r, &mut l.free, 1),
        9 => other_length(r, &mut l.freed, slots),
        10 => other_length(r, &mut l.removed, 1),
        _ => {
            other_length(r, &mut l.ids, 1);
            if r.chance(50) {
                l.places.resize(l.ids.len(), 0);
            }
        }
    }
}

fn chunks(r: &mut Random, l: &mut Lends) {
    let bent = number(r) as u32;
    let blocks = (l.image.len() / l.size.max(1)) as u32;
    let near = blocks.wrapping_add(r.below(3) as u32).wrapping_sub(1);
    let c = r.below(l.counts.len().max(1) as u64) as usize;
    match r.below(3) {
        0 => l.counts.get_mut(c).into_iter().for_each(|n| *n = if bent & 1 == 0 { near } else { bent }),
        1 => l.free.get_mut(c).into_iter().for_each(|n| *n = bent),
        _ => {
            let at = r.below(l.bitmap.len().max(1) as u64) as usize;
            l.bitmap.get_mut(at).into_iter().for_each(|b| *b = bent as u8);
        }
    }
}

/// A byte of a block, which is mostly sealed again.
pub fn block(r: &mut Random, l: &mut Lends) {
    if !(512..=65_536).contains(&l.size) || l.image.len() < l.size {
        return;
    }
    let blocks = (l.image.len() / l.size) as u64;
    let used: Vec<u64> = (0..blocks).filter(|a| l.image[*a as usize * l.size + 24] != 0).collect();
    let addr = if used.is_empty() { r.below(blocks) } else { *r.pick(&used) } as usize;
    let size = l.size;
    let b = &mut l.image[addr * size..][..size];
    let at = match r.below(5) {
        0 => 8 + r.below(48),
        1 => 32 + r.below(24),
        2 => 56 + r.below(160),
        3 => size as u64 - 40 + r.below(40),
        _ => 8 + r.below(size as u64 - 8),
    } as usize;
    b[at] = if r.chance(50) { b[at] ^ 1 << r.below(8) } else { number(r) as u8 };
    if r.chance(95) {
        apfs::seal_block(b);
    }
}

/// Slots that nobody wrote: small numbers, or any.
fn at_random(r: &mut Random, l: &mut Lends) {
    let tame = r.chance(50);
    l.heads.iter_mut().for_each(|w| *w = if tame { r.below(3) } else { r.next() });
    let used = (l.bytes.len() as u64).min(1 << 14) as usize;
    l.bytes[..used].iter_mut().for_each(|b| *b = if tame { r.below(20) as u8 } else { r.next() as u8 });
    if !tame {
        l.tree.iter_mut().for_each(|w| *w = r.next() >> r.below(64));
    } else if l.tree.len() > 1 {
        l.tree[1] = r.below(3);
    }
}

/// One bend.
pub fn one(r: &mut Random, l: &mut Lends) {
    match r.below(100) {
        0..=24 => head(r, l),
        25..=54 => record(r, l),
        55..=66 => {
            let (i, bent) = (r.below(15) as usize, number(r));
            l.tree.get_mut(i).into_iter().for_each(|w| *w = bent);
        }
        67..=71 => lent(r, l),
        72..=77 => lengths(r, l),
        78..=82 => chunks(r, l),
        83..=96 => block(r, l),
        97 => at_random(r, l),
        _ => {
            l.heads.iter_mut().rev().take(40).for_each(|w| *w = r.next());
            let n = r.length(600);
            l.out.resize(n, 0x5a);
        }
    }
}
