//! Every refusal, reached; and that a refused call leaves the tree as it was.

mod common;

use common::{omap_disk, Disk, ROOT_ID};
use moachest::{omap_key, Empty, Options, Order, Reader, Refusal, Space, Tree};

/// Opening a disk whose block was changed and sealed again.
fn forged(mut disk: Disk, block: u64, change: impl FnOnce(&mut [u8])) -> Refusal {
    disk.forge(block, change);
    disk.open().unwrap_err()
}

#[test]
fn r01_lent() {
    let disk = omap_disk();
    let open = |image: &[u8], size| Tree::open(&Reader::physical(image, size), 0, Order::Pair).unwrap_err();
    assert_eq!(open(&disk.image, 513), Refusal::Lent);
    assert_eq!(open(&disk.image, 0), Refusal::Lent);
    assert_eq!(open(&disk.image[..1000], 512), Refusal::Lent);
    assert_eq!(open(&[], 512), Refusal::Lent);
    for slots in [0, 4097, usize::MAX] {
        let options = Options { slots, ..Options::default() };
        assert_eq!(Tree::open_with(&disk.reader(), 0, Order::Pair, options).unwrap_err(), Refusal::Lent);
    }
}

#[test]
fn r02_address() {
    let disk = omap_disk();
    for root in [256, u64::MAX] {
        assert_eq!(Tree::open(&disk.reader(), root, Order::Pair).unwrap_err(), Refusal::Address);
    }
}

#[test]
fn r03_fletcher() {
    let mut disk = omap_disk();
    disk.image[100] ^= 1;
    assert_eq!(disk.open().unwrap_err(), Refusal::Fletcher);
}

#[test]
fn r04_kind() {
    assert_eq!(forged(omap_disk(), 0, |b| b[24] = 5), Refusal::Kind);
}

#[test]
fn r05_hashed() {
    assert_eq!(forged(omap_disk(), 0, |b| b[32] |= 8), Refusal::Hashed);
}

#[test]
fn r06_layout() {
    assert_eq!(forged(omap_disk(), 0, |b| b[34] = 33), Refusal::Layout);
    assert_eq!(forged(omap_disk(), 0, |b| b[8] = 1), Refusal::Layout);
    assert_eq!(forged(omap_disk(), 0, |b| b[32] = 2), Refusal::Layout);
}

#[test]
fn r07_level() {
    let mut disk = omap_disk().filled(20);
    disk.forge(disk.root, |b| b[34] = 2);
    let mut tree = disk.open().unwrap();
    assert_eq!(tree.get(&disk.reader(), &omap_key(3, 1)), Err(Refusal::Level));
}

#[test]
fn r08_entry() {
    let disk = omap_disk().filled(3);
    let root = disk.root;
    assert_eq!(forged(disk, root, |b| b[57] = 0x70), Refusal::Entry);
}

#[test]
fn r09_keys() {
    let disk = omap_disk().filled(3);
    let root = disk.root;
    assert_eq!(forged(disk, root, |b| b[56..64].rotate_left(4)), Refusal::Keys);
}

#[test]
fn r10_root() {
    assert_eq!(forged(omap_disk(), 0, |b| b[27] = 0), Refusal::Root);
    assert_eq!(forged(omap_disk(), 0, |b| b[512 - 36] = 1), Refusal::Root);
}

#[test]
fn r11_no_slot() {
    let mut disk = omap_disk().filled(20);
    disk.options = Options { slots: 1, most_slots: 1, checked: false };
    let mut tree = disk.open().unwrap();
    assert_eq!(tree.get(&disk.reader(), &omap_key(3, 1)), Err(Refusal::NoSlot));
    disk.options.most_slots = usize::MAX;
    let mut tree = disk.open().unwrap();
    assert!(tree.get(&disk.reader(), &omap_key(3, 1)).unwrap().is_some());
    assert_eq!((tree.used(), tree.slots()), (2, 2));
}

#[test]
fn r12_argument() {
    let disk = omap_disk();
    let mut tree = disk.open().unwrap();
    let rd = disk.reader();
    assert_eq!(tree.get(&rd, b"short"), Err(Refusal::Argument));
    assert_eq!(tree.floor(&rd, &[0; 17]), Err(Refusal::Argument));
    assert_eq!(tree.range(&rd, &[0; 16], &[0; 15]), Err(Refusal::Argument));
    assert_eq!(tree.upsert(&rd, [0; 16], Some(b"short")), Err(Refusal::Argument));
    assert_eq!(tree.remove(&rd, b""), Err(Refusal::Argument));
    let bytes = Disk::physical(8, 512, Order::Byte, None);
    let mut tree = bytes.open().unwrap();
    assert_eq!(tree.omap_put(&bytes.reader(), 1, 1, 1, 512), Err(Refusal::Argument));
    assert_eq!(tree.omap_drop(&bytes.reader(), 1), Err(Refusal::Argument));
}

#[test]
fn r13_single() {
    let disk = Disk::physical(8, 512, Order::Byte, None);
    let mut tree = disk.open().unwrap();
    assert_eq!(tree.upsert(&disk.reader(), [1; 8], Some(&[0; 281])), Err(Refusal::Single));
    assert_eq!(tree.upsert(&disk.reader(), [1; 8], Some(&[0; 280])), Ok(()));
}

#[test]
fn r14_no_cut() {
    let disk = Disk::physical(8, 512, Order::Byte, None);
    let mut tree = disk.open().unwrap();
    tree.upsert(&disk.reader(), [1; 8], Some(&[0; 128])).unwrap();
    tree.upsert(&disk.reader(), [3; 8], Some(&[0; 128])).unwrap();
    assert_eq!(tree.upsert(&disk.reader(), [2; 8], Some(&[0; 312])), Err(Refusal::NoCut));
    assert_eq!((tree.keys(), tree.entries(&disk.reader()).unwrap().len()), (2, 2));
}

#[test]
fn r15_new_root() {
    let disk = Disk::physical(8, 512, Order::Byte, None);
    let mut tree = disk.open().unwrap();
    tree.upsert(&disk.reader(), [1; 200], Some(&[])).unwrap();
    assert_eq!(tree.upsert(&disk.reader(), [2; 200], Some(&[])), Err(Refusal::NewRoot));
}

#[test]
fn r16_full() {
    let mut disk = omap_disk();
    let mut tree = disk.open().unwrap();
    tree.omap_put(&disk.reader(), 1, 1, 1, 512).unwrap();
    let mut full = disk.space.clone();
    full.mark(0, 256);
    let (image, space) = (disk.image.clone(), full.clone());
    let refused = tree.flush(&mut disk.image, &mut full, 2, &mut 0).unwrap_err();
    assert_eq!(refused.refusal, Refusal::Full);
    assert_eq!((&disk.image, &full), (&image, &space));
    // The tree is as it was, and can be flushed where there is room.
    let done = refused.tree.flush(&mut disk.image, &mut disk.space, 2, &mut 0).unwrap();
    assert_eq!((done.keys, done.allocated), (1, 1));
}

#[test]
fn r17_count() {
    let mut disk = omap_disk();
    disk.forge(0, |b| b[512 - 16..512 - 8].fill(0xFF));
    let mut tree = disk.open().unwrap();
    assert_eq!(tree.omap_put(&disk.reader(), 1, 1, 1, 512), Err(Refusal::Count));
    // In flush: no id is left over.
    let mut disk = Disk::mapped(64, 512, Order::Pair, Some((16, 16)));
    let mut tree = disk.open().unwrap();
    for id in 0..12 {
        tree.upsert(&disk.reader(), omap_key(id, 1), Some(&[0; 16])).unwrap();
    }
    let mut next = u64::MAX;
    let refused = tree.flush(&mut disk.image, &mut disk.space, 2, &mut next).unwrap_err();
    assert_eq!((Refusal::from(refused), next), (Refusal::Count, u64::MAX));
}

#[test]
fn r18_unmapped() {
    let disk = Disk::mapped(64, 512, Order::Pair, Some((16, 16)));
    assert_eq!(Tree::open(&disk.reader(), ROOT_ID + 1, Order::Pair).unwrap_err(), Refusal::Unmapped);
    // As seen from a transaction before the first.
    let before = Reader::mapped(&disk.image, 512, disk.map.unwrap(), 0);
    assert_eq!(Tree::open(&before, ROOT_ID, Order::Pair).unwrap_err(), Refusal::Unmapped);
}

#[test]
fn r19_encrypted() {
    let mut disk = Disk::mapped(64, 512, Order::Pair, Some((16, 16)));
    disk.forge(disk.map.unwrap(), |b| b[512 - 40 - 16] |= 4);
    assert_eq!(disk.open().unwrap_err(), Refusal::Encrypted);
}

#[test]
fn r20_output() {
    let disk = omap_disk().filled(3);
    let mut tree = disk.open().unwrap();
    let mut out = [0xEE; 16];
    assert_eq!(tree.get_into(&disk.reader(), &omap_key(1, 1), &mut out[..15]), Err(Refusal::Output));
    assert_eq!(out, [0xEE; 16]);
    assert_eq!(tree.get_into(&disk.reader(), &omap_key(1, 1), &mut out), Ok(Some(Some(16))));
    assert_eq!(out, [1; 16]);
}

#[test]
fn flush_looks_at_its_lists() {
    let disk = omap_disk();
    let short = |space: &mut Space| {
        let mut tree = disk.open().unwrap();
        tree.omap_put(&disk.reader(), 1, 1, 1, 512).unwrap();
        tree.flush(&mut disk.image.clone(), space, 2, &mut 0).unwrap_err().refusal
    };
    for change in [
        (|s| s.bitmap.truncate(511)) as fn(&mut Space),
        |s| s.counts.clear(),
        |s| s.free.clear(),
        |s| s.counts[0] = 257,
        |s| s.counts[0] = u32::MAX,
        |s| s.free.push(0),
        |s| s.bitmap.clear(),
    ] {
        let mut space = disk.space.clone();
        change(&mut space);
        assert_eq!(short(&mut space), Refusal::Lent);
    }
}

#[test]
fn sentences_and_numbers() {
    assert_eq!(Refusal::ALL.len(), 20);
    for (i, refusal) in Refusal::ALL.iter().enumerate() {
        assert_eq!(refusal.number(), i as u64 + 1);
        assert_eq!(Refusal::from_number(refusal.number()), Some(*refusal));
        assert_eq!(refusal.to_string(), format!("refused with {}: {}", i + 1, refusal.sentence()));
    }
    assert_eq!((Refusal::from_number(0), Refusal::from_number(21)), (None, None));
}

#[test]
fn the_header_has_the_same_sentences() {
    let header = include_str!("../../../include/moachest.h");
    for refusal in Refusal::ALL {
        assert!(header.contains(&format!("return \"{}\";", refusal.sentence())), "{refusal}");
    }
}

#[test]
fn roots_that_are_packed_here_are_taken() {
    for size in [512, 1024, 4096, 65536] {
        for fixed in [None, Some((8, 0)), Some((16, 16))] {
            for flags in [0, 0x40] {
                let mut image = vec![0; 2 * size];
                Empty { fixed, flags, ..Empty::omap(1) }.pack(&mut image[size..]);
                let tree = Tree::open(&Reader::physical(&image, size), 1, Order::Byte).unwrap();
                assert_eq!((tree.keys(), tree.nodes(), tree.used(), tree.changed()), (0, 1, 1, false));
            }
        }
    }
}
