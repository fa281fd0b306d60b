//! Lengths, growth, and trees that are dropped, opened again and flushed.

mod common;

use common::{omap_disk, Disk};
use moachest::{omap_key, Options, Order, Reader, Refusal, Tree};

/// The program dock's listing (docs/RULES.md#dock).
#[test]
fn dock() {
    let mut disk = Disk::physical(32, 512, Order::Pair, Some((16, 16)));
    let mut tree = disk.open().unwrap();
    moachest::omap_put(&mut tree, &disk.reader(), 5, 1, 9, 512).unwrap();
    assert_eq!(tree.keys(), 1);
    moachest::omap_put(&mut tree, &disk.reader(), 5, 2, 10, 512).unwrap();
    assert_eq!(tree.keys(), 1);
    let done = tree.flush(&mut disk.image, &mut disk.space, 2, &mut 0).unwrap();
    assert_eq!((done.root, done.allocated, done.freed, done.keys, done.fill), (1, 1, 1, 1, 23));
    assert_eq!((done.freed_blocks, done.moved, done.removed), (vec![0], vec![], vec![]));
}

#[test]
fn an_image_of_another_length_is_refused() {
    let mut disk = omap_disk().filled(30);
    let mut tree = disk.open().unwrap();
    let long = [disk.image.clone(), vec![0; 512]].concat();
    let short = disk.image[..disk.image.len() - 512].to_vec();
    let wrong = [
        Reader::physical(&long, 512),
        Reader::physical(&short, 512),
        Reader::physical(&disk.image[1..], 512),
        Reader::physical(&[], 512),
        Reader::physical(&disk.image, 1024),
        Reader::mapped(&disk.image, 512, 1, 0),
        Reader::mapped(&disk.image, 512, 0, 0),
    ];
    for rd in wrong {
        let key = omap_key(29, 1);
        assert_eq!(tree.get(&rd, &key), Err(Refusal::Lent));
        assert_eq!(tree.get_into(&rd, &key, &mut []), Err(Refusal::Lent));
        assert_eq!(tree.floor(&rd, &key), Err(Refusal::Lent));
        assert_eq!(tree.range(&rd, &key, &key), Err(Refusal::Lent));
        assert_eq!(tree.upsert(&rd, &key, None), Err(Refusal::Lent));
        assert_eq!(tree.remove(&rd, &key), Err(Refusal::Lent));
        assert_eq!(tree.omap_put(&rd, 1, 1, 1, 1), Err(Refusal::Lent));
        assert_eq!(tree.omap_drop(&rd, 1), Err(Refusal::Lent));
    }
    tree.omap_drop(&disk.reader(), 3).unwrap();
    for mut image in [long, short, Vec::new()] {
        let before = image.clone();
        let refused = tree.flush(&mut image, &mut disk.space, 2, &mut 0).unwrap_err();
        assert_eq!((refused.refusal, image), (Refusal::Lent, before));
        tree = *refused.tree;
    }
    assert_eq!(tree.flush(&mut disk.image, &mut disk.space, 2, &mut 0).unwrap().keys, 29);
}

#[test]
fn a_dropped_tree_changed_nothing() {
    let disk = omap_disk().filled(30);
    let image = disk.image.clone();
    let mut tree = disk.open().unwrap();
    for id in 0..30 {
        tree.omap_drop(&disk.reader(), id).unwrap();
    }
    assert_eq!((tree.keys(), tree.changed()), (0, true));
    drop(tree);
    assert_eq!(disk.image, image);
    let mut tree = disk.open().unwrap();
    assert_eq!((tree.keys(), tree.changed()), (30, false));
    assert_eq!(tree.get(&disk.reader(), &omap_key(7, 1)), Ok(Some(Some(vec![7; 16]))));
}

#[test]
fn a_flush_of_no_change_writes_nothing() {
    let mut disk = omap_disk().filled(30);
    let (image, space) = (disk.image.clone(), disk.space.clone());
    let mut tree = disk.open().unwrap();
    tree.entries(&disk.reader()).unwrap();
    let done = tree.flush(&mut disk.image, &mut disk.space, 9, &mut 0).unwrap();
    assert_eq!((done.root, done.allocated, done.freed, done.keys), (disk.root, 0, 0, 30));
    assert_eq!((disk.image, disk.space), (image, space));
}

#[test]
fn a_flush_writes_free_blocks_only() {
    let mut disk = omap_disk().filled(60);
    let (image, space) = (disk.image.clone(), disk.space.clone());
    let mut tree = disk.open().unwrap();
    tree.omap_put(&disk.reader(), 31, 9, 99, 512).unwrap();
    let done = tree.flush(&mut disk.image, &mut disk.space, 9, &mut 0).unwrap();
    let changed = (0..256).filter(|b| image[b * 512..][..512] != disk.image[b * 512..][..512]).map(|b| b as u64);
    let taken = (0..256).filter(|&b| !space.is_used(b) && disk.space.is_used(b));
    let changed: Vec<u64> = changed.collect();
    assert_eq!(changed, taken.collect::<Vec<_>>());
    assert_eq!(changed.len() as u64, done.allocated);
    assert!(done.freed_blocks.iter().all(|&b| space.is_used(b)));
}

#[test]
fn outputs_grow() {
    let mut disk = Disk::physical(4096, 4096, Order::Byte, None);
    let mut tree = disk.open().unwrap();
    let key = |i: u32| i.to_be_bytes();
    for i in 0..200 {
        tree.upsert(&disk.reader(), key(i), Some(&vec![i as u8; 1000 + i as usize])).unwrap();
    }
    tree.upsert(&disk.reader(), key(500), None).unwrap();
    tree.upsert(&disk.reader(), key(501), Some(&[])).unwrap();
    disk.commit(tree);
    let rd = disk.reader();
    // Each on a new tree, whose output has no room yet.
    assert_eq!(disk.open().unwrap().get(&rd, &key(199)), Ok(Some(Some(vec![199; 1199]))));
    assert_eq!(disk.open().unwrap().floor(&rd, &key(300)), Ok(Some((key(199).to_vec(), Some(vec![199; 1199])))));
    let all = disk.open().unwrap().entries(&rd).unwrap();
    assert_eq!(all.len(), 202);
    for (i, (k, v)) in all.iter().take(200).enumerate() {
        assert_eq!((k.as_slice(), v.as_deref()), (&key(i as u32)[..], Some(&vec![i as u8; 1000 + i][..])));
    }
    assert_eq!(all[200..], [(key(500).to_vec(), None), (key(501).to_vec(), Some(vec![]))]);
    let mut tree = disk.open().unwrap();
    assert_eq!(tree.get(&rd, &key(500)), Ok(Some(None)));
    assert_eq!(tree.get(&rd, &key(501)), Ok(Some(Some(vec![]))));
    assert_eq!(tree.get(&rd, &key(502)), Ok(None));
    assert_eq!(tree.floor(&rd, &key(u32::MAX)), Ok(Some((key(501).to_vec(), Some(vec![])))));
    assert_eq!(tree.range(&rd, &key(7), &key(7)), Ok(vec![]));
    assert_eq!(tree.range(&rd, &key(9), &key(7)), Ok(vec![]));
}

#[test]
fn slots_grow() {
    let mut disk = omap_disk();
    disk.options = Options { slots: 1, ..Options::default() };
    let mut tree = disk.open().unwrap();
    for id in 0..400 {
        tree.omap_put(&disk.reader(), id, 1, id, 512).unwrap();
    }
    assert!(tree.slots() >= tree.used() && tree.used() > 32);
    disk.commit(tree);
    let mut tree = disk.open().unwrap();
    let ids: Vec<u64> = tree.entries(&disk.reader()).unwrap().iter().map(|(k, _)| u64::from_le_bytes(k[..8].try_into().unwrap())).collect();
    assert_eq!(ids, (0..400).collect::<Vec<_>>());
    assert_eq!(tree.used() as u64, tree.nodes());
}

#[test]
fn the_last_key_of_all_is_an_entry() {
    let disk = omap_disk();
    let mut tree = disk.open().unwrap();
    tree.omap_put(&disk.reader(), u64::MAX, u64::MAX, 3, 512).unwrap();
    tree.omap_put(&disk.reader(), 0, 0, 4, 512).unwrap();
    assert_eq!(tree.entries(&disk.reader()).unwrap().len(), 2);
    tree.omap_drop(&disk.reader(), u64::MAX).unwrap();
    assert_eq!(tree.entries(&disk.reader()).unwrap().len(), 1);
}

#[test]
fn a_tree_goes_on_where_others_write_elsewhere() {
    let mut disk = omap_disk().filled(30);
    let mut tree = disk.open().unwrap();
    tree.omap_drop(&disk.reader(), 1).unwrap();
    // The image is free between calls; damage is refused, and the tree stays.
    let child = disk.first_child();
    let last = disk.image.len() - 1;
    disk.image[last] = 7;
    tree.entries(&disk.reader()).unwrap();
    let mut other = Tree::open(&disk.reader(), disk.root, Order::Pair).unwrap();
    disk.image[child as usize * 512 + 60] ^= 1;
    assert_eq!(other.entries(&disk.reader()), Err(Refusal::Fletcher));
    assert_eq!(other.used(), 1);
    disk.image[child as usize * 512 + 60] ^= 1;
    assert_eq!(other.entries(&disk.reader()).unwrap().len(), 30);
    assert_eq!(tree.entries(&disk.reader()).unwrap().len(), 29);
}

#[test]
fn trees_go_between_threads() {
    let disk = omap_disk().filled(30);
    let mut tree = disk.open().unwrap();
    let n = std::thread::scope(|s| s.spawn(|| tree.entries(&disk.reader()).unwrap().len()).join().unwrap());
    assert_eq!(n, 30);
}
