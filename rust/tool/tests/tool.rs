//! The program, run on small images.

use std::fs;
use std::path::PathBuf;
use std::process::Command;

use moachest::{Empty, Order, Reader, Space, Tree};

const SIZE: usize = 512;

/// A folder of its own, removed at the end.
struct Folder(PathBuf);

impl Drop for Folder {
    fn drop(&mut self) {
        let _ = fs::remove_dir_all(&self.0);
    }
}

impl Folder {
    fn new(name: &str) -> Folder {
        let folder = std::env::temp_dir().join(format!("moachest-{}-{name}", std::process::id()));
        fs::create_dir_all(&folder).unwrap();
        Folder(folder)
    }

    fn file(&self, name: &str) -> String {
        self.0.join(name).to_str().unwrap().to_string()
    }

    /// An image of 64 blocks with an object map of `n` entries, and its root.
    fn image(&self, n: u64) -> (String, u64) {
        let mut image = vec![0; 64 * SIZE];
        Empty::omap(0).pack(&mut image[..SIZE]);
        let mut space = Space::new(64, SIZE);
        space.mark(0, 1);
        let rd = Reader::physical(&image, SIZE);
        let mut tree = Tree::open(&rd, 0, Order::Pair).unwrap();
        for id in 0..n {
            tree.omap_put(&rd, id, 3, 100 + id, SIZE as u32).unwrap();
        }
        let root = tree.flush(&mut image, &mut space, 3, &mut 0).unwrap().root;
        fs::write(self.file("image"), image).unwrap();
        fs::write(self.file("bitmap"), space.bitmap).unwrap();
        (self.file("image"), root)
    }
}

/// Runs the program: its exit code, what it printed, and what it complained of.
fn moachest(line: &str) -> (i32, String, String) {
    let out = Command::new(env!("CARGO_BIN_EXE_moachest")).args(line.split_whitespace()).output().unwrap();
    (out.status.code().unwrap(), String::from_utf8(out.stdout).unwrap(), String::from_utf8(out.stderr).unwrap())
}

/// A command that is done; its words, line by line.
fn done(line: &str) -> Vec<Vec<String>> {
    let (code, out, err) = moachest(line);
    assert_eq!((code, err.as_str()), (0, ""), "{line}");
    out.lines().map(|line| line.split_whitespace().map(str::to_string).collect()).collect()
}

/// A command that fails: its exit code and complaint.
fn fails(line: &str) -> (i32, String) {
    let (code, out, err) = moachest(line);
    assert_eq!(out, "", "{line}");
    (code, err)
}

#[test]
fn help() {
    for line in ["", "--help", "help", "omap put --help"] {
        let (code, out, _) = moachest(line);
        assert!(code == 0 && out.contains("moachest omap list IMAGE --root BLOCK"));
    }
}

#[test]
fn usage() {
    let folder = Folder::new("usage");
    let (image, root) = folder.image(3);
    let cases = [
        ("omap".to_string(), "there is no such command"),
        ("omap list".to_string(), "which image?"),
        (format!("omap list {image}"), "--root is missing"),
        (format!("omap list {image} --root"), "--root takes a word"),
        (format!("omap list {image} --root x"), "--root takes a number, and x is none"),
        (format!("omap list {image} --root 1"), "has no container superblock at block 0: --size gives the block size"),
        (format!("omap list {image} {image} --root 1"), "one image is enough"),
        (format!("omap list {image} --root 1 --root 1 --size 512"), "--root is given twice"),
        (format!("omap list {image} --root 1 --write"), "this command takes no --write"),
        (format!("omap list {image} --root 1 --wrong"), "there is no option --wrong"),
        (format!("tree show {image} --root 1 --size 512 --order up"), "--order is pair or byte, and not up"),
        (format!("omap drop {image} --root {root} --size 512 --id 1 --transaction 4"), "which blocks are free?"),
        (format!("omap drop {image} --root {root} --size 512 --id 1 --free 40:20"), "--transaction is missing"),
        (format!("omap drop {image} --root {root} --size 512 --id 1 --transaction 4 --free 60:5"), "goes past the image's 64 blocks"),
        (format!("omap drop {image} --root {root} --size 512 --id 1 --transaction 4 --free 1"), "--free takes FIRST:COUNT, not 1"),
        (format!("omap drop {image} --root {root} --size 512 --id 1 --transaction 4 --free 0:64"), "is the tree's own, and is said to be free"),
    ];
    for (line, why) in cases {
        let (code, err) = fails(&line);
        assert!(code == 2 && err.contains(why), "{line}: {code} {err}");
    }
}

#[test]
fn files() {
    let folder = Folder::new("files");
    let (image, root) = folder.image(3);
    assert_eq!(fails(&format!("verify {image}.none --root 1")).0, 3);
    assert_eq!(fails(&format!("verify {image} --root {root} --size 500")).0, 3);
    fs::write(folder.file("odd"), [0; 700]).unwrap();
    let (code, err) = fails(&format!("verify {} --root 1 --size 512", folder.file("odd")));
    assert!(code == 3 && err.contains("700 bytes"));
}

#[test]
fn refused() {
    let folder = Folder::new("refused");
    let (image, root) = folder.image(40);
    let (code, err) = fails(&format!("omap list {image} --root 64 --size 512"));
    assert_eq!((code, err.as_str()), (4, "moachest: refused with 2: an address lies outside the image\n"));
    let (code, err) = fails(&format!("omap put {image} --root {root} --size 512 --id 3 --xid 4 --address 5 --free 60:1 --write"));
    assert_eq!((code, err.as_str()), (4, "moachest: refused with 16: there are fewer usable blocks than nodes to write\n"));
    let (code, err) = fails(&format!("omap list {image} --root {root} --size 512 --slots 2"));
    assert_eq!((code, err.as_str()), (4, "moachest: refused with 11: no slot is free\n"));
}

#[test]
fn list_and_get() {
    let folder = Folder::new("list");
    let (image, root) = folder.image(40);
    let lines = done(&format!("omap list {image} --root {root} --size 512"));
    assert_eq!(lines[0], ["id", "transaction", "address", "size", "flags"]);
    assert_eq!(lines.len(), 41);
    assert_eq!(lines[8], ["7", "3", "107", "512", "0x0"]);
    let got = done(&format!("omap get {image} --root {root} --size 0x200 --id 7"));
    assert_eq!(got[1], lines[8]);
    let (code, err) = fails(&format!("omap get {image} --root {root} --size 512 --id 7 --xid 2"));
    assert_eq!((code, err.as_str()), (1, "moachest: id 7 has no mapping as seen from transaction 2\n"));
}

#[test]
fn an_edit_writes_free_blocks_and_only_if_told() {
    let folder = Folder::new("edit");
    let (image, root) = folder.image(40);
    let before = fs::read(&image).unwrap();
    let line = format!("omap put {image} --root {root} --size 512 --id 7 --xid 9 --address 77 --free 50:10");
    let lines = done(&line);
    assert_eq!(lines[0], ["root", "51", "(was", &format!("{root})")]);
    assert_eq!(lines[1..3], [vec!["entries", "40"], vec!["written", "50", "51"]]);
    assert_eq!(lines[3].len(), 3);
    assert_eq!(lines[4][..2], ["nothing", "is"]);
    assert_eq!(fs::read(&image).unwrap(), before);

    assert_eq!(done(&format!("{line} --write"))[4], ["the", "image", "is", "written"]);
    let after = fs::read(&image).unwrap();
    assert_eq!((&after[..50 * SIZE], &after[52 * SIZE..]), (&before[..50 * SIZE], &before[52 * SIZE..]));
    assert_eq!(done(&format!("omap get {image} --root 51 --size 512 --id 7"))[1], ["7", "9", "77", "512", "0x0"]);
    assert_eq!(done(&format!("omap get {image} --root {root} --size 512 --id 7"))[1], ["7", "3", "107", "512", "0x0"]);
    assert_eq!(done(&format!("verify {image} --root 51 --size 512"))[0][..3], ["tree:", "well", "formed,"]);
}

#[test]
fn a_bitmap_is_written_after_the_image() {
    let folder = Folder::new("bitmap");
    let (image, root) = folder.image(40);
    let bitmap = folder.file("bitmap");
    let before = fs::read(&bitmap).unwrap();
    let line = format!("omap drop {image} --root {root} --size 512 --id 7 --transaction 4 --bitmap {bitmap}");
    done(&line);
    assert_eq!(fs::read(&bitmap).unwrap(), before);
    let lines = done(&format!("{line} --write"));
    let after = fs::read(&bitmap).unwrap();
    let used = |bits: &[u8], block: usize| bits[block / 8] >> (block % 8) & 1 == 1;
    let taken: Vec<String> = (0..64).filter(|&b| !used(&before, b) && used(&after, b)).map(|b| b.to_string()).collect();
    assert_eq!(lines[2][1..], taken[..]);
    assert!((0..64).all(|b| !used(&before, b) || used(&after, b)));
    assert_eq!(done(&format!("omap list {image} --root {} --size 512", lines[0][1])).len(), 40);
}

#[test]
fn a_container_has_its_block_size() {
    let folder = Folder::new("container");
    let (image, root) = folder.image(3);
    let mut bytes = fs::read(&image).unwrap();
    bytes[32..36].copy_from_slice(b"NXSB");
    bytes[36..40].copy_from_slice(&512u32.to_le_bytes());
    fs::write(&image, bytes).unwrap();
    assert_eq!(done(&format!("omap list {image} --root {root}")).len(), 4);
    let (code, err) = fails(&format!("omap drop {image} --root {root} --id 1 --transaction 4 --free 0:1 --free 9:9"));
    assert!(code == 2 && err.contains("block 0 is the container superblock"));
}

#[test]
fn a_picture() {
    let folder = Folder::new("picture");
    let (image, root) = folder.image(40);
    let (code, out, _) = moachest(&format!("tree show {image} --root {root} --size 512 --keys"));
    let lines: Vec<&str> = out.lines().collect();
    assert_eq!(code, 0);
    assert_eq!(lines[0], format!("physical tree, pair order, keys of 16, values of 16: 40 entries in {} nodes", lines.len() - 1));
    assert!(lines[1].starts_with(&format!("level 1 block {root} ")) && lines[1].contains("% "));
    assert!(lines[2].starts_with("├─ leaf block ") && lines[2].contains("█") && lines[2].ends_with(", from 0@3"));
    assert!(lines.last().unwrap().starts_with("└─ leaf block "));
    let entries = |line: &&str| line.split(" entries").next().unwrap().rsplit(' ').next().unwrap().parse::<u64>().unwrap();
    assert_eq!(lines[2..].iter().map(entries).sum::<u64>(), 40);
    assert_eq!(done(&format!("tree show {image} --root {root} --size 512 --depth 1")).len(), 2);
}

#[test]
fn damage_is_found() {
    let folder = Folder::new("damage");
    let (image, root) = folder.image(40);
    let sound = fs::read(&image).unwrap();
    let verify = format!("verify {image} --root {root} --size 512");
    assert_eq!(done(&verify)[0][..5], ["tree:", "well", "formed,", "40", "entries"]);
    for block in 1..root {
        let mut bytes = sound.clone();
        bytes[block as usize * SIZE + 300] ^= 4;
        fs::write(&image, bytes).unwrap();
        let (code, err) = fails(&verify);
        assert_eq!((code, err.as_str()), (1, "moachest: not well formed: refused with 3: a block's Fletcher sum is wrong\n"));
    }
    // A count that is not so, under a seal that is.
    let mut bytes = sound;
    let start = root as usize * SIZE;
    bytes[start + SIZE - 16] += 1;
    moachest::seal(&mut bytes[start..start + SIZE]);
    fs::write(&image, bytes).unwrap();
    let (code, err) = fails(&verify);
    assert!(code == 1 && err.contains("the root counts 41 entries"), "{err}");
}

/// A virtual tree: its object map is at another block, and is verified too.
#[test]
fn virtual_trees() {
    let folder = Folder::new("virtual");
    let mut image = vec![0; 64 * SIZE];
    let mut space = Space::new(64, SIZE);
    space.mark(0, 2);
    Empty { id: 1000, is_virtual: true, ..Empty::omap(0) }.pack(&mut image[..SIZE]);
    Empty::omap(1).pack(&mut image[SIZE..2 * SIZE]);
    let mut map = Tree::open(&Reader::physical(&image, SIZE), 1, Order::Pair).unwrap();
    map.omap_put(&Reader::physical(&image, SIZE), 1000, 1, 0, 512).unwrap();
    let map = map.flush(&mut image, &mut space, 1, &mut 0).unwrap().root;
    let rd = Reader::mapped(&image, SIZE, map, 1);
    let mut tree = Tree::open(&rd, 1000, Order::Pair).unwrap();
    for id in 0..40 {
        tree.upsert(&rd, moachest::omap_key(id, 1), Some(&[0; 16])).unwrap();
    }
    let done_tree = tree.flush(&mut image, &mut space, 2, &mut 1001).unwrap();
    let mut after = Tree::open(&Reader::physical(&image, SIZE), map, Order::Pair).unwrap();
    for (id, address) in &done_tree.moved {
        after.omap_put(&Reader::physical(&image, SIZE), *id, 2, *address, 512).unwrap();
    }
    let map = after.flush(&mut image, &mut space, 2, &mut 0).unwrap().root;
    let file = folder.file("image");
    fs::write(&file, image).unwrap();
    let lines = done(&format!("verify {file} --root 1000 --map {map} --xid 2 --size 512"));
    assert_eq!((lines[0][..2].join(" "), lines[1][3].as_str()), ("object map:".to_string(), "40"));
    let (code, out, _) = moachest(&format!("tree show {file} --root 1000 --map {map} --size 512"));
    assert!(code == 0 && out.starts_with("virtual tree") && out.contains("id 1000 at block "), "{out}");
    assert_eq!(out.lines().count() as u64, 1 + done_tree.allocated);
}
