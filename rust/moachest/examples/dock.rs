//! The program `dock` (docs/RULES.md#dock) over the crate: reads (new), (put ID XID ADDRESS) and (flush XID) from standard input.

use std::io;

use moachest::{Empty, Order, Reader, Refusal, Space, Tree};

const BLOCKS: usize = 32;
const SIZE: usize = 512;

struct Dock {
    image: Vec<u8>,
    space: Space,
    tree: Tree,
}

impl Dock {
    fn new() -> Result<Dock, Refusal> {
        let mut image = vec![0; BLOCKS * SIZE];
        Empty::omap(0).pack(&mut image[..SIZE]);
        let mut space = Space::new(BLOCKS, SIZE);
        space.mark(0, 1);
        let tree = Tree::open(&Reader::physical(&image, SIZE), 0, Order::Pair)?;
        Ok(Dock { image, space, tree })
    }

    fn put(&mut self, id: u64, xid: u64, address: u64) -> String {
        let rd = Reader::physical(&self.image, SIZE);
        let refusal = self.tree.omap_put(&rd, id, xid, address, SIZE as u32).err();
        format!("(put {} {})", refusal.map_or(0, Refusal::number), self.tree.keys())
    }

    fn flush(mut self, xid: u64) -> (Option<Dock>, String) {
        match self.tree.flush(&mut self.image, &mut self.space, xid, &mut 0) {
            Ok(done) => {
                let line = format!("(flush 0 {} {} {} {} {})", done.root, done.allocated, done.freed, done.keys, done.fill);
                let tree = Tree::open(&Reader::physical(&self.image, SIZE), done.root, Order::Pair).ok();
                (tree.map(|tree| Dock { tree, ..self }), line)
            }
            Err(refused) => (Some(Dock { tree: *refused.tree, ..self }), format!("(flush {})", refused.refusal.number())),
        }
    }
}

/// The words of a line, the first one its name, the others numbers.
fn words(line: &str) -> Option<(&str, Vec<u64>)> {
    let mut words = line.strip_prefix('(')?.strip_suffix(')')?.split(' ');
    let name = words.next()?;
    Some((name, words.map(str::parse).collect::<Result<_, _>>().ok()?))
}

fn main() -> Result<(), Box<dyn std::error::Error>> {
    let mut dock = None;
    for line in io::stdin().lines() {
        let line = line?;
        let answer = match (words(&line).as_ref().map(|(name, numbers)| (*name, &numbers[..])), dock.take()) {
            (Some(("new", [])), _) => {
                dock = Some(Dock::new()?);
                format!("(image {BLOCKS} {SIZE})")
            }
            (Some(("put", &[id, xid, address])), Some(mut open)) => {
                let answer = open.put(id, xid, address);
                dock = Some(open);
                answer
            }
            (Some(("flush", &[xid])), Some(open)) => {
                let (after, answer) = open.flush(xid);
                dock = after;
                answer
            }
            (_, same) => {
                dock = same;
                "(error)".to_string()
            }
        };
        println!("{answer}");
    }
    Ok(())
}
