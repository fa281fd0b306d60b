// The calls of the library beside the Rust's own editor, on open trees of the same entries: both are asked the same, in turns, and the median
// pass of each counts. Ratios are Rattle to Rust: above 1 the proved code is the faster.
mod ours;
mod through;
mod tree;

use ours::Ours;
use std::hint::black_box;
use std::time::Duration;
use tree::{Kind, Theirs, Trees};

pub type Key = Vec<u8>;

pub const PASSES: usize = 60;
const SAMPLE: usize = 512;
const NEW: usize = 32;

// What passes took. Their median counts: a clock that jumps once does not move it.
#[derive(Default)]
pub struct Passes(Vec<Duration>);

impl Passes {
    pub fn push(&mut self, took: Duration) {
        self.0.push(took);
    }

    fn median(&mut self) -> Duration {
        self.0.sort();
        self.0[self.0.len() / 2]
    }
}

// What each of the two took, pass by pass.
pub type Both = (Passes, Passes);

// Each of two passes, many times, in turns.
pub fn turns(passes: usize, mut a: impl FnMut() -> Duration, mut b: impl FnMut() -> Duration) -> Both {
    let mut both = Both::default();
    for _ in 0..passes {
        both.0.push(a());
        both.1.push(b());
    }
    both
}

#[repr(C)]
struct Time {
    seconds: i64,
    nanos: i64,
}

extern "C" {
    fn clock_gettime(clock: i32, time: *mut Time) -> i32;
}

const THREAD_CPUTIME: i32 = 3;

// The processor's time that this program took so far: what others take beside it does not count.
pub fn clock() -> Duration {
    let mut t = Time { seconds: 0, nanos: 0 };
    assert_eq!(unsafe { clock_gettime(THREAD_CPUTIME, &mut t) }, 0);
    Duration::new(t.seconds as u64, t.nanos as u32)
}

pub fn timed(f: impl FnOnce()) -> Duration {
    let t = clock();
    f();
    clock() - t
}

pub fn say(name: &str, count: usize, (mut theirs, mut ours): Both) {
    let each = |t: Duration| t.as_secs_f64() * 1e6 / count as f64;
    let (theirs, ours) = (theirs.median(), ours.median());
    println!("  {name:22} Rust {:9.3} us, Rattle {:9.3} us, ratio {:6.2}", each(theirs), each(ours), each(theirs) / each(ours));
}

fn lookups(t: &Trees, theirs: &mut Theirs, ours: &mut Ours, checked: bool) {
    let image = &t.disk.image;
    for k in &t.sample {
        assert_eq!(theirs.get(&t.disk, k).as_deref(), ours.get(image, k), "get differs");
        let floor = theirs.floor(&t.disk, k).map(|(k, v)| tree::record(&k, &v));
        assert_eq!(floor.as_deref(), ours.floor(image, k), "floor differs");
    }
    let keys = &t.sample;
    let (a, b) = (&mut *theirs, &mut *ours);
    say("get", SAMPLE, turns(PASSES, || timed(|| keys.iter().for_each(|k| drop(black_box(a.get(&t.disk, k))))), || {
        timed(|| keys.iter().for_each(|k| { black_box(b.get(image, k)); }))
    }));
    say("floor", SAMPLE, turns(PASSES, || timed(|| keys.iter().for_each(|k| drop(black_box(a.floor(&t.disk, k))))), || {
        timed(|| keys.iter().for_each(|k| { black_box(b.floor(image, k)); }))
    }));
    if checked {
        let few = &keys[..16];
        say("get, checked", 16, turns(10, || timed(|| few.iter().for_each(|k| drop(black_box(a.get(&t.disk, k))))), || {
            timed(|| few.iter().for_each(|k| { black_box(b.get_checked(image, k)); }))
        }));
    }
}

fn edits(t: &Trees, theirs: &mut Theirs, ours: &mut Ours, checked: bool) {
    let image = &t.disk.image;
    let (a, b) = (&mut *theirs, &mut *ours);
    let keys = &t.sample;
    let value = t.kind.value(7);
    say("upsert, a key there", SAMPLE, turns(PASSES / 3, || timed(|| keys.iter().for_each(|k| a.upsert(&t.disk, k, &value))), || {
        timed(|| keys.iter().for_each(|k| b.upsert(image, k, &value)))
    }));
    let (mut put, mut gone) = (Both::default(), Both::default());
    for _ in 0..PASSES {
        put.0.push(timed(|| t.new.iter().for_each(|k| a.upsert(&t.disk, k, &value))));
        put.1.push(timed(|| t.new.iter().for_each(|k| b.upsert(image, k, &value))));
        gone.0.push(timed(|| t.new.iter().for_each(|k| a.remove(&t.disk, k))));
        gone.1.push(timed(|| t.new.iter().for_each(|k| b.remove(image, k))));
    }
    say("upsert, a new key", NEW, put);
    say("remove", NEW, gone);
    if t.kind == Kind::Fixed {
        let ids: Vec<u64> = keys.iter().map(|k| u64::from_le_bytes(k[..8].try_into().unwrap())).collect();
        say("omap_put", SAMPLE, turns(PASSES / 3, || timed(|| ids.iter().for_each(|&id| a.put(&t.disk, id, 9, 77))), || {
            timed(|| ids.iter().for_each(|&id| b.put(image, id, 9, 77, 4096)))
        }));
    }
    if checked {
        let few = &keys[..8];
        say("upsert, checked", 8, turns(10, || timed(|| few.iter().for_each(|k| a.upsert(&t.disk, k, &value))), || {
            timed(|| few.iter().for_each(|k| b.upsert_checked(image, k, &value)))
        }));
    }
    assert_eq!(a.counts(), b.counts(), "counts differ");
}

fn flushes(t: &mut Trees, slots: usize, dirty: usize) {
    let value = t.kind.value(9);
    let mut ours = Ours::new(tree::SIZE, slots);
    let (mut took, mut opens) = (Both::default(), Both::default());
    let mut nodes = 0;
    for _ in 0..PASSES / 2 {
        let mut theirs = None;
        opens.0.push(timed(|| theirs = Some(Theirs::open(&t.disk, t.root, t.kind))));
        opens.1.push(timed(|| ours.open(&t.disk.image, t.root, t.kind.order(), 5)));
        let mut theirs = theirs.unwrap();
        for k in t.spread(dirty) {
            theirs.upsert(&t.disk, &k, &value);
            ours.upsert(&t.disk.image, &k, &value);
        }
        let (time, writes, freed) = theirs.flush(&t.disk);
        took.0.push(time);
        let mut space = tree::space(&t.disk);
        let mut done = (0, 0, 0);
        let image = &mut t.disk.image;
        took.1.push(timed(|| done = ours.flush(image, &mut space, 6)));
        assert_eq!((done.1, done.2), (writes.len() as u64, freed), "flush differs");
        for (at, block) in &writes {
            assert!(&image[*at as usize * tree::SIZE..][..tree::SIZE] == block, "a written block differs");
        }
        nodes = writes.len();
    }
    say("open", 1, opens);
    say(&format!("flush of {nodes}"), nodes, took);
}

fn main() {
    let most: usize = std::env::args().nth(1).and_then(|s| s.parse().ok()).unwrap_or(4000);
    for kind in [Kind::Fixed, Kind::Variable] {
        for nodes in [10, 100, 1000, 4000].into_iter().filter(|&n| n <= most) {
            let mut t = Trees::new(kind, nodes as u64, SAMPLE, NEW);
            let slots = (nodes + nodes / 4 + 40).min(4096);
            let mut theirs = Theirs::open(&t.disk, t.root, kind);
            let mut ours = Ours::new(tree::SIZE, slots);
            ours.open(&t.disk.image, t.root, kind.order(), 5);
            let entries = ours.load(&t.disk.image, &kind.least(), &kind.greatest(), 400 * t.entries);
            assert_eq!(entries as usize, theirs.load(&t.disk, kind), "range differs");
            println!("{} lengths, {} open nodes, {entries} entries", kind.name(), ours.used());
            lookups(&t, &mut theirs, &mut ours, nodes <= 1000);
            edits(&t, &mut theirs, &mut ours, nodes <= 1000);
            drop((theirs, ours));
            through::run(&t, slots);
            flushes(&mut t, slots, 100.min(nodes * 3 / 4));
            through::flushes(&mut t, 100.min(nodes * 3 / 4));
        }
    }
}
