// Sums the same blocks with the Rust's checksum.rs and with the proved code, in turns, and prints bytes a second and their ratio.
use crate::{checksum, write};
use std::hint::black_box;
use std::time::Instant;

// A slice as the archive takes it: a pointer and a length.
extern "C" {
    fn rattle_compute(object: *const u8, len: usize) -> u64;
    fn rattle_verify(object: *const u8, len: usize) -> bool;
    fn rattle_seal(object: *mut u8, len: usize);
}

fn ours_compute(b: &mut [u8]) -> u64 {
    unsafe { rattle_compute(b.as_ptr(), b.len()) }
}

fn ours_verify(b: &mut [u8]) -> u64 {
    unsafe { rattle_verify(b.as_ptr(), b.len()) as u64 }
}

fn ours_seal(b: &mut [u8]) -> u64 {
    unsafe { rattle_seal(b.as_mut_ptr(), b.len()) }
    b[0] as u64
}

#[inline(never)]
fn theirs_compute(b: &mut [u8]) -> u64 {
    checksum::compute(b)
}

#[inline(never)]
fn theirs_verify(b: &mut [u8]) -> u64 {
    checksum::verify(b) as u64
}

#[inline(never)]
fn theirs_seal(b: &mut [u8]) -> u64 {
    write::seal(b);
    b[0] as u64
}

// Blocks of `size` bytes, 4 MiB in all: bytes of a linear congruential generator, but the first all zeros and the second all ones.
fn blocks(size: usize) -> Vec<u8> {
    let mut x: u64 = 0x2545_f491_4f6c_dd1d;
    let mut v: Vec<u8> = (0..4 << 20)
        .map(|_| {
            x = x.wrapping_mul(6364136223846793005).wrapping_add(1442695040888963407);
            (x >> 56) as u8
        })
        .collect();
    v[..size].fill(0);
    v[size..2 * size].fill(0xff);
    v
}

// Seconds for one pass over all blocks.
fn pass(f: fn(&mut [u8]) -> u64, v: &mut [u8], size: usize) -> f64 {
    let t = Instant::now();
    for b in v.chunks_exact_mut(size) {
        black_box(f(black_box(b)));
    }
    t.elapsed().as_secs_f64()
}

// The best of 60 passes each, theirs and ours by turns.
fn compare(name: &str, theirs: fn(&mut [u8]) -> u64, ours: fn(&mut [u8]) -> u64, v: &mut [u8], size: usize) {
    let (mut a, mut b) = (f64::MAX, f64::MAX);
    for _ in 0..60 {
        a = a.min(pass(theirs, v, size));
        b = b.min(pass(ours, v, size));
    }
    let n = v.len() as f64;
    println!("{name:8} {size:6} bytes: Rust {:6.2} GB/s, Rattle {:6.2} GB/s, ratio {:.2}", n / a / 1e9, n / b / 1e9, a / b);
}

pub fn run() {
    for size in [512, 4096, 65536] {
        let mut v = blocks(size);
        for b in v.chunks_exact_mut(size) {
            assert_eq!(theirs_compute(b), ours_compute(b), "sums differ");
            assert_eq!(theirs_verify(b), ours_verify(b), "verdicts differ on a block that is not sealed");
            let mut mine = b.to_vec();
            theirs_seal(b);
            ours_seal(&mut mine);
            assert!(b == &mine[..], "seals differ");
            assert_eq!((theirs_verify(b), ours_verify(b)), (1, 1), "a sealed block is refused");
        }
        for n in 0..10_000 {
            let b = &mut v[size..size + n];
            assert_eq!(theirs_verify(b), ours_verify(b), "verdicts differ on {n} bytes");
            assert!(n < 8 || theirs_compute(b) == ours_compute(b), "sums differ on {n} bytes");
        }
        compare("compute", theirs_compute, ours_compute, &mut v, size);
        compare("verify", theirs_verify, ours_verify, &mut v, size);
        compare("seal", theirs_seal, ours_seal, &mut v, size);
    }
}
