//! The Fletcher sum of a block, for set-up lines and walks.

const MOD: u64 = 0xffff_ffff;

pub fn compute(block: &[u8]) -> u64 {
    let (mut s1, mut s2) = (0u64, 0u64);
    for words in block[8..].chunks(4096) {
        for w in words.chunks_exact(4) {
            s1 += u32::from_le_bytes([w[0], w[1], w[2], w[3]]) as u64;
            s2 += s1;
        }
        (s1, s2) = (s1 % MOD, s2 % MOD);
    }
    let c1 = MOD - (s1 + s2) % MOD;
    let c2 = MOD - (s1 + c1) % MOD;
    c2 << 32 | c1
}

pub fn verify(block: &[u8]) -> bool {
    block[..8] == compute(block).to_le_bytes()
}

pub fn seal(block: &mut [u8]) {
    let sum = compute(block);
    block[..8].copy_from_slice(&sum.to_le_bytes());
}
