// Times the proved SHA-256 against a plain scalar one in Rust: one run, the same bytes, the two in turns, the best of each.
// First both must agree on many lengths.
use std::hint::black_box;
use std::time::{Duration, Instant};

#[repr(C)]
pub struct Digest {
    bytes: [u8; 32],
}

extern "C" {
    fn moatbetony_sha256(message: *const u8, length: usize) -> Digest;
}

// The proved function: its slice is a pointer and a length.
fn ours(message: &[u8]) -> [u8; 32] {
    unsafe { moatbetony_sha256(message.as_ptr(), message.len()) }.bytes
}

const K: [u32; 64] = [
    0x428a2f98, 0x71374491, 0xb5c0fbcf, 0xe9b5dba5, 0x3956c25b, 0x59f111f1, 0x923f82a4, 0xab1c5ed5,
    0xd807aa98, 0x12835b01, 0x243185be, 0x550c7dc3, 0x72be5d74, 0x80deb1fe, 0x9bdc06a7, 0xc19bf174,
    0xe49b69c1, 0xefbe4786, 0x0fc19dc6, 0x240ca1cc, 0x2de92c6f, 0x4a7484aa, 0x5cb0a9dc, 0x76f988da,
    0x983e5152, 0xa831c66d, 0xb00327c8, 0xbf597fc7, 0xc6e00bf3, 0xd5a79147, 0x06ca6351, 0x14292967,
    0x27b70a85, 0x2e1b2138, 0x4d2c6dfc, 0x53380d13, 0x650a7354, 0x766a0abb, 0x81c2c92e, 0x92722c85,
    0xa2bfe8a1, 0xa81a664b, 0xc24b8b70, 0xc76c51a3, 0xd192e819, 0xd6990624, 0xf40e3585, 0x106aa070,
    0x19a4c116, 0x1e376c08, 0x2748774c, 0x34b0bcb5, 0x391c0cb3, 0x4ed8aa4a, 0x5b9cca4f, 0x682e6ff3,
    0x748f82ee, 0x78a5636f, 0x84c87814, 0x8cc70208, 0x90befffa, 0xa4506ceb, 0xbef9a3f7, 0xc67178f2,
];

fn compress(state: &mut [u32; 8], block: &[u8]) {
    let mut w = [0u32; 64];
    for (word, bytes) in w.iter_mut().zip(block.chunks_exact(4)) {
        *word = u32::from_be_bytes([bytes[0], bytes[1], bytes[2], bytes[3]]);
    }
    for t in 16..64 {
        let s0 = w[t - 15].rotate_right(7) ^ w[t - 15].rotate_right(18) ^ (w[t - 15] >> 3);
        let s1 = w[t - 2].rotate_right(17) ^ w[t - 2].rotate_right(19) ^ (w[t - 2] >> 10);
        w[t] = s1.wrapping_add(w[t - 7]).wrapping_add(s0).wrapping_add(w[t - 16]);
    }
    let [mut a, mut b, mut c, mut d, mut e, mut f, mut g, mut h] = *state;
    for t in 0..64 {
        let s1 = e.rotate_right(6) ^ e.rotate_right(11) ^ e.rotate_right(25);
        let ch = (e & f) ^ (!e & g);
        let t1 = h.wrapping_add(s1).wrapping_add(ch).wrapping_add(K[t]).wrapping_add(w[t]);
        let s0 = a.rotate_right(2) ^ a.rotate_right(13) ^ a.rotate_right(22);
        let maj = (a & b) ^ (a & c) ^ (b & c);
        let t2 = s0.wrapping_add(maj);
        h = g;
        g = f;
        f = e;
        e = d.wrapping_add(t1);
        d = c;
        c = b;
        b = a;
        a = t1.wrapping_add(t2);
    }
    for (sum, value) in state.iter_mut().zip([a, b, c, d, e, f, g, h]) {
        *sum = sum.wrapping_add(value);
    }
}

fn scalar(message: &[u8]) -> [u8; 32] {
    let mut state = [
        0x6a09e667, 0xbb67ae85, 0x3c6ef372, 0xa54ff53a, 0x510e527f, 0x9b05688c, 0x1f83d9ab, 0x5be0cd19,
    ];
    let blocks = message.chunks_exact(64);
    let rest = blocks.remainder();
    for block in blocks {
        compress(&mut state, block);
    }
    let mut tail = [0u8; 128];
    tail[..rest.len()].copy_from_slice(rest);
    tail[rest.len()] = 0x80;
    let end = if rest.len() < 56 { 64 } else { 128 };
    tail[end - 8..end].copy_from_slice(&(8 * message.len() as u64).to_be_bytes());
    for block in tail[..end].chunks_exact(64) {
        compress(&mut state, block);
    }
    let mut digest = [0u8; 32];
    for (bytes, word) in digest.chunks_exact_mut(4).zip(state) {
        bytes.copy_from_slice(&word.to_be_bytes());
    }
    digest
}

// Bytes that no compiler can foresee, the same in each run.
fn bytes(count: usize) -> Vec<u8> {
    let mut x = 0x9e3779b97f4a7c15u64;
    let next = || {
        x ^= x << 13;
        x ^= x >> 7;
        x ^= x << 17;
        (x >> 32) as u8
    };
    std::iter::repeat_with(next).take(count).collect()
}

fn time(digest: fn(&[u8]) -> [u8; 32], data: &[u8], each: usize, passes: usize) -> Duration {
    let start = Instant::now();
    for _ in 0..passes {
        for message in data.chunks_exact(each) {
            black_box(digest(black_box(message)));
        }
    }
    start.elapsed()
}

// The best times of both over the messages of `each` bytes in `data`.
fn best(data: &[u8], each: usize, passes: usize, turns: usize) -> (f64, f64) {
    let mut least = (Duration::MAX, Duration::MAX);
    for _ in 0..turns {
        least.0 = least.0.min(time(ours, data, each, passes));
        least.1 = least.1.min(time(scalar, data, each, passes));
    }
    (least.0.as_secs_f64(), least.1.as_secs_f64())
}

fn main() {
    let data = bytes(32 << 20);
    for n in (0..2000).chain([4095, 4096, 65535, 65536, 1000003]) {
        assert!(ours(&data[..n]) == scalar(&data[..n]), "the digests of {n} bytes differ");
    }

    let (calls, turns) = (200_000, 9);
    let (a, b) = best(&data[..480 * 20_000], 480, calls / 20_000, turns);
    let ns = 1e9 / calls as f64;
    println!("sha256 480-byte messages: ours {:.0} ns, scalar Rust {:.0} ns, ratio {:.3}", a * ns, b * ns, a / b);

    let (a, b) = best(&data, data.len(), 1, turns);
    let mb = data.len() as f64 / 1e6;
    println!("sha256 32 MB message: ours {:.0} MB/s, scalar Rust {:.0} MB/s, ratio {:.3}", mb / a, mb / b, a / b);
}
