// The plain yardstick of bench/deal: the textbook forms of SHA-256 (FIPS 180-4) and ChaCha20 (RFC 8439), and the same work as
// `deal public` does, with the same answer. Built by: rustc -O bench/deal.rs
use std::env;
use std::io::{self, Write};
use std::process::exit;

const K: [u32; 64] = [
    0x428a2f98, 0x71374491, 0xb5c0fbcf, 0xe9b5dba5, 0x3956c25b, 0x59f111f1, 0x923f82a4, 0xab1c5ed5,
    0xd807aa98, 0x12835b01, 0x243185be, 0x550c7dc3, 0x72be5d74, 0x80deb1fe, 0x9bdc06a7, 0xc19bf174,
    0xe49b69c1, 0xefbe4786, 0x0fc19dc6, 0x240ca1cc, 0x2de92c6f, 0x4a7484aa, 0x5cb0a9dc, 0x76f988da,
    0x983e5152, 0xa831c66d, 0xb00327c8, 0xbf597fc7, 0xc6e00bf3, 0xd5a79147, 0x06ca6351, 0x14292967,
    0x27b70a85, 0x2e1b2138, 0x4d2c6dfc, 0x53380d13, 0x650a7354, 0x766a0abb, 0x81c2c92e, 0x92722c85,
    0xa2bfe8a1, 0xa81a664b, 0xc24b8b70, 0xc76c51a3, 0xd192e819, 0xd6990624, 0xf40e3585, 0x106aa070,
    0x19a4c116, 0x1e376c08, 0x2748774c, 0x34b0bcb5, 0x391c0cb3, 0x4ed8aa4a, 0x5b9cca4f, 0x682e6ff3,
    0x748f82ee, 0x78a5636f, 0x84c87814, 0x8cc70208, 0x90befffa, 0xa4506ceb, 0xbef9a3f7, 0xc67178f2,
];

struct Sha256 {
    state: [u32; 8],
    block: [u8; 64],
    filled: usize,
    len: u64,
}

impl Sha256 {
    fn new() -> Self {
        Sha256 {
            state: [
                0x6a09e667, 0xbb67ae85, 0x3c6ef372, 0xa54ff53a, 0x510e527f, 0x9b05688c, 0x1f83d9ab, 0x5be0cd19,
            ],
            block: [0; 64],
            filled: 0,
            len: 0,
        }
    }

    fn compress(state: &mut [u32; 8], block: &[u8]) {
        let mut w = [0u32; 64];
        for (t, word) in block.chunks_exact(4).enumerate() {
            w[t] = u32::from_be_bytes([word[0], word[1], word[2], word[3]]);
        }
        for t in 16..64 {
            let s0 = w[t - 15].rotate_right(7) ^ w[t - 15].rotate_right(18) ^ (w[t - 15] >> 3);
            let s1 = w[t - 2].rotate_right(17) ^ w[t - 2].rotate_right(19) ^ (w[t - 2] >> 10);
            w[t] = w[t - 16].wrapping_add(s0).wrapping_add(w[t - 7]).wrapping_add(s1);
        }
        let [mut a, mut b, mut c, mut d, mut e, mut f, mut g, mut h] = *state;
        for t in 0..64 {
            let s1 = e.rotate_right(6) ^ e.rotate_right(11) ^ e.rotate_right(25);
            let ch = (e & f) ^ (!e & g);
            let t1 = h.wrapping_add(s1).wrapping_add(ch).wrapping_add(K[t]).wrapping_add(w[t]);
            let s0 = a.rotate_right(2) ^ a.rotate_right(13) ^ a.rotate_right(22);
            let maj = (a & b) ^ (a & c) ^ (b & c);
            let t2 = s0.wrapping_add(maj);
            h = g;
            g = f;
            f = e;
            e = d.wrapping_add(t1);
            d = c;
            c = b;
            b = a;
            a = t1.wrapping_add(t2);
        }
        for (to, from) in state.iter_mut().zip([a, b, c, d, e, f, g, h]) {
            *to = to.wrapping_add(from);
        }
    }

    fn update(&mut self, mut data: &[u8]) {
        self.len += data.len() as u64;
        if self.filled > 0 {
            let n = data.len().min(64 - self.filled);
            self.block[self.filled..self.filled + n].copy_from_slice(&data[..n]);
            self.filled += n;
            data = &data[n..];
            if self.filled < 64 {
                return;
            }
            Self::compress(&mut self.state, &self.block);
            self.filled = 0;
        }
        let blocks = data.chunks_exact(64);
        let rest = blocks.remainder();
        for block in blocks {
            Self::compress(&mut self.state, block);
        }
        self.block[..rest.len()].copy_from_slice(rest);
        self.filled = rest.len();
    }

    fn finalize(mut self) -> [u8; 32] {
        let bits = self.len * 8;
        self.block[self.filled] = 0x80;
        self.block[self.filled + 1..].fill(0);
        if self.filled >= 56 {
            Self::compress(&mut self.state, &self.block);
            self.block.fill(0);
        }
        self.block[56..].copy_from_slice(&bits.to_be_bytes());
        Self::compress(&mut self.state, &self.block);
        let mut out = [0; 32];
        for (to, from) in out.chunks_exact_mut(4).zip(self.state) {
            to.copy_from_slice(&from.to_be_bytes());
        }
        out
    }
}

fn digest(tag: u8, head: &[u8], tail: &[u8]) -> [u8; 32] {
    let mut hasher = Sha256::new();
    hasher.update(&[tag]);
    hasher.update(head);
    hasher.update(tail);
    hasher.finalize()
}

fn quarter_round(x: &mut [u32; 16], a: usize, b: usize, c: usize, d: usize) {
    x[a] = x[a].wrapping_add(x[b]);
    x[d] = (x[d] ^ x[a]).rotate_left(16);
    x[c] = x[c].wrapping_add(x[d]);
    x[b] = (x[b] ^ x[c]).rotate_left(12);
    x[a] = x[a].wrapping_add(x[b]);
    x[d] = (x[d] ^ x[a]).rotate_left(8);
    x[c] = x[c].wrapping_add(x[d]);
    x[b] = (x[b] ^ x[c]).rotate_left(7);
}

/// A block, with a counter and a stream of 64 bits each.
fn chacha_block(key: &[u8; 32], counter: u64, stream: u64) -> [u8; 64] {
    let mut x = [0x61707865, 0x3320646e, 0x79622d32, 0x6b206574, 0, 0, 0, 0, 0, 0, 0, 0, 0, 0, 0, 0];
    for (k, word) in key.chunks_exact(4).enumerate() {
        x[4 + k] = u32::from_le_bytes([word[0], word[1], word[2], word[3]]);
    }
    x[12] = counter as u32;
    x[13] = (counter >> 32) as u32;
    x[14] = stream as u32;
    x[15] = (stream >> 32) as u32;
    let start = x;
    for _ in 0..10 {
        quarter_round(&mut x, 0, 4, 8, 12);
        quarter_round(&mut x, 1, 5, 9, 13);
        quarter_round(&mut x, 2, 6, 10, 14);
        quarter_round(&mut x, 3, 7, 11, 15);
        quarter_round(&mut x, 0, 5, 10, 15);
        quarter_round(&mut x, 1, 6, 11, 12);
        quarter_round(&mut x, 2, 7, 8, 13);
        quarter_round(&mut x, 3, 4, 9, 14);
    }
    let mut out = [0; 64];
    for (k, to) in out.chunks_exact_mut(4).enumerate() {
        to.copy_from_slice(&x[k].wrapping_add(start[k]).to_le_bytes());
    }
    out
}

/// Words of a stream from a place on, which is the first of a block.
fn fill(seed: &[u8; 32], stream: u64, place: u64, out: &mut [u8]) {
    for (counter, part) in out.chunks_mut(64).enumerate() {
        let block = chacha_block(seed, place / 16 + counter as u64, stream);
        part.copy_from_slice(&block[..part.len()]);
    }
}

struct Params {
    f: u32,
    g: u32,
    h: u32,
    numbers: u32,
    views: u32,
    clients: u32,
    stamps: u32,
    pipe: u32,
}

impl Params {
    fn agreements(&self) -> u32 {
        3 * self.f + 1
    }

    fn points(&self) -> u32 {
        2 * self.g + 2
    }
}

/// A slot: its kind, and the three numbers that name it.
type Slot = [u32; 4];

/// All slots but those of replies, in order.
fn slots(p: &Params) -> Vec<Slot> {
    let mut slots = Vec::new();
    for kind in [1, 2] {
        for view in 0..p.views {
            for number in 1..=p.numbers {
                for agree in 0..p.agreements() {
                    slots.push([kind, view, number, agree]);
                }
            }
        }
    }
    for kind in [3, 4] {
        for view in 0..p.views {
            for agree in 0..p.agreements() {
                slots.push([kind, view, agree, 0]);
            }
        }
    }
    for client in 0..p.clients {
        for stamp in 1..=p.stamps {
            slots.push([5, client, stamp, 0]);
        }
    }
    slots
}

/// The digest of a value with its place.
fn value_digest(slot: &Slot, k: u32, point: u32, value: &[u8]) -> [u8; 32] {
    let mut place = [0; 25];
    place[0] = slot[0] as u8;
    for (to, number) in place[1..].chunks_exact_mut(4).zip([slot[1], slot[2], slot[3], k / 2, k % 2, point]) {
        to.copy_from_slice(&number.to_be_bytes());
    }
    digest(1, &place, value)
}

/// The field of FIPS 197: the powers of 3, and the logarithms.
struct Field {
    powers: [u8; 512],
    logarithms: [u8; 256],
}

impl Field {
    fn new() -> Self {
        let mut field = Field {
            powers: [0; 512],
            logarithms: [0; 256],
        };
        let mut power = 1u8;
        for k in 0..255 {
            field.powers[k] = power;
            field.powers[k + 255] = power;
            field.logarithms[power as usize] = k as u8;
            power ^= (power << 1) ^ (if power & 0x80 != 0 { 0x1b } else { 0 });
        }
        field
    }

    fn mul(&self, a: u8, b: u8) -> u8 {
        if a == 0 || b == 0 {
            return 0;
        }
        self.powers[self.logarithms[a as usize] as usize + self.logarithms[b as usize] as usize]
    }
}

/// The digests of the values of a reply at all points.
fn replies(p: &Params, seed: &[u8; 32], field: &Field, number: u32, file: &mut Vec<u8>) {
    let mut coefficients = vec![0; 512 * 128];
    fill(seed, 2, u64::from(number - 1) * 512 * 32, &mut coefficients);
    for point in 0..p.points() {
        for (k, piece) in coefficients.chunks_exact(128).enumerate() {
            let mut value = [0; 32];
            for (j, to) in value.iter_mut().enumerate() {
                for c in (0..=p.g as usize).rev() {
                    *to = piece[32 * c + j] ^ field.mul(point as u8, *to);
                }
            }
            file.extend_from_slice(&value_digest(&[6, number, 0, 0], k as u32, point, &value));
        }
    }
}

/// The public file of a deal.
fn public_file(p: &Params, seed: &[u8; 32]) -> Vec<u8> {
    let mut file = b"fwh1".to_vec();
    for number in [p.f, p.g, p.h, p.numbers, p.views, p.clients, p.stamps, p.pipe, u32::MAX] {
        file.extend_from_slice(&number.to_be_bytes());
    }
    let mut values = [0; 16384];
    for (index, slot) in slots(p).iter().enumerate() {
        fill(seed, 1, index as u64 * 4096, &mut values);
        for (k, value) in values.chunks_exact(32).enumerate() {
            file.extend_from_slice(&value_digest(slot, k as u32, 0, value));
        }
    }
    let field = Field::new();
    for number in 1..=p.numbers {
        replies(p, seed, &field, number, &mut file);
    }
    file
}

fn main() {
    let words: Vec<String> = env::args().skip(1).collect();
    let numbers: Vec<u32> = words.iter().filter_map(|word| word.parse().ok()).collect();
    let &[f, g, h, numbers, views, clients, stamps, pipe] = numbers.as_slice() else {
        exit(1);
    };
    let params = Params {
        f,
        g,
        h,
        numbers,
        views,
        clients,
        stamps,
        pipe,
    };
    let file = public_file(&params, &std::array::from_fn(|k| k as u8));
    if io::stdout().write_all(&file).is_err() {
        exit(3);
    }
}
