// The yardstick of bench/field: the same work in plain Rust, in the same way (products by one table of powers and one of
// logarithms, replies by steps that are the same for all bytes). Words as those of crates/bench_field;
// it prints the same sum.
use std::env;

struct Field {
    powers: [u8; 1023],
    logarithms: [u16; 256],
}

/// The powers of 3 up to 510, and zeros behind them; the power that each byte is, and 511 for 0.
const fn field() -> Field {
    let mut powers = [0; 1023];
    let mut logarithms = [511; 256];
    let mut power = 1u8;
    let mut k = 0;
    while k < 255 {
        powers[k] = power;
        powers[k + 255] = power;
        logarithms[power as usize] = k as u16;
        let twice = (power << 1) ^ if power >= 128 { 0x1b } else { 0 };
        power ^= twice;
        k += 1;
    }
    powers[510] = 1;
    Field { powers, logarithms }
}

static FIELD: Field = field();

#[inline]
fn gf_mul(a: u8, b: u8) -> u8 {
    FIELD.powers[FIELD.logarithms[a as usize] as usize + FIELD.logarithms[b as usize] as usize]
}

#[inline]
fn gf_inv(a: u8) -> u8 {
    FIELD.powers[255 - FIELD.logarithms[a as usize] as usize]
}

#[inline]
fn twice(a: u8) -> u8 {
    (a % 128 * 2) ^ (a / 128 * 0x1b)
}

/// The product by steps that are the same for all bytes.
#[inline]
fn mul_by_steps(a: u8, b: u8) -> u8 {
    let (mut sum, mut term, mut rest) = (0, a, b);
    for _ in 0..8 {
        sum ^= term & (rest % 2 * 255);
        term = twice(term);
        rest /= 2;
    }
    sum
}

/// A weight for each place.
struct Weights {
    weights: Vec<u8>,
}

impl Weights {
    fn of(places: &[u8]) -> Weights {
        let mut weights = Vec::new();
        for &x in places {
            let mut weight = 1;
            for &y in places {
                if y != x {
                    weight = gf_mul(weight, gf_mul(y, gf_inv(y ^ x)));
                }
            }
            weights.push(weight);
        }
        Weights { weights }
    }

    fn combine_into(&self, shares: &[&[u8]], out: &mut [u8]) {
        out.fill(0);
        for (&weight, share) in self.weights.iter().zip(shares) {
            for (byte, &value) in out.iter_mut().zip(*share) {
                *byte ^= mul_by_steps(weight, value);
            }
        }
    }
}

fn eval(coefficients: &[u8], at: u8) -> u8 {
    coefficients.iter().rev().fold(0, |value, &c| c ^ gf_mul(at, value))
}

fn split(coefficients: &[u8], shares: &mut [u8]) {
    for (k, share) in shares.iter_mut().enumerate() {
        *share = eval(coefficients, k as u8 + 1);
    }
}

fn sum_of(bytes: &[u8]) -> u8 {
    bytes.iter().fold(0, |sum, byte| sum ^ byte)
}

#[inline(never)]
fn multiply(count: u32) -> u8 {
    let mut sum = 0u8;
    for k in 0..count {
        let other = k as u8;
        for a in 0..=255u8 {
            for b in 0..=255u8 {
                sum ^= gf_mul(a, b ^ other);
            }
            sum = sum.rotate_left(1);
        }
    }
    sum
}

fn share_of(byte: u8) -> Vec<u8> {
    (0..8192).map(|k| byte ^ k as u8).collect()
}

#[inline(never)]
fn combine_once(weights: &Weights, shares: &[&[u8]], out: &mut [u8]) {
    weights.combine_into(shares, out)
}

fn combine(places: &[u8], count: u32) -> u8 {
    let weights = Weights::of(places);
    let mut all: Vec<Vec<u8>> = (0..places.len()).map(|k| share_of(7 + 2 * k as u8)).collect();
    let mut out = vec![0; 8192];
    let mut sum = 0;
    for _ in 0..count {
        all[0][0] = sum;
        let shares: Vec<&[u8]> = all.iter().map(|share| share.as_slice()).collect();
        combine_once(&weights, &shares, &mut out);
        sum ^= out[0] ^ out[8191];
    }
    sum ^ sum_of(&out)
}

#[inline(never)]
fn split_once(coefficients: &[u8], shares: &mut [u8]) {
    split(coefficients, shares)
}

fn split_many(count: u32) -> u8 {
    let mut shares = [0; 7];
    let mut sum = 0;
    for k in 0..count {
        split_once(&[k as u8, sum, 7, 9], &mut shares);
        sum ^= sum_of(&shares);
    }
    sum
}

fn main() {
    let words: Vec<String> = env::args().skip(1).collect();
    let count = words[1].parse().unwrap();
    let sum = match words[0].as_str() {
        "multiply" => multiply(count),
        "combine2" => combine(&[1, 2], count),
        "combine4" => combine(&[1, 2, 3, 4], count),
        "split" => split_many(count),
        _ => panic!("a word that is none"),
    };
    println!("{sum}");
}
