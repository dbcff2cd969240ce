//! The Fourier transform of a signal by eight threads. Each has a block of the signal, and exchanges blocks with three others, in
//! the pattern of a butterfly; then it transforms its block alone. Each thread sends its block before it receives the other's.
//!
//!     cargo run --release --example butterfly [LENGTH OF A BLOCK]
use rumpsteak::{Endpoint, Session};
use std::error::Error;
use std::f64::consts::TAU;
use std::fmt::Write;
use std::ops::{Add, Mul, Sub};
use std::thread;
use std::time::Instant;

const ROLES: usize = 8;

#[derive(Clone, Copy, Debug, PartialEq)]
struct Complex {
    re: f64,
    im: f64,
}

impl Complex {
    /// The number on the unit circle at this part of a whole turn, backwards.
    fn turn(part: f64) -> Complex {
        let (sine, cosine) = (-TAU * part).sin_cos();
        Complex { re: cosine, im: sine }
    }

    fn size(self) -> f64 {
        self.re.hypot(self.im)
    }
}

impl Add for Complex {
    type Output = Complex;

    fn add(self, other: Complex) -> Complex {
        Complex { re: self.re + other.re, im: self.im + other.im }
    }
}

impl Sub for Complex {
    type Output = Complex;

    fn sub(self, other: Complex) -> Complex {
        Complex { re: self.re - other.re, im: self.im - other.im }
    }
}

impl Mul for Complex {
    type Output = Complex;

    fn mul(self, other: Complex) -> Complex {
        Complex { re: self.re * other.re - self.im * other.im, im: self.re * other.im + self.im * other.re }
    }
}

/// The pairs of roles exchange blocks in three rounds, at distances 4, 2 and 1. In the protocol the lower role sends first; by
/// the machines both do.
fn text() -> String {
    let mut text = "roles R0, R1, R2, R3, R4, R5, R6, R7\nprotocol ".to_owned();
    for distance in [4, 2, 1] {
        for role in (0..ROLES).filter(|role| role & distance == 0) {
            let other = role + distance;
            write!(text, "R{role}->R{other}:block(bytes). R{other}->R{role}:block(bytes). ").unwrap();
        }
    }
    text += "end\n";
    for role in 0..ROLES {
        write!(text, "machine R{role}: ").unwrap();
        for distance in [4, 2, 1] {
            let other = role ^ distance;
            write!(text, "R{other}!block(bytes). R{other}?block(bytes). ").unwrap();
        }
        text += "end\n";
    }
    text
}

fn to_bytes(block: &[Complex]) -> Vec<u8> {
    block.iter().flat_map(|number| [number.re, number.im]).flat_map(f64::to_le_bytes).collect()
}

fn from_bytes(bytes: &[u8]) -> Vec<Complex> {
    let numbers: Vec<f64> = bytes.chunks_exact(8).map(|eight| f64::from_le_bytes(eight.try_into().unwrap())).collect();
    numbers.chunks_exact(2).map(|pair| Complex { re: pair[0], im: pair[1] }).collect()
}

/// The transform of a block whose length is a power of two.
fn transform(block: &[Complex]) -> Vec<Complex> {
    if block.len() == 1 {
        return block.to_vec();
    }
    let half = block.len() / 2;
    let even = transform(&block.iter().copied().step_by(2).collect::<Vec<_>>());
    let odd = transform(&block.iter().copied().skip(1).step_by(2).collect::<Vec<_>>());
    let turned: Vec<Complex> = odd.iter().enumerate().map(|(k, it)| Complex::turn(k as f64 / block.len() as f64) * *it).collect();
    (0..half).map(|k| even[k] + turned[k]).chain((0..half).map(|k| even[k] - turned[k])).collect()
}

/// What one thread does: the three rounds of the butterfly, and the transform of what it then has.
fn play(mut end: Endpoint, role: usize, mut block: Vec<Complex>) -> Result<Vec<Complex>, Box<dyn Error + Send + Sync>> {
    for distance in [4, 2, 1] {
        end.send("block", to_bytes(&block))?;
        let bytes: Vec<u8> = end.receive()?.value.try_into().map_err(|_| "a block has another sort")?;
        let other = from_bytes(&bytes);
        let (length, place) = (block.len(), role % distance);
        if role & distance == 0 {
            block = block.iter().zip(&other).map(|(mine, its)| *mine + *its).collect();
        } else {
            let points = (2 * distance * length) as f64;
            let turn = |k: usize| Complex::turn((place * length + k) as f64 / points);
            block = block.iter().zip(&other).enumerate().map(|(k, (mine, its))| (*its - *mine) * turn(k)).collect();
        }
    }
    Ok(transform(&block))
}

fn main() -> Result<(), Box<dyn Error + Send + Sync>> {
    let length: usize = std::env::args().nth(1).map_or(Ok(4096), |word| word.parse())?;
    if !length.is_power_of_two() {
        return Err("the length of a block is a power of two".into());
    }
    let points = ROLES * length;
    let signal: Vec<Complex> =
        (0..points).map(|k| Complex { re: (k as f64 * 0.37).sin() + (k * k % 101) as f64 / 101.0, im: 0.0 }).collect();

    let mut session = Session::open(&text())?;
    let begun = Instant::now();
    let threads: Vec<_> = signal
        .chunks(length)
        .enumerate()
        .map(|(role, block)| {
            let (end, block) = (session.endpoint(format!("R{role}").as_str())?, block.to_vec());
            Ok::<_, Box<dyn Error + Send + Sync>>(thread::spawn(move || play(end, role, block)))
        })
        .collect::<Result<_, _>>()?;
    let blocks: Vec<Vec<Complex>> = threads.into_iter().map(|thread| thread.join().expect("no thread panics")).collect::<Result<_, _>>()?;
    let took = begun.elapsed();

    // The block of role r has each eighth point of the result, from the number whose three bits are those of r in the other order.
    let first = |role: usize| (role & 1) << 2 | (role & 2) | role >> 2;
    let alone = transform(&signal);
    let worst = (0..ROLES)
        .flat_map(|role| blocks[role].iter().enumerate().map(move |(k, it)| (ROLES * k + first(role), *it)))
        .map(|(point, it)| (it - alone[point]).size())
        .fold(0.0, f64::max);
    if worst > 1e-6 {
        return Err(format!("the transform by eight threads is wrong by {worst}").into());
    }
    eprintln!("{took:?}");
    println!("eight threads transformed {points} points as one does");
    Ok(())
}
