//! The time of a `check` through the library by the size of the text, and of opening the text: by a search, and by its derivations.
//!
//!     cargo run --release --example checks
use rumpsteak::{certify, check, Session};
use std::time::Instant;

const TRIES: usize = 11;

/// A loop of this number of talks between two roles, in which `B` sends ahead of each of its receives but the first.
fn loop_of(talks: usize) -> String {
    let label = |number: usize| format!("m{}()", number % 64);
    let talk = |number: usize| format!("{}:{}. ", if number % 2 == 0 { "A->B" } else { "B->A" }, label(number));
    let act = |number: usize| format!("A!{}. A?{}. ", label(number + 1), label(number));
    let talks_of: String = (0..talks).map(talk).collect();
    let acts: String = (0..talks).step_by(2).map(act).collect();
    format!("roles A, B\nprotocol rec X. {talks_of}X\nmachine B: rec X. {acts}X\n")
}

/// Microseconds of the fastest try.
fn best(mut work: impl FnMut()) -> f64 {
    let mut least = f64::MAX;
    for _ in 0..TRIES {
        let begun = Instant::now();
        work();
        least = least.min(begun.elapsed().as_secs_f64() * 1e6);
    }
    least
}

fn main() {
    println!("| talks | bytes | `check` | opened by a search | bytes with derivations | opened by them |\n|---|---|---|---|---|---|");
    for talks in [2, 16, 64, 256] {
        let text = loop_of(talks);
        let certified = certify(&text).expect("the loop is accepted");
        let checked = best(|| drop(check(&text).unwrap()));
        let searched = best(|| drop(Session::open(&text).unwrap()));
        let tested = best(|| drop(Session::open(&certified).unwrap()));
        println!("| {talks} | {} | {checked:.0} µs | {searched:.0} µs | {} | {tested:.0} µs |", text.len(), certified.len());
    }
}
