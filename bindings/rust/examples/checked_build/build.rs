//! Checks the protocol of this program. If it is refused, the build stops, and cargo prints why. Otherwise the program gets the
//! protocol with the derivations that were found, so that it has nothing to search when it starts.
use std::{env, fs, process};

fn main() {
    let path = env::var("FILM").unwrap_or_else(|_| "film.txt".to_owned());
    println!("cargo:rerun-if-changed={path}");
    println!("cargo:rerun-if-env-changed=FILM");
    let text = fs::read_to_string(&path).expect("the protocol can be read");
    let certified = rumpsteak::certify(&text).unwrap_or_else(|refusal| {
        eprintln!("{path} is refused:\n{refusal}");
        process::exit(1)
    });
    let folder = env::var("OUT_DIR").expect("cargo says where to write");
    fs::write(format!("{folder}/film.txt"), certified).expect("the text can be written");
}
