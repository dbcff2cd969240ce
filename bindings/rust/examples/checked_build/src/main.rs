//! This program is built only if its protocol is accepted. When it starts it tests what the build found, and searches nothing.
use rumpsteak::Session;

fn main() {
    let session = Session::open(include_str!(concat!(env!("OUT_DIR"), "/film.txt"))).expect("the build has checked the film");
    println!("the film of {} roles was checked in the build", session.roles().count());
}
