//! The time of a message through endpoints, beside the bounded channel of the standard library: on one thread, and between two.
//! Then the time of an act through a monitor.
//!
//!     cargo run --release --example messages [MESSAGES]
use rumpsteak::{Endpoint, Label, Monitor, Session, Value};
use std::sync::mpsc::sync_channel;
use std::thread;
use std::time::{Duration, Instant};

const TEXT: &str = "roles A, B\nprotocol rec X. A->B{item(nat). X, last(). end}\n";
const STREAMS: usize = 5;

fn ends(capacity: u16) -> (Endpoint, Endpoint, Label, Label) {
    let mut session = Session::with_capacity(TEXT, capacity).unwrap();
    let (item, last) = (session.label("item").unwrap(), session.label("last").unwrap());
    (session.endpoint("A").unwrap(), session.endpoint("B").unwrap(), item, last)
}

/// The sum of the numbers that were received, and how long that took.
type Stream = (u64, Duration);

/// Nanoseconds a message of the fastest stream.
fn best(messages: u64, mut stream: impl FnMut() -> Stream) -> f64 {
    let mut least = f64::MAX;
    for _ in 0..STREAMS {
        let (sum, took) = stream();
        assert_eq!(sum, messages * (messages - 1) / 2);
        least = least.min(took.as_nanos() as f64 / messages as f64);
    }
    least
}

fn session_alone(messages: u64, capacity: u16) -> Stream {
    let (mut a, mut b, item, _) = ends(capacity);
    let begun = Instant::now();
    let mut sum = 0;
    for number in 0..messages {
        a.send(item, number).unwrap();
        sum += u64::try_from(b.receive().unwrap().value).unwrap();
    }
    (sum, begun.elapsed())
}

fn session_by_two(messages: u64, capacity: u16) -> Stream {
    let (mut a, mut b, item, last) = ends(capacity);
    let begun = Instant::now();
    let sending = thread::spawn(move || {
        for number in 0..messages {
            a.send(item, number).unwrap();
        }
        a.send(last, ()).unwrap();
    });
    let mut sum = 0;
    while let Value::Nat(number) = b.receive().unwrap().value {
        sum += number;
    }
    sending.join().unwrap();
    (sum, begun.elapsed())
}

fn channel_alone(messages: u64, capacity: usize) -> Stream {
    let (sender, receiver) = sync_channel(capacity);
    let begun = Instant::now();
    let mut sum = 0;
    for number in 0..messages {
        sender.send(number).unwrap();
        sum += receiver.recv().unwrap();
    }
    (sum, begun.elapsed())
}

fn channel_by_two(messages: u64, capacity: usize) -> Stream {
    let (sender, receiver) = sync_channel(capacity);
    let begun = Instant::now();
    let sending = thread::spawn(move || {
        for number in 0..messages {
            sender.send(number).unwrap();
        }
    });
    let mut sum = 0;
    while let Ok(number) = receiver.recv() {
        sum += number;
    }
    sending.join().unwrap();
    (sum, begun.elapsed())
}

/// Sends of `A`, through its monitor alone.
fn watched(acts: u64) -> Stream {
    let mut monitor = Monitor::open(TEXT, "A").unwrap();
    let (peer, item) = (monitor.role_of("B").unwrap(), monitor.label("item").unwrap());
    let begun = Instant::now();
    let mut sum = 0;
    for number in 0..acts {
        monitor.sent(peer, item, &Value::Nat(number)).unwrap();
        sum += number;
    }
    (sum, begun.elapsed())
}

fn main() {
    let messages = std::env::args().nth(1).map_or(1_000_000, |word| word.parse().expect("a number of messages"));
    println!("| threads | capacity | endpoints from Rust | sync_channel |\n|---|---|---|---|");
    for capacity in [1, 16, 1024] {
        let session = best(messages, || session_alone(messages, capacity));
        let channel = best(messages, || channel_alone(messages, capacity.into()));
        println!("| 1 | {capacity} | {session:.0} | {channel:.0} |");
    }
    for capacity in [1, 16, 1024] {
        let session = best(messages, || session_by_two(messages, capacity));
        let channel = best(messages, || channel_by_two(messages, capacity.into()));
        println!("| 2 | {capacity} | {session:.0} | {channel:.0} |");
    }
    println!("\nan act through a monitor: {:.0}", best(messages, || watched(messages)));
}
