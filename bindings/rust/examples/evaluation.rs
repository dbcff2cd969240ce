//! Three programs of the publication's evaluation, played by threads: a stream, double buffering, and the butterfly of the
//! Walsh-Hadamard transform on eight roles. Each is written once, and played over the endpoints of a session and over bounded
//! channels of the standard library, one for each ordered pair of roles. Prints messages and megabytes in a second.
//!
//!     cargo run --release --example evaluation [MESSAGES]
use rumpsteak::{Endpoint, Label, Session, Value};
use std::fmt::Write;
use std::sync::mpsc::{sync_channel, Receiver, SyncSender};
use std::thread;
use std::time::Instant;

/// The places of a ring, and of a channel.
const CAPACITY: u16 = 16;
/// Each program is run this number of times. The fastest run counts.
const RUNS: usize = 5;
/// The number of values that the source of the stream sends before it waits for a request.
const AHEAD: u64 = 4;
const ROLES: usize = 8;

/// How a role sends and receives. Labels are numbered as [`LABELS`] lists them.
trait Messages: Send + 'static {
    fn send(&mut self, peer: usize, label: usize, value: Value);
    fn receive(&mut self, peer: usize) -> (usize, Value);
}

const LABELS: [&str; 3] = ["ready", "value", "stop"];
const READY: usize = 0;
const VALUE: usize = 1;
const STOP: usize = 2;

/// A role of a session. Its machine knows the peers.
struct OfSession {
    end: Endpoint,
    labels: Vec<Option<Label>>,
}

impl Messages for OfSession {
    fn send(&mut self, _: usize, label: usize, value: Value) {
        self.end.send(self.labels[label].expect("the text has the label"), value).unwrap();
    }

    fn receive(&mut self, _: usize) -> (usize, Value) {
        let message = self.end.receive().unwrap();
        let (label, value) = (message.label, message.value);
        (self.labels.iter().position(|it| *it == Some(label)).unwrap(), value)
    }
}

/// A role with a channel to each other role, and one from each.
struct OfChannels {
    to: Vec<Option<SyncSender<(usize, Value)>>>,
    from: Vec<Option<Receiver<(usize, Value)>>>,
}

impl Messages for OfChannels {
    fn send(&mut self, peer: usize, label: usize, value: Value) {
        self.to[peer].as_ref().unwrap().send((label, value)).unwrap();
    }

    fn receive(&mut self, peer: usize) -> (usize, Value) {
        self.from[peer].as_ref().unwrap().recv().unwrap()
    }
}

fn of_session(text: &str, roles: &[&str]) -> Vec<OfSession> {
    let mut session = Session::with_capacity(text, CAPACITY).unwrap();
    let labels: Vec<Option<Label>> = LABELS.iter().map(|name| session.label(name)).collect();
    roles.iter().map(|role| OfSession { end: session.endpoint(*role).unwrap(), labels: labels.clone() }).collect()
}

fn of_channels(roles: usize) -> Vec<OfChannels> {
    let mut all: Vec<OfChannels> =
        (0..roles).map(|_| OfChannels { to: (0..roles).map(|_| None).collect(), from: (0..roles).map(|_| None).collect() }).collect();
    for sender in 0..roles {
        for receiver in (0..roles).filter(|it| *it != sender) {
            let (to, from) = sync_channel(CAPACITY.into());
            all[sender].to[receiver] = Some(to);
            all[receiver].from[sender] = Some(from);
        }
    }
    all
}

/// The sum of all numbers of a block, so that both ways are seen to compute the same.
fn sum_of(block: &[i64]) -> i64 {
    block.iter().fold(0, |sum, number| sum.wrapping_add(*number))
}

fn block_of(value: Value) -> Vec<i64> {
    match value {
        Value::List(block) => block,
        other => panic!("{other:?} is no block"),
    }
}

/// A block of numbers that the number decides.
fn block(number: u64, length: usize) -> Vec<i64> {
    (0..length as i64).map(|place| place.wrapping_mul(31).wrapping_add(number as i64)).collect()
}

/// A stream from S to T. The source is some values ahead of the requests.
fn stream_text() -> String {
    let mut text = "roles S, T\nprotocol rec X. T->S:ready(). S->T{value(list). X, stop(). end}\nmachine S: ".to_owned();
    text += &"T!value(list). ".repeat(AHEAD as usize);
    text += "rec X. T!{value(list). T?ready(). X, stop(). ";
    text += &"T?ready(). ".repeat(AHEAD as usize + 1);
    text + "end}\n"
}

fn stream_source(mut role: impl Messages, values: u64, length: usize) -> i64 {
    for number in 0..values {
        role.send(1, VALUE, Value::List(block(number, length)));
        if number >= AHEAD {
            role.receive(1);
        }
    }
    role.send(1, STOP, Value::Unit);
    for _ in 0..=AHEAD {
        role.receive(1);
    }
    0
}

fn stream_sink(mut role: impl Messages) -> i64 {
    let mut sum = 0;
    loop {
        role.send(0, READY, Value::Unit);
        match role.receive(0) {
            (VALUE, value) => sum = sum_of(&[sum, sum_of(&block_of(value))]),
            _ => return sum,
        }
    }
}

/// Double buffering. The kernel K asks the source S for the next block before it hands the last one to the sink T.
const BUFFERING: &str = "roles K, S, T
protocol rec X. K->S:ready(). T->K:ready(). S->K{value(list). K->T:value(list). X, stop(). K->S:ready(). K->T:stop(). end}
machine K: S!ready(). rec X. S!ready(). T?ready(). S?{value(list). T!value(list). X, stop(). T!stop(). end}";

fn kernel(mut role: impl Messages) -> i64 {
    role.send(1, READY, Value::Unit);
    loop {
        role.send(1, READY, Value::Unit);
        role.receive(2);
        match role.receive(1) {
            (VALUE, value) => {
                let turned = block_of(value).into_iter().map(|number| !number).collect();
                role.send(2, VALUE, Value::List(turned));
            }
            _ => {
                role.send(2, STOP, Value::Unit);
                return 0;
            }
        }
    }
}

fn buffering_source(mut role: impl Messages, values: u64, length: usize) -> i64 {
    for number in 0..values {
        role.receive(0);
        role.send(0, VALUE, Value::List(block(number, length)));
    }
    role.receive(0);
    role.send(0, STOP, Value::Unit);
    role.receive(0);
    0
}

/// A butterfly again and again: in each, pairs of roles at the distances 1, 2 and 4 exchange blocks. Each role sends first.
fn butterfly_text() -> String {
    let mut text = "roles R0, R1, R2, R3, R4, R5, R6, R7\nprotocol rec X. ".to_owned();
    for distance in [1, 2, 4] {
        for role in (0..ROLES).filter(|role| role & distance == 0) {
            let other = role | distance;
            write!(text, "R{role}->R{other}:value(list). R{other}->R{role}:value(list). ").unwrap();
        }
    }
    text += "X\n";
    for role in 0..ROLES {
        write!(text, "machine R{role}: rec X. ").unwrap();
        for distance in [1, 2, 4] {
            let other = role ^ distance;
            write!(text, "R{other}!value(list). R{other}?value(list). ").unwrap();
        }
        text += "X\n";
    }
    text
}

fn butterfly(mut role: impl Messages, place: usize, times: u64, length: usize) -> i64 {
    let mut mine = block(place as u64, length);
    for _ in 0..times {
        for distance in [1, 2, 4] {
            let other = place ^ distance;
            role.send(other, VALUE, Value::List(mine.clone()));
            let its = block_of(role.receive(other).1);
            let sign = if place & distance == 0 { 1 } else { -1 };
            mine = mine.iter().zip(&its).map(|(mine, its)| its.wrapping_add(mine.wrapping_mul(sign))).collect();
        }
    }
    sum_of(&mine)
}

/// A role's part of a program, over whatever its messages go by.
type Part<M> = Box<dyn FnOnce(M) -> i64 + Send>;

fn stream<M: Messages>(values: u64, length: usize) -> Vec<Part<M>> {
    vec![Box::new(move |role| stream_source(role, values, length)), Box::new(|role| stream_sink(role))]
}

fn buffering<M: Messages>(values: u64, length: usize) -> Vec<Part<M>> {
    vec![Box::new(|role| kernel(role)), Box::new(move |role| buffering_source(role, values, length)), Box::new(|role| stream_sink(role))]
}

fn butterflies<M: Messages>(times: u64, length: usize) -> Vec<Part<M>> {
    (0..ROLES).map(|place| -> Part<M> { Box::new(move |role| butterfly(role, place, times, length)) }).collect()
}

/// The sum of what the roles return, and the seconds that they took, each on a thread of its own.
fn played<M: Messages>(roles: Vec<M>, parts: Vec<Part<M>>) -> (i64, f64) {
    let begun = Instant::now();
    let threads: Vec<_> = roles.into_iter().zip(parts).map(|(role, part)| thread::spawn(move || part(role))).collect();
    let sums: Vec<i64> = threads.into_iter().map(|thread| thread.join().unwrap()).collect();
    (sum_of(&sums), begun.elapsed().as_secs_f64())
}

/// The result of all runs, which is one, and the seconds of the fastest.
fn fastest(mut run: impl FnMut() -> (i64, f64)) -> (i64, f64) {
    let (sum, mut least) = run();
    for _ in 1..RUNS {
        let (again, took) = run();
        assert_eq!(again, sum, "a run computes something else");
        least = least.min(took);
    }
    (sum, least)
}

/// One line of the table: messages and megabytes in a second, over endpoints and over channels.
fn line(name: &str, length: usize, messages: u64, blocks: u64, over_session: (i64, f64), over_channels: (i64, f64)) {
    assert_eq!(over_session.0, over_channels.0, "{name}: the two ways compute different sums");
    let bytes = blocks as f64 * length as f64 * 8.0;
    let rates = |took: f64| format!("{:.0} | {:.1}", messages as f64 / took, bytes / took / 1e6);
    println!("| {name} | {} | {} | {} |", length * 8, rates(over_session.1), rates(over_channels.1));
}

fn main() {
    let most: u64 = std::env::args().nth(1).map_or(200_000, |word| word.parse().expect("a number of messages"));
    println!("| program | bytes in a block | endpoints: messages a second | megabytes a second | channels: messages a second | megabytes a second |");
    println!("|---|---|---|---|---|---|");
    for length in [1, 128, 8192] {
        // (fewer messages where they are large)
        let messages = most / if length > 1000 { 20 } else { 1 };
        let values = messages / 2;
        let over_session = fastest(|| played(of_session(&stream_text(), &["S", "T"]), stream(values, length)));
        let over_channels = fastest(|| played(of_channels(2), stream(values, length)));
        line("streaming", length, 2 * values + 2, values, over_session, over_channels);

        let values = messages / 4;
        let over_session = fastest(|| played(of_session(BUFFERING, &["K", "S", "T"]), buffering(values, length)));
        let over_channels = fastest(|| played(of_channels(3), buffering(values, length)));
        line("double buffering", length, 4 * values + 5, 2 * values, over_session, over_channels);

        let times = messages / 24;
        let names: Vec<String> = (0..ROLES).map(|role| format!("R{role}")).collect();
        let names: Vec<&str> = names.iter().map(String::as_str).collect();
        let over_session = fastest(|| played(of_session(&butterfly_text(), &names), butterflies(times, length)));
        let over_channels = fastest(|| played(of_channels(ROLES), butterflies(times, length)));
        line("butterfly of eight roles", length, 24 * times, 24 * times, over_session, over_channels);
    }
}
