//! A camera and a screen over the channels of the standard library. Each has a monitor of its role, which it asks before it sends a
//! message, and to which it reports each message that it received.
//!
//!     cargo run --example channels
use rumpsteak::{Departure, Monitor, Value};
use std::error::Error;
use std::sync::mpsc::{channel, Receiver, Sender};
use std::thread;

const TEXT: &str = "roles Camera, Screen
protocol rec X. Screen->Camera:ready(). Camera->Screen{frame(bytes). X, over(). end}";

type Message = (&'static str, Value);

/// The queues between a program and its one peer, with the program's monitor.
struct Line {
    monitor: Monitor,
    peer: &'static str,
    outgoing: Sender<Message>,
    incoming: Receiver<Message>,
}

impl Line {
    fn send(&mut self, label: &'static str, value: impl Into<Value>) -> Result<(), Box<dyn Error + Send + Sync>> {
        let value = value.into();
        self.monitor.sent(self.peer, label, &value)?;
        Ok(self.outgoing.send((label, value))?)
    }

    fn receive(&mut self) -> Result<Message, Box<dyn Error + Send + Sync>> {
        let (label, value) = self.incoming.recv()?;
        self.monitor.received(self.peer, label, &value)?;
        Ok((label, value))
    }
}

fn camera(mut line: Line) -> Result<(), Box<dyn Error + Send + Sync>> {
    for frame in ["one", "two", "three"] {
        line.receive()?;
        line.send("frame", frame)?;
    }
    line.receive()?;
    line.send("over", ())
}

fn screen(mut line: Line) -> Result<(), Box<dyn Error + Send + Sync>> {
    loop {
        line.send("ready", ())?;
        match line.receive()? {
            (_, Value::Bytes(frame)) => println!("{}", String::from_utf8_lossy(&frame)),
            _ => break,
        }
    }
    // The session is over: another `ready` would be a fault of this program, and stays here.
    let departure: Departure = line.monitor.sent("Camera", "ready", &Value::Unit).unwrap_err();
    println!("{departure}");
    Ok(())
}

fn main() -> Result<(), Box<dyn Error + Send + Sync>> {
    let (to_screen, from_camera) = channel();
    let (to_camera, from_screen) = channel();
    let at_camera = Line { monitor: Monitor::open(TEXT, "Camera")?, peer: "Screen", outgoing: to_screen, incoming: from_screen };
    let at_screen = Line { monitor: Monitor::open(TEXT, "Screen")?, peer: "Camera", outgoing: to_camera, incoming: from_camera };
    let filming = thread::spawn(|| camera(at_camera));
    screen(at_screen)?;
    filming.join().expect("the camera doesn't panic")
}
