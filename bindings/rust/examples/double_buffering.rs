//! Double buffering on three threads: a source reads standard input, a kernel changes each byte b to 255 - b, and a sink writes
//! standard output. The kernel asks for the next piece before it hands the last one on, so that the source reads while the kernel
//! works.
//!
//!     cargo run --example double_buffering < picture > negative
use rumpsteak::{Endpoint, Session, Value};
use std::error::Error;
use std::io::{stdin, stdout, Read, Write};
use std::thread;

/// K is the kernel, S the source, T the sink. The machine of K sends its second `ready` before it has the first piece.
const TEXT: &str = "roles K, S, T
protocol rec X. K->S:ready(). T->K:ready(). S->K{copy(bytes). K->T:copy(bytes). X, stop(). K->S:ready(). K->T:stop(). end}
machine K: S!ready(). rec X. S!ready(). T?ready(). S?{copy(bytes). T!copy(bytes). X, stop(). T!stop(). end}";

type Done = Result<(), Box<dyn Error + Send + Sync>>;

fn kernel(mut end: Endpoint) -> Done {
    end.send("ready", ())?;
    loop {
        end.send("ready", ())?;
        end.receive()?; // the sink's `ready`
        match end.receive()?.value {
            Value::Bytes(piece) => end.send("copy", piece.into_iter().map(|byte| 255 - byte).collect::<Vec<u8>>())?,
            _ => break,
        }
    }
    Ok(end.send("stop", ())?)
}

fn source(mut end: Endpoint) -> Done {
    let mut piece = [0; 4096];
    end.receive()?;
    loop {
        match stdin().read(&mut piece)? {
            0 => break,
            length => end.send("copy", &piece[..length])?,
        }
        end.receive()?;
    }
    end.send("stop", ())?;
    end.receive()?; // the `ready` that the kernel sent ahead
    Ok(())
}

fn sink(mut end: Endpoint) -> Done {
    loop {
        end.send("ready", ())?;
        match end.receive()?.value {
            Value::Bytes(piece) => stdout().write_all(&piece)?,
            _ => return Ok(stdout().flush()?),
        }
    }
}

fn main() -> Done {
    let mut session = Session::open(TEXT)?;
    let (k, s, t) = (session.endpoint("K")?, session.endpoint("S")?, session.endpoint("T")?);
    let threads = [thread::spawn(|| kernel(k)), thread::spawn(|| source(s)), thread::spawn(|| sink(t))];
    for thread in threads {
        thread.join().expect("no thread panics")?;
    }
    Ok(())
}
