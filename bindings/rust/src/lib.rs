//! Rumpsteak checks, before they run, that threads or programs which exchange messages can't go wrong together: that they never all
//! wait for each other, and that none of them receives a message that it has no case for. It also runs such conversations, over
//! lock-free queues.
//!
//! You write the conversation once, as a *protocol*: who sends what to whom, with choices and loops. Each participant (a *role*) has a
//! *machine*: a list of states, each of which sends to, or receives from, one other role. A role without a machine of its own in
//! the text has the protocol's part for it. A machine may send earlier than the protocol says; it is accepted only if all
//! machines are safe together. That accepted machines are safe is proved of the library that this crate calls.
//!
//! | you want | use |
//! |---|---|
//! | to know whether a text is safe, and why not | [`check`], [`explain`] |
//! | to let a role send earlier | [`improve`] |
//! | to search once, and only test the stored certificate in each build | [`certify`], [`verify`] |
//! | threads of this process that talk | [`Session`], [`Endpoint`] |
//! | programs that have queues of their own | [`Monitor`] |
//! | any other word of the program `rumpsteak` | [`ask`] |
//!
//! A camera and a screen on two threads:
//!
//! ```
//! use rumpsteak::{Session, Value};
//! use std::thread;
//!
//! let mut session = Session::open("roles Camera, Screen
//! protocol rec X. Screen->Camera:ready(). Camera->Screen{frame(bytes). X, over(). end}")?;
//! let mut camera = session.endpoint("Camera")?;
//! let mut screen = session.endpoint("Screen")?;
//!
//! let filming = thread::spawn(move || {
//!     for frame in ["one", "two"] {
//!         camera.receive()?;
//!         camera.send("frame", frame)?;
//!     }
//!     camera.receive()?;
//!     camera.send("over", ())
//! });
//! let mut shown = Vec::new();
//! loop {
//!     screen.send("ready", ())?;
//!     match screen.receive()?.value {
//!         Value::Bytes(frame) => shown.push(frame),
//!         _ => break,
//!     }
//! }
//! filming.join().unwrap()?;
//! assert_eq!(shown, [b"one", b"two"]);
//! # Ok::<(), Box<dyn std::error::Error>>(())
//! ```
//!
//! A message that the role's state doesn't have is an error and sends nothing:
//!
//! ```
//! # let mut session = rumpsteak::Session::open("roles A, B protocol A->B:hello(nat). end")?;
//! let mut a = session.endpoint("A")?;
//! let error = a.send("hello", "text").unwrap_err();
//! assert_eq!(error.to_string(), "A can't send hello(bytes) now: its state is B!{hello(nat)}");
//! # Ok::<(), Box<dyn std::error::Error>>(())
//! ```

/// The examples of the crate's README are tests too.
#[cfg(doctest)]
#[doc = include_str!("../README.md")]
struct Readme;

mod answers;
mod endpoints;
mod monitors;
mod names;
mod raw;
mod sessions;
mod states;
mod values;

pub use answers::{ask, certify, check, check_within, explain, explain_within, improve, status_text, verify, Answer, Refusal, RefusalKind, Report};
pub use endpoints::{ActError, Endpoint, Message, OwnedMessage, TrySendError};
pub use monitors::{Departure, Monitor, Reason};
pub use names::{AsLabel, AsRole, Label, Role};
pub use sessions::{EndpointError, Session};
pub use states::{Arm, State};
pub use values::{Sort, Value};

/// The version of the library: a million for each major version, a thousand for each minor one.
pub fn version() -> u32 {
    // SAFETY: the call takes nothing.
    unsafe { raw::rumpsteak_version() }
}
