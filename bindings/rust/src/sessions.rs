//! Sessions that run in this process.
use crate::answers::{text_of_status, Refusal, TextHandle};
use crate::endpoints::Endpoint;
use crate::names::{AsRole, Label, NameTable, Names, Role};
use crate::raw::{self, Handle};
use std::error::Error;
use std::fmt;
use std::sync::Arc;

/// A session that was accepted and has begun: a lock-free queue for each ordered pair of roles, and an [`Endpoint`] for each role.
///
/// Take the endpoints out by [`Session::endpoint`] and give each to a thread. They live on when the session is dropped.
///
/// ```
/// use rumpsteak::{Session, Value};
/// use std::thread;
///
/// let mut session = Session::open("roles Client, Server
/// protocol rec X. Client->Server{square(nat). Server->Client:result(nat). X, bye(). end}")?;
/// let mut client = session.endpoint("Client")?;
/// let mut server = session.endpoint("Server")?;
///
/// let serving = thread::spawn(move || {
///     loop {
///         let request = server.receive()?;
///         match (request.name, request.value) {
///             ("square", Value::Nat(number)) => server.send("result", number * number)?,
///             _ => return Ok::<(), rumpsteak::ActError>(()),
///         }
///     }
/// });
/// client.send("square", 12u64)?;
/// assert_eq!(client.receive()?.value, Value::Nat(144));
/// client.send("bye", ())?;
/// serving.join().unwrap()?;
/// # Ok::<(), Box<dyn std::error::Error>>(())
/// ```
///
/// A session and an endpoint may be moved to another thread, but not shared:
///
/// ```compile_fail
/// fn shared<T: Sync>() {}
/// shared::<rumpsteak::Session>();
/// ```
///
/// ```compile_fail
/// fn shared<T: Sync>() {}
/// shared::<rumpsteak::Endpoint>();
/// ```
pub struct Session {
    raw: Handle,
    names: Arc<Names>,
    room: u64,
}

// SAFETY: a handle may be used by any thread, by one call at a time; each call that uses it takes `&mut self`.
unsafe impl Send for Session {}

impl Session {
    /// Checks the text as [`check`](crate::check) does, and begins its session. Each queue holds as many messages as the session's
    /// room (1,024 at most), so that no role waits for ever because a queue is full.
    ///
    /// If the text has a derivation of each role, as [`certify`](crate::certify) makes them, these are tested instead and nothing is
    /// searched: so a program that starts tests what was searched when it was built.
    ///
    /// The refusal has the text of [`explain`](crate::explain), or what `ask(&["verify"], text)` answers if one of the text's own
    /// derivations is at fault.
    pub fn open(text: &str) -> Result<Session, Refusal> {
        Session::with_capacity(text, 0)
    }

    /// The same, with queues for this number of messages, from 1 to 1,024; 0 stands for the room. Queues smaller than the room may
    /// leave all roles waiting for each other.
    pub fn with_capacity(text: &str, capacity: u16) -> Result<Session, Refusal> {
        let mut session = Session { raw: Handle::closed(), names: Arc::new(Names { roles: Vec::new(), labels: Vec::new() }), room: 0 };
        let mut refusal = TextHandle::closed();
        // SAFETY: the pointers are those of a slice, and the handles are ours alone.
        let status = unsafe { raw::rumpsteak_open(text.as_ptr(), text.len(), capacity, &mut session.raw, &mut refusal.raw) };
        if status != raw::FINE {
            return Err(Refusal::of_opening(status, refusal));
        }
        session.names = Names::of(&mut session.raw, raw::rumpsteak_role_name, raw::rumpsteak_label_name);
        // SAFETY: the handle is open and ours alone.
        unsafe { raw::rumpsteak_room(&mut session.raw, &mut session.room) };
        Ok(session)
    }

    /// The names of the roles, in the order of the text.
    pub fn roles(&self) -> impl Iterator<Item = &str> {
        self.names.roles.iter().map(String::as_str)
    }

    /// The names of the labels, in the order of their numbers.
    pub fn labels(&self) -> impl Iterator<Item = &str> {
        self.names.labels.iter().map(String::as_str)
    }

    /// The role with this name.
    pub fn role(&self, name: &str) -> Option<Role> {
        self.names.role(name)
    }

    /// The label with this name.
    pub fn label(&self, name: &str) -> Option<Label> {
        self.names.label(name)
    }

    /// Queues for this number of messages are always enough.
    pub fn room(&self) -> u64 {
        self.room
    }

    /// Hands out the endpoint of the role, once.
    pub fn endpoint(&mut self, role: impl AsRole) -> Result<Endpoint, EndpointError> {
        let Some(number) = role.number(&NameTable(&self.names)) else {
            return Err(EndpointError::UnknownRole);
        };
        let mut handle = Handle::closed();
        // SAFETY: the session's handle is open and ours alone, and so is the endpoint's.
        match unsafe { raw::rumpsteak_endpoint_of(&mut self.raw, number, &mut handle) } {
            raw::FINE => Ok(Endpoint::new(handle, Arc::clone(&self.names), Role(number))),
            raw::HANDED_OUT => Err(EndpointError::HandedOut),
            raw::NO_MEMORY => Err(EndpointError::NoMemory),
            _ => Err(EndpointError::UnknownRole),
        }
    }
}

/// Endpoints that weren't handed out are given up.
impl Drop for Session {
    fn drop(&mut self) {
        // SAFETY: the handle is ours alone, and nobody uses it after this.
        unsafe { raw::rumpsteak_close(&mut self.raw) };
    }
}

impl fmt::Debug for Session {
    fn fmt(&self, f: &mut fmt::Formatter<'_>) -> fmt::Result {
        f.debug_struct("Session").field("roles", &self.names.roles).field("room", &self.room).finish_non_exhaustive()
    }
}

/// Why an endpoint isn't handed out.
#[derive(Clone, Copy, Debug, PartialEq, Eq)]
pub enum EndpointError {
    /// The session has no such role.
    UnknownRole,
    /// The role's endpoint was handed out before.
    HandedOut,
    /// Memory ran out.
    NoMemory,
}

impl fmt::Display for EndpointError {
    fn fmt(&self, f: &mut fmt::Formatter<'_>) -> fmt::Result {
        match self {
            EndpointError::UnknownRole => f.write_str("the session has no such role"),
            EndpointError::HandedOut => f.write_str(&text_of_status(raw::HANDED_OUT)),
            EndpointError::NoMemory => f.write_str(&text_of_status(raw::NO_MEMORY)),
        }
    }
}

impl Error for EndpointError {}
