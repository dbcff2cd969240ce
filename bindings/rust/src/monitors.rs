//! Monitors, for programs that have queues of their own.
use crate::answers::{text_of_status, Refusal, TextHandle};
use crate::names::{AsLabel, AsRole, Label, NameTable, Names, Role};
use crate::raw::{self, Handle};
use crate::states::{state, State};
use crate::values::Value;
use std::error::Error;
use std::fmt;
use std::sync::Arc;

/// Watches one role's program, which sends and receives over queues of its own: channels, sockets, a broker.
///
/// The program asks its monitor before each message that it sends, and reports each that it took from a queue. If all programs go
/// through their monitors, and there is one queue for each ordered pair of roles, which neither loses nor reorders messages and holds
/// at least [`Monitor::room`] of them, then what [`check`](crate::check) promises of the machines holds of the programs.
///
/// ```
/// use rumpsteak::{Monitor, Reason, Value};
/// use std::sync::mpsc::channel;
///
/// let text = "roles Camera, Screen protocol rec X. Screen->Camera:ready(). Camera->Screen:frame(bytes). X";
/// let mut screen = Monitor::open(text, "Screen")?;
/// let (to_camera, _camera) = channel();
///
/// screen.sent("Camera", "ready", &Value::Unit)?;
/// to_camera.send(("ready", Value::Unit))?;
/// let error = screen.sent("Camera", "ready", &Value::Unit).unwrap_err();
/// assert_eq!(error.reason(), Reason::StateReceives);
/// assert_eq!(error.to_string(), "Screen can't send ready() to Camera now: its state is Camera?{frame(bytes)}");
/// # Ok::<(), Box<dyn std::error::Error>>(())
/// ```
///
/// A monitor may be moved to another thread, but not shared:
///
/// ```compile_fail
/// fn shared<T: Sync>() {}
/// shared::<rumpsteak::Monitor>();
/// ```
pub struct Monitor {
    raw: Handle,
    names: Arc<Names>,
    role: String,
    room: u64,
}

// SAFETY: a handle may be used by any thread, by one call at a time. A call that lets an act through takes `&mut self`; calls that read
// take `&self`, which is a reference of one thread, as a monitor isn't `Sync` (`Handle::place`).
unsafe impl Send for Monitor {}

/// A call that asks a monitor about an act: the peer, the label, the kind of the value, and the value of a natural number.
type Judge = unsafe extern "C" fn(*mut Handle, u32, u32, u32, u64) -> u32;

impl Monitor {
    /// Checks the text as [`check`](crate::check) does, or by its own derivations as [`Session::open`](crate::Session::open) does, and opens
    /// the monitor of this role, at the start of its machine.
    pub fn open(text: &str, role: &str) -> Result<Monitor, Refusal> {
        let names = Arc::new(Names { roles: Vec::new(), labels: Vec::new() });
        let mut monitor = Monitor { raw: Handle::closed(), names, role: role.to_owned(), room: 0 };
        let mut refusal = TextHandle::closed();
        // SAFETY: the pointers are those of slices, and the handles are ours alone.
        let status = unsafe {
            raw::rumpsteak_monitor_open(text.as_ptr(), text.len(), role.as_ptr(), role.len(), &mut monitor.raw, &mut refusal.raw)
        };
        match status {
            raw::FINE => {
                monitor.names = Names::of(&mut monitor.raw, raw::rumpsteak_monitor_role_name, raw::rumpsteak_monitor_label_name);
                // SAFETY: the handle is open and ours alone.
                unsafe { raw::rumpsteak_monitor_room(&mut monitor.raw, &mut monitor.room) };
                Ok(monitor)
            }
            raw::UNKNOWN => Err(Refusal::of_role(role)),
            status => Err(Refusal::of_opening(status, refusal)),
        }
    }

    /// The name of the role.
    pub fn role(&self) -> &str {
        &self.role
    }

    /// The names of the text's roles, in the order of the text.
    pub fn roles(&self) -> impl Iterator<Item = &str> {
        self.names.roles.iter().map(String::as_str)
    }

    /// The number of a role, which is faster to act by than its name.
    pub fn role_of(&self, name: &str) -> Option<Role> {
        self.names.role(name)
    }

    /// The label with this name, which is faster to act by than its name.
    pub fn label(&self, name: &str) -> Option<Label> {
        self.names.label(name)
    }

    /// Each queue must hold this number of messages, so that no program waits for ever because a queue is full.
    pub fn room(&self) -> u64 {
        self.room
    }

    /// What the program may do next.
    pub fn state(&self) -> State<'_> {
        state(&self.raw, &self.names, raw::rumpsteak_monitor_state, raw::rumpsteak_monitor_arm)
    }

    /// Whether the role has ended.
    pub fn has_ended(&self) -> bool {
        self.state() == State::Ended
    }

    /// How many acts were let through.
    pub fn acts(&self) -> u64 {
        let mut acts = 0;
        // SAFETY: the handle is open, and no other call has it (`Handle::place` says why); the place is ours.
        unsafe { raw::rumpsteak_monitor_acts(self.raw.place(), &mut acts) };
        acts
    }

    /// Whether the program may send this message now; nothing changes.
    pub fn may_send(&self, peer: impl AsRole, label: impl AsLabel, value: &Value) -> Result<(), Departure> {
        self.judge(raw::rumpsteak_monitor_may_send, "send", &peer, &label, value)
    }

    /// Lets a send through: call it before the message goes into the queue. After an error nothing has changed, and the program
    /// has to keep the message back.
    ///
    /// The value is what the queue will carry, so it must be of the sort itself: where a `nat` is wanted, a [`Value::Nat`]. (An
    /// [`Endpoint`](crate::Endpoint) also takes a [`Value::Int`] there, and sends it as a `nat`.)
    pub fn sent(&mut self, peer: impl AsRole, label: impl AsLabel, value: &Value) -> Result<(), Departure> {
        self.judge(raw::rumpsteak_monitor_sent, "send", &peer, &label, value)
    }

    /// Reports a message that was taken from the queue from that peer. After an error nothing has changed.
    pub fn received(&mut self, peer: impl AsRole, label: impl AsLabel, value: &Value) -> Result<(), Departure> {
        self.judge(raw::rumpsteak_monitor_received, "receive", &peer, &label, value)
    }

    #[inline]
    fn judge(&self, call: Judge, verb: &str, peer: &impl AsRole, label: &impl AsLabel, value: &Value) -> Result<(), Departure> {
        let table = NameTable(&self.names);
        let status = match (peer.number(&table), label.number(&table)) {
            (Some(peer), Some(label)) => {
                let natural = if let Value::Nat(number) = value { *number } else { 0 };
                // SAFETY: the handle is open, and no other call has it (`Handle::place` says why).
                unsafe { call(self.raw.place(), peer, label, value.kind(), natural) }
            }
            _ => raw::UNKNOWN,
        };
        if status == raw::FINE {
            Ok(())
        } else {
            Err(self.departure(status, verb, peer, label, value))
        }
    }

    #[cold]
    fn departure(&self, status: u32, verb: &str, peer: &impl AsRole, label: &impl AsLabel, value: &Value) -> Departure {
        let reason = match status {
            raw::ANOTHER_PEER => Reason::AnotherPeer,
            raw::STATE_RECEIVES => Reason::StateReceives,
            raw::STATE_SENDS => Reason::StateSends,
            raw::NO_SUCH_LABEL => Reason::NoSuchLabel,
            raw::ANOTHER_SORT => Reason::AnotherSort,
            raw::HAS_ENDED => Reason::HasEnded,
            _ => Reason::UnknownName,
        };
        let table = NameTable(&self.names);
        let way = if verb == "send" { "to" } else { "from" };
        let sort = match value {
            Value::Nat(number) if *number > u64::MAX >> 1 => "2^63 or more".to_owned(),
            value => value.sort().to_string(),
        };
        let act = format!("{verb} {}({sort}) {way} {}", label.told(&table), peer.told(&table));
        Departure { reason, role: self.role.clone(), act, state: self.state().to_string() }
    }
}

impl Drop for Monitor {
    fn drop(&mut self) {
        // SAFETY: the handle is ours alone, and nobody uses it after this.
        unsafe { raw::rumpsteak_monitor_close(&mut self.raw) };
    }
}

impl fmt::Debug for Monitor {
    fn fmt(&self, f: &mut fmt::Formatter<'_>) -> fmt::Result {
        f.debug_struct("Monitor").field("role", &self.role).finish_non_exhaustive()
    }
}

/// Why an act isn't the machine's: the first of these that applies.
#[derive(Clone, Copy, Debug, PartialEq, Eq, Hash)]
pub enum Reason {
    /// The text has no such role or label.
    UnknownName,
    /// The role has ended.
    HasEnded,
    /// The state sends to, or receives from, another role.
    AnotherPeer,
    /// The act is a send, and the state receives from that role.
    StateReceives,
    /// The act is a receive, and the state sends to that role.
    StateSends,
    /// No arm of the state has the label.
    NoSuchLabel,
    /// The state has an arm with the label, and the value isn't of its sort.
    AnotherSort,
}

/// The reason as a sentence, without a full stop.
impl fmt::Display for Reason {
    fn fmt(&self, f: &mut fmt::Formatter<'_>) -> fmt::Result {
        let status = match self {
            Reason::UnknownName => return f.write_str("the text has no such role or label"),
            Reason::HasEnded => raw::HAS_ENDED,
            Reason::AnotherPeer => raw::ANOTHER_PEER,
            Reason::StateReceives => raw::STATE_RECEIVES,
            Reason::StateSends => raw::STATE_SENDS,
            Reason::NoSuchLabel => raw::NO_SUCH_LABEL,
            Reason::AnotherSort => raw::ANOTHER_SORT,
        };
        f.write_str(&text_of_status(status))
    }
}

/// An act that the role's machine doesn't have in its state.
#[derive(Clone, Debug, PartialEq, Eq)]
pub struct Departure {
    reason: Reason,
    role: String,
    act: String,
    state: String,
}

impl Departure {
    /// Why the act isn't the machine's.
    pub fn reason(&self) -> Reason {
        self.reason
    }

    /// What the role may do, as [`State`] prints it.
    pub fn state(&self) -> &str {
        &self.state
    }
}

impl fmt::Display for Departure {
    fn fmt(&self, f: &mut fmt::Formatter<'_>) -> fmt::Result {
        match self.reason {
            Reason::UnknownName => write!(f, "{} can't {}: {}; its state is {}", self.role, self.act, self.reason, self.state),
            _ => write!(f, "{} can't {} now: its state is {}", self.role, self.act, self.state),
        }
    }
}

impl Error for Departure {}
