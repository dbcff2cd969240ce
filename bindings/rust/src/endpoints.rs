//! Endpoints: a role of a session, that sends and receives.
use crate::answers::text_of_status;
use crate::names::{AsLabel, Label, NameTable, Names, Role};
use crate::raw::{self, Handle};
use crate::states::{state, State};
use crate::values::Value;
use std::error::Error;
use std::fmt;
use std::hint::spin_loop;
use std::sync::Arc;
use std::task::{Context, Poll};
use std::thread::yield_now;

/// How often a call that waits looks again before it lets other threads run.
const MOST_SPINS: u32 = 100;

/// A role of a [`Session`](crate::Session): it sends and receives what the role's state allows, and each act leads to the role's next state.
///
/// In a session no endpoint ever finds a message that its state has no case for. As long as each thread goes on to do what its
/// endpoint's state says, and no endpoint is dropped before its role has ended, some role can always act until all have ended.
///
/// A dropped endpoint gives its role up. What it sent can still be received; a role that receives from it then gets [`ActError::Gone`],
/// and a role that sends to it goes on until the queue is full, and then waits for ever (so use [`Endpoint::try_send`] if peers may fail).
pub struct Endpoint {
    raw: Handle,
    names: Arc<Names>,
    role: Role,
}

// SAFETY: a handle may be used by any thread, by one call at a time. A call that acts takes `&mut self`; calls that read take `&self`, which
// is a reference of one thread, as an endpoint isn't `Sync` (`Handle::place`).
unsafe impl Send for Endpoint {}

/// A message that was received: its label, by name and number, and its value.
///
/// It borrows the endpoint for the label's name. [`Message::into_owned`] lets the endpoint go, so that the message can be kept while
/// the endpoint goes on.
#[derive(Clone, Debug, PartialEq, Eq)]
pub struct Message<'a> {
    pub name: &'a str,
    pub label: Label,
    pub value: Value,
}

impl Message<'_> {
    /// The same message, with a name of its own.
    ///
    /// ```
    /// let mut session = rumpsteak::Session::open("roles A, B protocol A->B:first(nat). A->B:second(nat). end")?;
    /// let (mut a, mut b) = (session.endpoint("A")?, session.endpoint("B")?);
    /// a.send("first", 1u64)?;
    /// a.send("second", 2u64)?;
    /// let messages = [b.receive()?.into_owned(), b.receive()?.into_owned()];
    /// assert_eq!(messages.map(|message| message.name), ["first", "second"]);
    /// # Ok::<(), Box<dyn std::error::Error>>(())
    /// ```
    pub fn into_owned(self) -> OwnedMessage {
        OwnedMessage { name: self.name.to_owned(), label: self.label, value: self.value }
    }
}

/// A [`Message`] that borrows nothing.
#[derive(Clone, Debug, PartialEq, Eq)]
pub struct OwnedMessage {
    pub name: String,
    pub label: Label,
    pub value: Value,
}

impl Endpoint {
    pub(crate) fn new(raw: Handle, names: Arc<Names>, role: Role) -> Endpoint {
        Endpoint { raw, names, role }
    }

    /// The name of the role.
    pub fn role(&self) -> &str {
        self.names.role_name(self.role)
    }

    /// The label with this name.
    pub fn label(&self, name: &str) -> Option<Label> {
        self.names.label(name)
    }

    /// What the role does next.
    ///
    /// ```
    /// let mut session = rumpsteak::Session::open("roles A, B protocol A->B{yes(nat). end, no(). end}")?;
    /// let mut a = session.endpoint("A")?;
    /// assert_eq!(a.state().to_string(), "B!{yes(nat), no()}");
    /// a.send("no", ())?;
    /// assert!(a.has_ended());
    /// # Ok::<(), Box<dyn std::error::Error>>(())
    /// ```
    pub fn state(&self) -> State<'_> {
        state(&self.raw, &self.names, raw::rumpsteak_state, raw::rumpsteak_arm)
    }

    /// Whether the role has ended.
    pub fn has_ended(&self) -> bool {
        let (mut direction, mut peer, mut arms) = (0, 0, 0);
        // SAFETY: the handle is open, and no other call has it (`Handle::place` says why); the places are ours.
        unsafe { raw::rumpsteak_state(self.raw.place(), &mut direction, &mut peer, &mut arms) };
        direction != raw::SENDS && direction != raw::RECEIVES
    }

    /// Sends a message with this label and value, if the queue has room.
    ///
    /// If the queue is full, the error has the value back, and the role stands as before.
    ///
    /// ```
    /// use rumpsteak::{Session, TrySendError, Value};
    ///
    /// let mut session = Session::with_capacity("roles A, B protocol rec X. A->B:item(nat). X", 1)?;
    /// let mut a = session.endpoint("A")?;
    /// a.try_send("item", 1u64)?;
    /// assert_eq!(a.try_send("item", 2u64), Err(TrySendError::Full(Value::Nat(2))));
    /// # Ok::<(), Box<dyn std::error::Error>>(())
    /// ```
    #[inline]
    pub fn try_send(&mut self, label: impl AsLabel, value: impl Into<Value>) -> Result<(), TrySendError> {
        let value = value.into();
        match self.post(&label, &value) {
            Ok(true) => Ok(()),
            Ok(false) => Err(TrySendError::Full(value)),
            Err(error) => Err(TrySendError::Act(error)),
        }
    }

    /// Sends a message with this label and value. While the queue is full it looks again, a hundred times at once and then each time
    /// after it let other threads run.
    #[inline]
    pub fn send(&mut self, label: impl AsLabel, value: impl Into<Value>) -> Result<(), ActError> {
        let value = value.into();
        let mut pause = Pause::new();
        while !self.post(&label, &value)? {
            pause.wait();
        }
        Ok(())
    }

    /// Receives a message, if one has come.
    #[inline]
    pub fn try_receive(&mut self) -> Result<Option<Message<'_>>, ActError> {
        match self.fetch()? {
            Some((label, value)) => Ok(Some(self.message(label, value))),
            None => Ok(None),
        }
    }

    /// Receives a message. Until one comes it looks again, a hundred times at once and then each time after it let other threads run.
    ///
    /// The message borrows the endpoint for its name. To send its value on, take that out first: `let value = end.receive()?.value;`. To keep
    /// the message, take [`Message::into_owned`].
    #[inline]
    pub fn receive(&mut self) -> Result<Message<'_>, ActError> {
        let mut pause = Pause::new();
        loop {
            if let Some((label, value)) = self.fetch()? {
                return Ok(self.message(label, value));
            }
            pause.wait();
        }
    }

    /// [`Endpoint::send`] for an asynchronous task. If the queue is full, it is pending.
    ///
    /// Nothing is registered with the queue: the call has the task woken at once, so that the executor polls it again after the other
    /// tasks that are ready. It works with each executor, and keeps it busy while the task waits.
    pub fn poll_send(&mut self, context: &mut Context<'_>, label: impl AsLabel, value: &Value) -> Poll<Result<(), ActError>> {
        match self.post(&label, value) {
            Ok(true) => Poll::Ready(Ok(())),
            Ok(false) => again(context),
            Err(error) => Poll::Ready(Err(error)),
        }
    }

    /// [`Endpoint::receive`] for an asynchronous task. If nothing has come, it is pending, as [`Endpoint::poll_send`] is.
    ///
    /// ```
    /// use rumpsteak::{Session, Value};
    /// use std::future::{poll_fn, Future};
    /// use std::pin::pin;
    /// use std::task::{Context, Poll, Waker};
    ///
    /// let mut session = Session::open("roles A, B protocol A->B:item(nat). end")?;
    /// let (mut a, mut b) = (session.endpoint("A")?, session.endpoint("B")?);
    /// let mut task = pin!(async { poll_fn(|context| b.poll_receive(context).map_ok(|message| message.value)).await });
    /// let mut context = Context::from_waker(Waker::noop());
    /// assert_eq!(task.as_mut().poll(&mut context), Poll::Pending);
    /// a.send("item", 7u64)?;
    /// assert_eq!(task.as_mut().poll(&mut context), Poll::Ready(Ok(Value::Nat(7))));
    /// # Ok::<(), Box<dyn std::error::Error>>(())
    /// ```
    pub fn poll_receive(&mut self, context: &mut Context<'_>) -> Poll<Result<Message<'_>, ActError>> {
        match self.fetch() {
            Ok(Some((label, value))) => Poll::Ready(Ok(self.message(label, value))),
            Ok(None) => again(context),
            Err(error) => Poll::Ready(Err(error)),
        }
    }

    fn message(&self, label: Label, value: Value) -> Message<'_> {
        Message { name: self.names.label_name(label), label, value }
    }

    /// Sends the message, unless the queue is full: whether it was sent.
    #[inline]
    fn post(&mut self, label: &impl AsLabel, value: &Value) -> Result<bool, ActError> {
        let Some(number) = label.number(&NameTable(&self.names)) else {
            return Err(self.cannot_send(label, value));
        };
        match self.post_once(number, value) {
            raw::FINE => Ok(true),
            raw::FULL => Ok(false),
            raw::NO_MEMORY => Err(ActError::NoMemory),
            _ => self.post_as_natural(number, label, value),
        }
    }

    /// The same for an integer that isn't below 0, where a natural number is wanted; all else isn't sent.
    #[cold]
    fn post_as_natural(&mut self, number: u32, label: &impl AsLabel, value: &Value) -> Result<bool, ActError> {
        match value.as_natural().map(|natural| self.post_once(number, &Value::Nat(natural))) {
            Some(raw::FINE) => Ok(true),
            Some(raw::FULL) => Ok(false),
            Some(raw::NO_MEMORY) => Err(ActError::NoMemory),
            _ => Err(self.cannot_send(label, value)),
        }
    }

    #[inline]
    fn post_once(&mut self, label: u32, value: &Value) -> u32 {
        let at = &mut self.raw;
        // SAFETY: the handle is open and ours alone, and the pointers are those of slices.
        unsafe {
            match value {
                Value::Unit => raw::rumpsteak_send_unit(at, label),
                Value::Bool(value) => raw::rumpsteak_send_bool(at, label, *value),
                Value::Nat(number) => raw::rumpsteak_send_nat(at, label, *number),
                Value::Int(number) => raw::rumpsteak_send_int(at, label, *number),
                Value::Bytes(bytes) => raw::rumpsteak_send_bytes(at, label, bytes.as_ptr(), bytes.len()),
                Value::List(numbers) => raw::rumpsteak_send_list(at, label, numbers.as_ptr(), numbers.len()),
            }
        }
    }

    #[cold]
    fn cannot_send(&self, label: &impl AsLabel, value: &Value) -> ActError {
        let act = format!("send {}({})", label.told(&NameTable(&self.names)), value.sort());
        ActError::NotNow { role: self.role().to_owned(), act, state: self.state().to_string() }
    }

    /// The message that has come, if any.
    #[inline]
    fn fetch(&mut self) -> Result<Option<(Label, Value)>, ActError> {
        let mut message = raw::Message::default();
        // SAFETY: the handle is open and ours alone, and the place is ours.
        match unsafe { raw::rumpsteak_receive(&mut self.raw, &mut message) } {
            raw::FINE => Ok(Some((Label(message.label), self.value_of(&message)))),
            raw::EMPTY => Ok(None),
            raw::GONE => Err(ActError::Gone { peer: self.state().peer().unwrap_or("?").to_owned() }),
            raw::NO_MEMORY => Err(ActError::NoMemory),
            _ => Err(ActError::NotNow { role: self.role().to_owned(), act: "receive".to_owned(), state: self.state().to_string() }),
        }
    }

    /// The value of the message that was received just now.
    #[inline]
    fn value_of(&mut self, message: &raw::Message) -> Value {
        match message.kind {
            raw::BOOL => Value::Bool(message.natural != 0),
            raw::NAT => Value::Nat(message.natural),
            raw::INT => Value::Int(message.whole),
            raw::BYTES => {
                let (mut bytes, mut written) = (vec![0; message.length], 0);
                // SAFETY: the handle is open and ours alone, and `bytes` has room for its length.
                unsafe { raw::rumpsteak_bytes(&mut self.raw, bytes.as_mut_ptr(), bytes.len(), &mut written) };
                Value::Bytes(bytes)
            }
            raw::LIST => {
                let (mut numbers, mut written) = (vec![0; message.length], 0);
                // SAFETY: as above.
                unsafe { raw::rumpsteak_list(&mut self.raw, numbers.as_mut_ptr(), numbers.len(), &mut written) };
                Value::List(numbers)
            }
            _ => Value::Unit,
        }
    }
}

/// Pending, with the task woken at once.
fn again<T>(context: &mut Context<'_>) -> Poll<T> {
    context.waker().wake_by_ref();
    Poll::Pending
}

/// The pauses of a call that waits.
struct Pause {
    spins: u32,
}

impl Pause {
    fn new() -> Pause {
        Pause { spins: 0 }
    }

    fn wait(&mut self) {
        if self.spins < MOST_SPINS {
            self.spins += 1;
            spin_loop();
        } else {
            yield_now();
        }
    }
}

/// The role is given up wherever it stands.
impl Drop for Endpoint {
    fn drop(&mut self) {
        // SAFETY: the handle is ours alone, and nobody uses it after this.
        unsafe { raw::rumpsteak_leave(&mut self.raw) };
    }
}

impl fmt::Debug for Endpoint {
    fn fmt(&self, f: &mut fmt::Formatter<'_>) -> fmt::Result {
        f.debug_struct("Endpoint").field("role", &self.role()).finish_non_exhaustive()
    }
}

/// Why nothing was sent or received. The role stands as before.
#[derive(Clone, Debug, PartialEq, Eq)]
#[non_exhaustive]
pub enum ActError {
    /// The role's state has no such act: another direction, label or sort, or the role has ended.
    NotNow {
        role: String,
        /// What was tried, such as `send copy(nat)` or `receive`.
        act: String,
        /// What the role may do, as [`State`] prints it.
        state: String,
    },
    /// Nothing has come and nothing will: the endpoint of this peer was dropped.
    Gone { peer: String },
    /// Memory ran out.
    NoMemory,
}

impl fmt::Display for ActError {
    fn fmt(&self, f: &mut fmt::Formatter<'_>) -> fmt::Result {
        match self {
            ActError::NotNow { role, act, state } => write!(f, "{role} can't {act} now: its state is {state}"),
            ActError::Gone { peer } => write!(f, "nothing comes any more: the endpoint of {peer} was dropped"),
            ActError::NoMemory => f.write_str(&text_of_status(raw::NO_MEMORY)),
        }
    }
}

impl Error for ActError {}

/// Why [`Endpoint::try_send`] sent nothing.
#[derive(Clone, Debug, PartialEq, Eq)]
pub enum TrySendError {
    /// The queue is full; this is the value.
    Full(Value),
    /// The act itself failed.
    Act(ActError),
}

impl fmt::Display for TrySendError {
    fn fmt(&self, f: &mut fmt::Formatter<'_>) -> fmt::Result {
        match self {
            TrySendError::Full(_) => f.write_str(&text_of_status(raw::FULL)),
            TrySendError::Act(error) => error.fmt(f),
        }
    }
}

impl Error for TrySendError {}
