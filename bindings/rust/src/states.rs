//! What a role may do next.
use crate::names::{Label, Names, Role};
use crate::raw::{self, ArmOf, Handle, StateOf};
use crate::values::Sort;
use std::fmt;

/// A message that a state may send or receive: its label, and the sort of its value.
#[derive(Clone, Debug, PartialEq, Eq)]
pub struct Arm<'a> {
    pub name: &'a str,
    pub label: Label,
    pub sort: Sort,
}

/// What a role does next.
///
/// It prints as the machines of a text are written: `Sink!{copy(bytes), stop()}` or `Source?{item(nat)}`.
#[derive(Clone, Debug, PartialEq, Eq)]
pub enum State<'a> {
    /// It sends one of these messages to the peer.
    Sends { peer: &'a str, arms: Vec<Arm<'a>> },
    /// It receives one of these messages from the peer.
    Receives { peer: &'a str, arms: Vec<Arm<'a>> },
    /// It has ended.
    Ended,
}

impl State<'_> {
    /// The peer, unless the role has ended.
    pub fn peer(&self) -> Option<&str> {
        match self {
            State::Sends { peer, .. } | State::Receives { peer, .. } => Some(peer),
            State::Ended => None,
        }
    }

    /// The messages that the role may send or receive next.
    pub fn arms(&self) -> &[Arm<'_>] {
        match self {
            State::Sends { arms, .. } | State::Receives { arms, .. } => arms,
            State::Ended => &[],
        }
    }
}

impl fmt::Display for Arm<'_> {
    fn fmt(&self, f: &mut fmt::Formatter<'_>) -> fmt::Result {
        write!(f, "{}({})", self.name, self.sort)
    }
}

impl fmt::Display for State<'_> {
    fn fmt(&self, f: &mut fmt::Formatter<'_>) -> fmt::Result {
        let (peer, mark, arms) = match self {
            State::Sends { peer, arms } => (peer, '!', arms),
            State::Receives { peer, arms } => (peer, '?', arms),
            State::Ended => return f.write_str("end"),
        };
        write!(f, "{peer}{mark}{{")?;
        for (place, arm) in arms.iter().enumerate() {
            write!(f, "{}{arm}", if place == 0 { "" } else { ", " })?;
        }
        f.write_str("}")
    }
}

/// The state behind an open handle, by its calls for the state and an arm.
pub(crate) fn state<'a>(handle: &Handle, names: &'a Names, state: StateOf, arm: ArmOf) -> State<'a> {
    let (mut direction, mut peer, mut count) = (0, 0, 0);
    // SAFETY: the handle is open, and no other call has it (`Handle::place` says why); the places are ours.
    unsafe { state(handle.place(), &mut direction, &mut peer, &mut count) };
    let arms = (0..count)
        .map_while(|place| {
            let (mut label, mut kind) = (0, 0);
            // SAFETY: as above.
            let status = unsafe { arm(handle.place(), place, &mut label, &mut kind) };
            let label = Label(label);
            (status == raw::FINE).then(|| Arm { name: names.label_name(label), label, sort: Sort::of_kind(kind) })
        })
        .collect();
    let peer = names.role_name(Role(peer));
    match direction {
        raw::SENDS => State::Sends { peer, arms },
        raw::RECEIVES => State::Receives { peer, arms },
        _ => State::Ended,
    }
}
