//! What the C header declares.
use std::cell::UnsafeCell;
use std::ffi::c_void;
use std::ptr::null_mut;

/// A handle: null, or what a call of the library opened.
///
/// Each call may write to its handle, also one that only reads what is open: it takes that out, and puts it back before it returns.
/// The pointer is in an `UnsafeCell`, so that such a call can be made through a shared reference.
#[repr(C)]
pub struct Handle {
    at: UnsafeCell<*mut c_void>,
}

impl Handle {
    pub const fn closed() -> Handle {
        Handle { at: UnsafeCell::new(null_mut()) }
    }

    /// The handle's place, for a call that reads what is open.
    ///
    /// Such a call may be made through a shared reference, since a handle isn't `Sync`, nor is a type that has one: all its references are
    /// of one thread. A call of the library doesn't call the program back, so one call on the handle ends before the next begins. And
    /// nothing here ever makes a reference to what is in the cell, or keeps a pointer to what is open.
    #[inline]
    pub fn place(&self) -> *mut Handle {
        (self as *const Handle).cast_mut()
    }
}

#[repr(C)]
#[derive(Default)]
pub struct Message {
    pub label: u32,
    pub kind: u32,
    pub natural: u64,
    pub whole: i64,
    pub length: usize,
}

pub const FINE: u32 = 0;
pub const NO_MEMORY: u32 = 8;
pub const TOO_SMALL: u32 = 17;
pub const FULL: u32 = 19;
pub const EMPTY: u32 = 20;
pub const UNKNOWN: u32 = 22;
pub const HANDED_OUT: u32 = 23;
pub const GONE: u32 = 24;
pub const ANOTHER_PEER: u32 = 32;
pub const STATE_RECEIVES: u32 = 33;
pub const STATE_SENDS: u32 = 34;
pub const NO_SUCH_LABEL: u32 = 35;
pub const ANOTHER_SORT: u32 = 36;
pub const HAS_ENDED: u32 = 37;

pub const UNIT: u32 = 0;
pub const BOOL: u32 = 1;
pub const NAT: u32 = 2;
pub const INT: u32 = 3;
pub const BYTES: u32 = 4;
pub const LIST: u32 = 5;

pub const SENDS: u32 = 1;
pub const RECEIVES: u32 = 2;

/// A call that writes the name with a number.
pub type NameOf = unsafe extern "C" fn(*mut Handle, u32, *mut u8, usize, *mut usize) -> u32;

/// A call that tells the direction, the peer and the number of arms of a state.
pub type StateOf = unsafe extern "C" fn(*mut Handle, *mut u32, *mut u32, *mut u32) -> u32;

/// A call that tells the label and the kind of an arm.
pub type ArmOf = unsafe extern "C" fn(*mut Handle, u32, *mut u32, *mut u32) -> u32;

extern "C" {
    pub fn rumpsteak_version() -> u32;
    pub fn rumpsteak_status_text(status: u32, out: *mut u8, out_len: usize, written: *mut usize) -> u32;

    pub fn rumpsteak_ask(words: *const u8, words_len: usize, text: *const u8, text_len: usize, answer: *mut Handle) -> u32;
    pub fn rumpsteak_text(text: *mut Handle, out: *mut u8, out_len: usize, written: *mut usize) -> u32;
    pub fn rumpsteak_text_close(text: *mut Handle) -> u32;

    pub fn rumpsteak_open(text: *const u8, text_len: usize, capacity: u16, session: *mut Handle, refusal: *mut Handle) -> u32;
    pub fn rumpsteak_room(session: *mut Handle, room: *mut u64) -> u32;
    pub fn rumpsteak_role_name(session: *mut Handle, role: u32, out: *mut u8, out_len: usize, written: *mut usize) -> u32;
    pub fn rumpsteak_label_name(session: *mut Handle, label: u32, out: *mut u8, out_len: usize, written: *mut usize) -> u32;
    pub fn rumpsteak_endpoint_of(session: *mut Handle, role: u32, endpoint: *mut Handle) -> u32;
    pub fn rumpsteak_close(session: *mut Handle) -> u32;

    pub fn rumpsteak_state(endpoint: *mut Handle, direction: *mut u32, peer: *mut u32, arms: *mut u32) -> u32;
    pub fn rumpsteak_arm(endpoint: *mut Handle, place: u32, label: *mut u32, kind: *mut u32) -> u32;
    pub fn rumpsteak_send_unit(endpoint: *mut Handle, label: u32) -> u32;
    pub fn rumpsteak_send_bool(endpoint: *mut Handle, label: u32, value: bool) -> u32;
    pub fn rumpsteak_send_nat(endpoint: *mut Handle, label: u32, value: u64) -> u32;
    pub fn rumpsteak_send_int(endpoint: *mut Handle, label: u32, value: i64) -> u32;
    pub fn rumpsteak_send_bytes(endpoint: *mut Handle, label: u32, value: *const u8, value_len: usize) -> u32;
    pub fn rumpsteak_send_list(endpoint: *mut Handle, label: u32, value: *const i64, value_len: usize) -> u32;
    pub fn rumpsteak_receive(endpoint: *mut Handle, message: *mut Message) -> u32;
    pub fn rumpsteak_bytes(endpoint: *mut Handle, out: *mut u8, out_len: usize, written: *mut usize) -> u32;
    pub fn rumpsteak_list(endpoint: *mut Handle, out: *mut i64, out_len: usize, written: *mut usize) -> u32;
    pub fn rumpsteak_leave(endpoint: *mut Handle) -> u32;

    pub fn rumpsteak_monitor_open(
        text: *const u8,
        text_len: usize,
        role: *const u8,
        role_len: usize,
        monitor: *mut Handle,
        refusal: *mut Handle,
    ) -> u32;
    pub fn rumpsteak_monitor_room(monitor: *mut Handle, room: *mut u64) -> u32;
    pub fn rumpsteak_monitor_role_name(monitor: *mut Handle, role: u32, out: *mut u8, out_len: usize, written: *mut usize) -> u32;
    pub fn rumpsteak_monitor_label_name(monitor: *mut Handle, label: u32, out: *mut u8, out_len: usize, written: *mut usize) -> u32;
    pub fn rumpsteak_monitor_state(monitor: *mut Handle, direction: *mut u32, peer: *mut u32, arms: *mut u32) -> u32;
    pub fn rumpsteak_monitor_arm(monitor: *mut Handle, place: u32, label: *mut u32, kind: *mut u32) -> u32;
    pub fn rumpsteak_monitor_may_send(monitor: *mut Handle, peer: u32, label: u32, kind: u32, natural: u64) -> u32;
    pub fn rumpsteak_monitor_sent(monitor: *mut Handle, peer: u32, label: u32, kind: u32, natural: u64) -> u32;
    pub fn rumpsteak_monitor_received(monitor: *mut Handle, peer: u32, label: u32, kind: u32, natural: u64) -> u32;
    pub fn rumpsteak_monitor_acts(monitor: *mut Handle, acts: *mut u64) -> u32;
    pub fn rumpsteak_monitor_close(monitor: *mut Handle) -> u32;
}
