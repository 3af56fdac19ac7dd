//! The proved client: it is handed calls, moments and frames, and does no I/O.
use crate::error::{Fault, Refusal};
use crate::sys;
use std::borrow::Cow;
use std::ptr;
use std::time::{SystemTime, UNIX_EPOCH};

/// The bytes of a buffer for a frame. No frame is longer.
pub const FRAME_ROOM: usize = 1200;

/// The bytes of a read or a write, at most.
pub const CALL_BYTES: usize = 65_536;

/// The bytes to an object in one call, or from it, at most.
pub const OBJECT_BYTES: usize = 1024;

/// Who calls.
#[derive(Debug, Clone, Copy, PartialEq, Eq)]
pub struct Identity {
    /// The number of the client, which one program at a time may have. Any 16 bits.
    pub client: u16,
    /// The number of the process, whose memory its clients share: 1 to 65,279.
    pub process: u16,
}

/// What a program may do with the pages of a range.
#[derive(Debug, Clone, Copy, PartialEq, Eq)]
pub enum Perm {
    ReadOnly = 1,
    WriteOnly = 2,
    ReadWrite = 3,
}

/// What happens to a word of 8 bytes, little-endian, in one step. The old word is the answer.
#[derive(Debug, Clone, Copy, PartialEq, Eq)]
pub enum AtomicOp {
    /// 0 becomes 1, and any other word stays.
    Lock,
    /// The word becomes 0.
    Unlock,
    /// The sum modulo 2^64.
    Add(u64),
    /// The word becomes `new` if it is `current`.
    CompareExchange { current: u64, new: u64 },
}

/// A call. Addresses are those of the process, below 2^28; a page has 4,096 bytes.
#[derive(Debug, Clone, PartialEq, Eq)]
pub enum Call<'a> {
    /// 1 to 1,024 pages of zeros. The answer is the address of the first byte.
    Alloc { pages: u32, perm: Perm },
    /// The range that starts at `addr` and has so many pages goes.
    Free { addr: u32, pages: u32 },
    /// 1 to [`CALL_BYTES`] bytes. The answer is their number.
    Read { addr: u32, len: u32 },
    /// 1 to [`CALL_BYTES`] bytes.
    Write { addr: u32, bytes: Cow<'a, [u8]> },
    /// A word at a multiple of 8. The answer is the old word.
    Atomic { addr: u32, op: AtomicOp },
    /// An operation of an object, with the bytes to it and the room for those from it. The answer is the number of these.
    Offload { object: u8, op: u8, bytes: Cow<'a, [u8]>, room: u32 },
    /// Later calls wait for all earlier ones.
    Fence,
}

/// What a poll did.
#[derive(Debug, Clone, Copy, PartialEq, Eq)]
pub enum Poll {
    /// Nothing is due until a reply is heard, a call is issued or time goes on.
    Idle,
    /// So many bytes of the buffer are a frame for the node.
    Send(usize),
    /// A part had no answer within 400 ticks.
    GaveUp,
    /// A fence ended.
    FenceEnded,
}

/// What a frame was.
#[derive(Debug, Clone, Copy, PartialEq, Eq)]
pub enum Heard {
    /// A reply, to a call of which more is to come.
    Took,
    /// The last reply to a call, which [`Machine::done`] now hands out.
    Ended,
    /// A reply to a part that isn't in flight any more.
    Late,
    /// A reply that doesn't fit its part.
    Unfit,
    /// A reply to another client.
    Other,
    /// No reply.
    Bad,
}

/// How a call ended.
#[derive(Debug, Clone, Copy, PartialEq, Eq)]
pub enum Answer {
    /// It was done, once. The number is an address, an old word or a number of bytes, as [`Call`] says, or 0.
    Done(u64),
    Refused(Refusal),
    /// It may have been done. It was first sent at this moment, in ticks.
    TimedOut {
        first_sent: u64,
    },
}

/// A call that ended, by the number that [`Machine::issue`] gave.
#[derive(Debug, Clone, Copy, PartialEq, Eq)]
pub struct Ended {
    pub call: u32,
    pub answer: Answer,
}

/// An id above those of all earlier runs: the nanoseconds since 1970.
///
/// A node knows a change by its client's number and an id, and answers one that it knows from its records. A run uses an id for
/// each frame that it sends, far fewer than one a nanosecond, so the ids of a run that begins later are above its own. This
/// rests on a clock that isn't set back between two runs, and on one program at a time for each client number.
pub fn first_id() -> u64 {
    let since = SystemTime::now().duration_since(UNIX_EPOCH).unwrap_or_default();
    u64::try_from(since.as_nanos()).unwrap_or(0)
}

/// The proved client. [`issue`](Machine::issue) calls; [`poll`](Machine::poll) and send what it gives, until it is idle;
/// [`hear`](Machine::hear) what comes back; [`done`](Machine::done) hands out what ended.
///
/// Moments are in ticks, as long as the node's or shorter; one that falls counts as the last.
pub struct Machine(sys::ClientAt);

// SAFETY: a client is an object of the heap that only its `Machine` names, and all changes go through `&mut`.
unsafe impl Send for Machine {}

impl Machine {
    /// A client whose frames have ids from `first` on, which is 1 to 2^63.
    pub fn new(who: Identity, first: u64) -> Result<Machine, Fault> {
        let mut made = sys::ClientAt { at: ptr::null_mut() };
        // SAFETY: `made` has room for the handle.
        match unsafe { sys::clio_create(who.client, who.process, first, &mut made) } {
            0 => Ok(Machine(made)),
            fault => Err(Fault::of(fault)),
        }
    }

    /// Takes a call, and gives its number: 1, 2 and so on.
    pub fn issue(&mut self, call: &Call) -> Result<u32, Fault> {
        let (c, mut number) = (self.0, 0);
        let out = &mut number;
        // SAFETY: the handle is that of `clio_create`, and slices and `out` are valid for the call, also where they are empty.
        let fault = unsafe {
            match call {
                Call::Alloc { pages, perm } => sys::clio_alloc(c, *pages, *perm as u8, out),
                Call::Free { addr, pages } => sys::clio_free_pages(c, *addr, *pages, out),
                Call::Read { addr, len } => sys::clio_read(c, *addr, *len, out),
                Call::Write { addr, bytes } => sys::clio_write(c, *addr, bytes.as_ptr(), bytes.len(), out),
                Call::Atomic { addr, op } => {
                    let (op, a, b) = op.words();
                    sys::clio_atomic(c, *addr, op, a, b, out)
                }
                Call::Offload { object, op, bytes, room } => {
                    sys::clio_offload(c, *object, *op, bytes.as_ptr(), bytes.len(), *room, out)
                }
                Call::Fence => sys::clio_fence(c, out),
            }
        };
        if fault == 0 { Ok(number) } else { Err(Fault::of(fault)) }
    }

    /// Does one thing that is due at `now`.
    pub fn poll(&mut self, now: u64, frame: &mut [u8; FRAME_ROOM]) -> Poll {
        let mut told = sys::Polled::default();
        // SAFETY: as in `issue`.
        unsafe { sys::clio_poll(self.0, now, frame.as_mut_ptr(), frame.len(), &mut told) };
        match told.what {
            1 => Poll::Send(told.len),
            2 => Poll::GaveUp,
            3 => Poll::FenceEnded,
            _ => Poll::Idle,
        }
    }

    /// Takes what came from the node, whatever it is.
    pub fn hear(&mut self, frame: &[u8]) -> Heard {
        // SAFETY: as in `issue`.
        match unsafe { sys::clio_hear(self.0, frame.as_ptr(), frame.len()) } {
            0 => Heard::Took,
            1 => Heard::Ended,
            2 => Heard::Late,
            3 => Heard::Unfit,
            4 => Heard::Other,
            _ => Heard::Bad,
        }
    }

    /// The next call that ended, in the order of ending. The bytes of a read or an object go to `bytes`, as many as fit.
    pub fn done(&mut self, bytes: &mut [u8]) -> Option<Ended> {
        let mut ended = sys::Ended::default();
        // SAFETY: as in `issue`.
        if !unsafe { sys::clio_done(self.0, bytes.as_mut_ptr(), bytes.len(), &mut ended) } {
            return None;
        }
        let answer = match ended.what {
            0 => Answer::Done(ended.value),
            1 => Answer::Refused(Refusal::of(ended.value)),
            _ => Answer::TimedOut { first_sent: ended.value },
        };
        Some(Ended { call: ended.call, answer })
    }

    /// Whether 256 calls are held, so that no other is taken. A call is held until it is handed out.
    pub fn is_full(&self) -> bool {
        // SAFETY: as in `issue`.
        unsafe { sys::clio_is_full(self.0) }
    }

    /// Whether no call is held.
    pub fn is_empty(&self) -> bool {
        // SAFETY: as in `issue`.
        unsafe { sys::clio_is_empty(self.0) }
    }
}

impl Drop for Machine {
    fn drop(&mut self) {
        // SAFETY: nothing names the handle any more.
        unsafe { sys::clio_free(self.0) }
    }
}

impl AtomicOp {
    fn words(self) -> (u8, u64, u64) {
        match self {
            AtomicOp::Lock => (1, 0, 0),
            AtomicOp::Unlock => (2, 0, 0),
            AtomicOp::Add(n) => (3, n, 0),
            AtomicOp::CompareExchange { current, new } => (4, current, new),
        }
    }
}
