//! Programs keep memory on a clio node: pages, words that change in one step, and key-value objects.
//!
//! ```no_run
//! use clio::{Client, Identity, Perm, TICK};
//!
//! fn main() -> Result<(), clio::Error> {
//!     let client = Client::connect("127.0.0.1:7000", Identity { client: 1, process: 1 }, TICK)?;
//!     let range = client.alloc(16, Perm::ReadWrite)?;
//!     range.write_at(8, b"hello")?;
//!     let old = range.word(0)?.fetch_add(1)?;
//!     let guard = range.word(4096)?.lock()?;
//!     let mut text = [0; 5];
//!     range.read_at(8, &mut text)?;
//!     guard.unlock()?;
//!     println!("{old} {}", String::from_utf8_lossy(&text));
//!     Ok(())
//! }
//! ```
//!
//! A call that is answered was done once, whatever the network lost, repeated or delayed. [`Error::TimedOut`] says that it may
//! have been done. A [`Batch`] makes many calls at once: those that touch a common page keep their order.
//!
//! The [`Machine`] alone does no I/O, for programs that have an event loop of their own. It is proved; this crate, which
//! wraps it, is tested.
//!
//! # What a caller has to keep
//!
//! - One program at a time has a client number. A number may be used again, by a run that begins after the other ended.
//! - The clock of the machine isn't set back from one run of a number to the next: [`first_id`] tells why.
//! - A client's tick is no longer than the node's, and no datagram takes 100 ticks.
//! - The process number is trusted: whoever names it has its memory.
mod batch;
mod client;
mod driver;
mod error;
mod key_value;
mod machine;
mod sys;

pub use batch::{Answers, Batch, Ticket};
pub use client::{Client, Guard, PAGE_BYTES, Range, TICK, Word};
pub use error::{Error, Fault, Refusal};
pub use key_value::KeyValue;
pub use machine::{
    Answer, AtomicOp, CALL_BYTES, Call, Ended, FRAME_ROOM, Heard, Identity, Machine, OBJECT_BYTES, Perm, Poll, first_id,
};
