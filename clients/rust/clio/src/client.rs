//! A blocking client: each call waits for its answer.
use crate::batch::Batch;
use crate::driver::Driver;
use crate::error::{Error, Fault};
use crate::key_value::KeyValue;
use crate::machine::{AtomicOp, CALL_BYTES, Call, Identity, Perm};
use std::borrow::Cow;
use std::cell::RefCell;
use std::io::{self, ErrorKind};
use std::net::ToSocketAddrs;
use std::thread;
use std::time::Duration;

/// The bytes of a page.
pub const PAGE_BYTES: u32 = 4096;

/// The tick of `clio node`. A client's tick is as long as its node's, or shorter: then it gives up sooner.
pub const TICK: Duration = Duration::from_millis(10);

/// The bytes of a word.
pub(crate) const WORD_BYTES: u32 = 8;

/// The first and the longest wait for a lock that another has.
const LOCK_WAITS: (Duration, Duration) = (Duration::from_micros(100), Duration::from_millis(10));

/// A client with a socket and a clock. Each call waits for its answer, for 400 ticks or a little more.
///
/// A client works in one thread at a time. Its ranges, words and objects borrow it.
pub struct Client {
    driver: RefCell<Driver>,
}

impl Client {
    /// A client of the node at this address. Nothing is sent: an absent node shows as calls that time out.
    ///
    /// One program at a time may have a client number, and [`first_id`](crate::first_id) says what the clock has to keep.
    pub fn connect(node: impl ToSocketAddrs, who: Identity, tick: Duration) -> Result<Client, Error> {
        let mut found = node.to_socket_addrs()?;
        let node = found.next().ok_or_else(|| io::Error::from(ErrorKind::AddrNotAvailable))?;
        Ok(Client { driver: RefCell::new(Driver::connect(node, who, tick)?) })
    }

    /// Takes 1 to 1,024 pages of zeros for the process. They stay until they are freed, also when the client ends.
    pub fn alloc(&self, pages: u32, perm: Perm) -> Result<Range<'_>, Error> {
        let addr = self.call(&Call::Alloc { pages, perm })?;
        Ok(self.range(addr as u32, pages))
    }

    /// A range that a client of this process allocated: the address of its first byte, and its pages.
    pub fn range(&self, addr: u32, pages: u32) -> Range<'_> {
        Range { client: self, addr, pages }
    }

    /// The key-value object of this number at the node.
    pub fn key_value(&self, object: u8) -> KeyValue<'_> {
        KeyValue::new(self, object)
    }

    /// Calls an operation of an object with at most 1,024 bytes, and gives its answer, which has `room` bytes at most.
    pub fn offload(&self, object: u8, op: u8, bytes: &[u8], room: u32) -> Result<Vec<u8>, Error> {
        let call = Call::Offload { object, op, bytes: bytes.into(), room };
        let mut driver = self.driver.borrow_mut();
        let len = driver.call(&call)?;
        Ok(driver.bytes()[..len as usize].to_vec())
    }

    /// Waits until no earlier call is under way. That is so already, except after an [`Error::Io`].
    pub fn fence(&self) -> Result<(), Error> {
        self.call(&Call::Fence).map(drop)
    }

    /// Calls that are made together.
    pub fn batch<'d>(&self) -> Batch<'_, 'd> {
        Batch::new(self)
    }

    pub(crate) fn driver(&self) -> &RefCell<Driver> {
        &self.driver
    }

    fn call(&self, call: &Call) -> Result<u64, Error> {
        self.driver.borrow_mut().call(call)
    }
}

/// Pages of the node that follow one another. Dropping a range leaves them: [`Range::free`] gives them back.
#[derive(Clone)]
pub struct Range<'c> {
    client: &'c Client,
    addr: u32,
    pages: u32,
}

impl<'c> Range<'c> {
    /// The address of the first byte, by which other clients of the process find the range.
    pub fn addr(&self) -> u32 {
        self.addr
    }

    /// How many pages there are.
    pub fn pages(&self) -> u32 {
        self.pages
    }

    /// Fills `bytes` from this offset on. Reads of more than 1,024 bytes, or over the end of a page, are no single step.
    pub fn read_at(&self, offset: u32, bytes: &mut [u8]) -> Result<(), Error> {
        let addr = self.place(offset, bytes.len())?;
        if bytes.len() > CALL_BYTES {
            let mut batch = self.client.batch();
            let ticket = batch.read(self, offset, bytes.len());
            bytes.copy_from_slice(&batch.run()?.take(ticket)?);
        } else if !bytes.is_empty() {
            let mut driver = self.client.driver.borrow_mut();
            driver.call(&Call::Read { addr, len: bytes.len() as u32 })?;
            bytes.copy_from_slice(&driver.bytes()[..bytes.len()]);
        }
        Ok(())
    }

    /// Writes `bytes` from this offset on. Writes of more than 1,024 bytes, or over the end of a page, are no single step.
    pub fn write_at(&self, offset: u32, bytes: &[u8]) -> Result<(), Error> {
        let addr = self.place(offset, bytes.len())?;
        if bytes.len() > CALL_BYTES {
            let mut batch = self.client.batch();
            batch.write(self, offset, bytes);
            batch.run()?;
        } else if !bytes.is_empty() {
            self.client.call(&Call::Write { addr, bytes: Cow::Borrowed(bytes) })?;
        }
        Ok(())
    }

    /// The word of 8 bytes at this offset, a multiple of 8.
    pub fn word(&self, offset: u32) -> Result<Word<'c>, Error> {
        let addr = self.place(offset, WORD_BYTES as usize)?;
        if !addr.is_multiple_of(WORD_BYTES) {
            return Err(Fault::Misaligned.into());
        }
        Ok(Word { client: self.client, addr })
    }

    /// Gives the pages back. Whoever names them later is refused, or meets what was allocated there since.
    pub fn free(self) -> Result<(), Error> {
        self.client.call(&Call::Free { addr: self.addr, pages: self.pages }).map(drop)
    }

    /// The address of so many bytes of the range.
    pub(crate) fn place(&self, offset: u32, len: usize) -> Result<u32, Fault> {
        let end = u64::from(offset).saturating_add(len as u64);
        if end > u64::from(self.pages) * u64::from(PAGE_BYTES) {
            return Err(Fault::OutOfRange);
        }
        self.addr.checked_add(offset).ok_or(Fault::BadAddress)
    }
}

/// A word of 8 bytes at the node, little-endian. What is done to it is one step, once.
#[derive(Clone, Copy)]
pub struct Word<'c> {
    client: &'c Client,
    addr: u32,
}

impl<'c> Word<'c> {
    pub(crate) fn addr(&self) -> u32 {
        self.addr
    }

    /// The word.
    pub fn load(&self) -> Result<u64, Error> {
        let mut driver = self.client.driver.borrow_mut();
        driver.call(&Call::Read { addr: self.addr, len: WORD_BYTES })?;
        let bytes = &driver.bytes()[..WORD_BYTES as usize];
        Ok(bytes.iter().rev().fold(0, |word, byte| word << 8 | u64::from(*byte)))
    }

    /// Puts a word in its place.
    pub fn store(&self, word: u64) -> Result<(), Error> {
        self.client.call(&Call::Write { addr: self.addr, bytes: Cow::Borrowed(&word.to_le_bytes()) }).map(drop)
    }

    /// Adds modulo 2^64, and gives the word before.
    pub fn fetch_add(&self, n: u64) -> Result<u64, Error> {
        self.change(AtomicOp::Add(n))
    }

    /// Puts `new` where the word is `current`. The word before is in `Ok` where it was put, in `Err` where it was not.
    pub fn compare_exchange(&self, current: u64, new: u64) -> Result<Result<u64, u64>, Error> {
        self.change(AtomicOp::CompareExchange { current, new }).map(|old| exchanged(old, current))
    }

    /// Locks the word, which is 0 where nobody has it. Waits as long as another does: reads cost the node no record.
    ///
    /// [`Error::TimedOut`] leaves open whether the word was locked.
    pub fn lock(&self) -> Result<Guard<'c>, Error> {
        let (mut wait, longest) = LOCK_WAITS;
        loop {
            if let Some(guard) = self.try_lock()? {
                return Ok(guard);
            }
            while self.load()? != 0 {
                thread::sleep(wait);
                wait = (2 * wait).min(longest);
            }
        }
    }

    /// Locks the word if nobody has it.
    pub fn try_lock(&self) -> Result<Option<Guard<'c>>, Error> {
        let old = self.change(AtomicOp::Lock)?;
        // A guard that is made is also dropped, and unlocks: so there is none where another has the lock.
        Ok((old == 0).then(|| Guard { word: *self, is_locked: true }))
    }

    fn change(&self, op: AtomicOp) -> Result<u64, Error> {
        self.client.call(&Call::Atomic { addr: self.addr, op })
    }
}

/// Whether a word was exchanged, by what it was before.
pub(crate) fn exchanged(old: u64, current: u64) -> Result<u64, u64> {
    if old == current { Ok(old) } else { Err(old) }
}

/// A lock that is held. Dropping it unlocks the word, and tells no error: [`Guard::unlock`] does.
#[must_use = "the word is unlocked when its guard is dropped"]
pub struct Guard<'c> {
    word: Word<'c>,
    is_locked: bool,
}

impl Guard<'_> {
    /// Unlocks the word. Where this fails the word may still be locked.
    pub fn unlock(mut self) -> Result<(), Error> {
        self.is_locked = false;
        self.word.change(AtomicOp::Unlock).map(drop)
    }
}

impl Drop for Guard<'_> {
    fn drop(&mut self) {
        if self.is_locked {
            let _ = self.word.change(AtomicOp::Unlock);
        }
    }
}
