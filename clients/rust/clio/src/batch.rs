//! Calls that are made together.
use crate::client::{Client, Range, Word, exchanged};
use crate::driver::Outcome;
use crate::error::{Error, Fault, Refusal};
use crate::key_value::{KeyValue, Op, if_there};
use crate::machine::{AtomicOp, CALL_BYTES, Call};
use std::borrow::Cow;
use std::ops;

/// Calls that are made together by [`Batch::run`]. Two that touch a common page take effect in the order in which they were
/// added, unless both only read; so do two of one object, of which one changes it. The others overlap.
///
/// A batch that is dropped makes no call.
#[must_use = "a batch makes its calls when it is run"]
pub struct Batch<'c, 'd> {
    client: &'c Client,
    calls: Vec<Result<Call<'d>, Fault>>,
    /// The places of those to which a key that isn't there is an answer and no error.
    lookups: Vec<usize>,
}

/// How a ticket's value is made of the outcomes of its calls.
type Value<T> = Box<dyn FnOnce(&mut [Outcome]) -> Result<T, Error>>;

/// What a call of a batch will answer.
pub struct Ticket<T> {
    places: ops::Range<usize>,
    value: Value<T>,
}

impl<'d> Batch<'_, 'd> {
    pub(crate) fn new(client: &Client) -> Batch<'_, 'd> {
        Batch { client, calls: Vec::new(), lookups: Vec::new() }
    }

    /// Reads so many bytes of a range.
    pub fn read(&mut self, range: &Range, offset: u32, len: usize) -> Ticket<Vec<u8>> {
        let first = self.calls.len();
        match range.place(offset, len) {
            Err(fault) => self.calls.push(Err(fault)),
            Ok(addr) => self.calls.extend(
                (0..len)
                    .step_by(CALL_BYTES)
                    .map(|at| Ok(Call::Read { addr: addr + at as u32, len: (len - at).min(CALL_BYTES) as u32 })),
            ),
        }
        self.ticket(first, |outcomes| {
            let mut bytes = Vec::new();
            for outcome in outcomes {
                bytes.append(&mut taken(outcome)?.1);
            }
            Ok(bytes)
        })
    }

    /// Writes bytes to a range.
    pub fn write(&mut self, range: &Range, offset: u32, bytes: &'d [u8]) -> Ticket<()> {
        let first = self.calls.len();
        match range.place(offset, bytes.len()) {
            Err(fault) => self.calls.push(Err(fault)),
            Ok(addr) => self.calls.extend(
                bytes
                    .chunks(CALL_BYTES)
                    .enumerate()
                    .map(|(at, piece)| Ok(Call::Write { addr: addr + (at * CALL_BYTES) as u32, bytes: Cow::Borrowed(piece) })),
            ),
        }
        self.ticket(first, |outcomes| outcomes.iter_mut().try_for_each(|outcome| taken(outcome).map(drop)))
    }

    /// As [`Word::fetch_add`].
    pub fn fetch_add(&mut self, word: &Word, n: u64) -> Ticket<u64> {
        self.change(word, AtomicOp::Add(n), |old| old)
    }

    /// As [`Word::compare_exchange`].
    pub fn compare_exchange(&mut self, word: &Word, current: u64, new: u64) -> Ticket<Result<u64, u64>> {
        self.change(word, AtomicOp::CompareExchange { current, new }, move |old| exchanged(old, current))
    }

    /// As [`KeyValue::put`].
    pub fn put(&mut self, object: &KeyValue, key: &[u8], value: &[u8]) -> Ticket<()> {
        self.add(object.as_call(Op::Put, key, value), |outcome| outcome.map(drop))
    }

    /// As [`KeyValue::get`].
    pub fn get(&mut self, object: &KeyValue, key: &[u8]) -> Ticket<Option<Vec<u8>>> {
        self.lookups.push(self.calls.len());
        self.add(object.as_call(Op::Get, key, &[]), |outcome| if_there(outcome.map(|(_, bytes)| bytes)))
    }

    /// As [`KeyValue::delete`].
    pub fn delete(&mut self, object: &KeyValue, key: &[u8]) -> Ticket<bool> {
        self.lookups.push(self.calls.len());
        self.add(object.as_call(Op::Delete, key, &[]), |outcome| Ok(if_there(outcome)?.is_some()))
    }

    /// As [`Client::offload`].
    pub fn offload(&mut self, object: u8, op: u8, bytes: &'d [u8], room: u32) -> Ticket<Vec<u8>> {
        let call = Call::Offload { object, op, bytes: Cow::Borrowed(bytes), room };
        self.add(call, |outcome| outcome.map(|(_, bytes)| bytes))
    }

    /// What was added before has ended before what is added after is sent.
    pub fn fence(&mut self) -> Ticket<()> {
        self.add(Call::Fence, |outcome| outcome.map(drop))
    }

    /// Makes the calls, and waits until all have ended. If some were not done, the first of these is the error.
    pub fn run(mut self) -> Result<Answers, Error> {
        let lookups = std::mem::take(&mut self.lookups);
        let mut answers = self.run_each()?;
        match answers.first_error(&lookups) {
            Some(error) => Err(error),
            None => Ok(answers),
        }
    }

    /// Makes the calls, and waits until all have ended. Each has its own result; the error is that of the socket.
    pub fn run_each(self) -> Result<Answers, Error> {
        Ok(Answers { outcomes: self.client.driver().borrow_mut().run(&self.calls)? })
    }

    fn change<T>(&mut self, word: &Word, op: AtomicOp, value: impl FnOnce(u64) -> T + 'static) -> Ticket<T> {
        self.add(Call::Atomic { addr: word.addr(), op }, |outcome| outcome.map(|(old, _)| value(old)))
    }

    fn add<T>(&mut self, call: Call<'d>, value: impl FnOnce(Outcome) -> Result<T, Error> + 'static) -> Ticket<T> {
        let first = self.calls.len();
        self.calls.push(Ok(call));
        self.ticket(first, |outcomes| value(taken(&mut outcomes[0])))
    }

    fn ticket<T>(&self, first: usize, value: impl FnOnce(&mut [Outcome]) -> Result<T, Error> + 'static) -> Ticket<T> {
        Ticket { places: first..self.calls.len(), value: Box::new(value) }
    }
}

/// The answers of a batch that was run.
pub struct Answers {
    outcomes: Vec<Outcome>,
}

impl Answers {
    /// The value of a ticket of this batch.
    pub fn take<T>(&mut self, ticket: Ticket<T>) -> Result<T, Error> {
        (ticket.value)(&mut self.outcomes[ticket.places])
    }

    fn first_error(&mut self, lookups: &[usize]) -> Option<Error> {
        self.outcomes.iter_mut().enumerate().find_map(|(place, outcome)| match outcome {
            Err(Error::Refused(Refusal::NoKey)) if lookups.binary_search(&place).is_ok() => None,
            _ => taken_error(outcome),
        })
    }
}

/// Takes an error out of its place, and leaves an outcome that isn't one.
fn taken_error(outcome: &mut Outcome) -> Option<Error> {
    if outcome.is_err() { taken(outcome).err() } else { None }
}

/// Takes an outcome out of its place.
fn taken(outcome: &mut Outcome) -> Outcome {
    std::mem::replace(outcome, Ok((0, Vec::new())))
}
