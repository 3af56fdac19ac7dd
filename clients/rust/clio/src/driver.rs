//! A machine with a socket and a clock.
use crate::error::{Error, Fault};
use crate::machine::{Answer, CALL_BYTES, Call, FRAME_ROOM, Identity, Machine, Poll, first_id};
use std::io::{self, ErrorKind};
use std::net::{Ipv4Addr, Ipv6Addr, SocketAddr, UdpSocket};
use std::time::{Duration, Instant};

/// How a call ended: its number, and its bytes, which only a read or an object has.
pub(crate) type Outcome = Result<(u64, Vec<u8>), Error>;

/// The calls of a batch that are held at once. The library walks over what it holds, so more of them are slower.
const WINDOW: usize = 16;

pub(crate) struct Driver {
    machine: Machine,
    socket: UdpSocket,
    start: Instant,
    tick: Duration,
    frame: [u8; FRAME_ROOM],
    bytes: Box<[u8]>,
}

impl Driver {
    pub fn connect(node: SocketAddr, who: Identity, tick: Duration) -> Result<Driver, Error> {
        let local: SocketAddr = match node {
            SocketAddr::V4(_) => (Ipv4Addr::UNSPECIFIED, 0).into(),
            SocketAddr::V6(_) => (Ipv6Addr::UNSPECIFIED, 0).into(),
        };
        let socket = UdpSocket::bind(local)?;
        socket.connect(node)?;
        socket.set_read_timeout(Some(tick))?;
        Ok(Driver {
            machine: Machine::new(who, first_id())?,
            socket,
            start: Instant::now(),
            tick,
            frame: [0; FRAME_ROOM],
            bytes: vec![0; CALL_BYTES].into(),
        })
    }

    /// Makes one call. Its bytes are the first ones of [`Driver::bytes`].
    pub fn call(&mut self, call: &Call) -> Result<u64, Error> {
        let number = self.issue(call)?;
        loop {
            match self.machine.done(&mut self.bytes) {
                Some(ended) if ended.call == number => return number_of(ended.answer),
                // A call that was left when a socket failed.
                Some(_) => {}
                None => self.turn()?,
            }
        }
    }

    pub fn bytes(&self) -> &[u8] {
        &self.bytes
    }

    /// Makes all calls, many at once, and gives their outcomes in the order of the calls.
    pub fn run(&mut self, calls: &[Result<Call, Fault>]) -> Result<Vec<Outcome>, Error> {
        let mut run = Run::new(calls);
        while !run.is_over() {
            run.issue(&mut self.machine);
            run.take(&mut self.machine, &mut self.bytes);
            if run.has_to_wait(&self.machine) {
                self.turn()?;
            }
        }
        Ok(run.outcomes.into_iter().flatten().collect())
    }

    /// Issues a call. Where calls that nobody waits for take all the room, they are waited for first.
    fn issue(&mut self, call: &Call) -> Result<u32, Error> {
        while self.machine.is_full() {
            while self.machine.done(&mut []).is_some() {}
            self.turn()?;
        }
        Ok(self.machine.issue(call)?)
    }

    /// Sends all that is due, and waits for one datagram, at most a tick. Ends sooner where a poll may have ended a call.
    fn turn(&mut self) -> io::Result<()> {
        let now = self.start.elapsed().as_nanos() as u64 / self.tick.as_nanos() as u64;
        loop {
            match self.machine.poll(now, &mut self.frame) {
                Poll::Send(len) => self.socket.send(&self.frame[..len]).map(drop).or_else(as_lost)?,
                Poll::GaveUp | Poll::FenceEnded => return Ok(()),
                Poll::Idle => break,
            }
        }
        match self.socket.recv(&mut self.frame) {
            Ok(len) => {
                self.machine.hear(&self.frame[..len]);
                Ok(())
            }
            Err(error) => as_lost(error),
        }
    }
}

/// Calls that are under way together.
struct Run<'r, 'd> {
    calls: &'r [Result<Call<'d>, Fault>],
    /// The first call that isn't issued yet.
    next: usize,
    /// The numbers of those that are held, with their places.
    waiting: Vec<(u32, usize)>,
    outcomes: Vec<Option<Outcome>>,
}

impl<'r, 'd> Run<'r, 'd> {
    fn new(calls: &'r [Result<Call<'d>, Fault>]) -> Run<'r, 'd> {
        let outcomes = calls.iter().map(|_| None).collect();
        Run { calls, next: 0, waiting: Vec::with_capacity(WINDOW), outcomes }
    }

    fn is_over(&self) -> bool {
        self.next == self.calls.len() && self.waiting.is_empty()
    }

    fn has_to_wait(&self, machine: &Machine) -> bool {
        let is_all_issued = self.next == self.calls.len();
        if is_all_issued { !self.waiting.is_empty() } else { self.waiting.len() == WINDOW || machine.is_full() }
    }

    fn issue(&mut self, machine: &mut Machine) {
        while self.next < self.calls.len() && self.waiting.len() < WINDOW && !machine.is_full() {
            let judged = self.calls[self.next].as_ref().map_err(|fault| *fault);
            match judged.and_then(|call| machine.issue(call)) {
                Ok(number) => self.waiting.push((number, self.next)),
                Err(fault) => self.outcomes[self.next] = Some(Err(fault.into())),
            }
            self.next += 1;
        }
    }

    /// Takes what ended. A call that was left when a socket failed is nobody's.
    fn take(&mut self, machine: &mut Machine, bytes: &mut [u8]) {
        while let Some(ended) = machine.done(bytes) {
            if let Some(at) = self.waiting.iter().position(|(number, _)| *number == ended.call) {
                let (_, place) = self.waiting.swap_remove(at);
                let outcome = number_of(ended.answer).map(|number| (number, self.bytes_of(place, number, bytes)));
                self.outcomes[place] = Some(outcome);
            }
        }
    }

    fn bytes_of(&self, place: usize, number: u64, bytes: &[u8]) -> Vec<u8> {
        match self.calls[place] {
            Ok(Call::Read { .. } | Call::Offload { .. }) => bytes[..number as usize].to_vec(),
            _ => Vec::new(),
        }
    }
}

/// A datagram that isn't taken or doesn't come counts as lost. So does one to a port that no node has bound yet.
fn as_lost(error: io::Error) -> io::Result<()> {
    match error.kind() {
        ErrorKind::WouldBlock | ErrorKind::TimedOut | ErrorKind::Interrupted | ErrorKind::ConnectionRefused => Ok(()),
        _ => Err(error),
    }
}

fn number_of(answer: Answer) -> Result<u64, Error> {
    match answer {
        Answer::Done(number) => Ok(number),
        Answer::Refused(refusal) => Err(Error::Refused(refusal)),
        Answer::TimedOut { .. } => Err(Error::TimedOut),
    }
}
