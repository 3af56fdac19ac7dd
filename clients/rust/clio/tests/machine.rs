//! The machine without a socket: the frames are the worked ones of docs/FORMATS.md.
use clio::{Answer, AtomicOp, Call, FRAME_ROOM, Fault, Heard, Identity, Machine, Perm, Poll, Refusal};
use std::borrow::Cow;

const WHO: Identity = Identity { client: 1, process: 1 };
const ALLOC: &str = "434c010100010001000000000000000100000000000000010003000103";
const ITS_REPLY: &str = "434c01810001000100000000000000010000000000000001000500\
                         00001000";

fn bytes(hex: &str) -> Vec<u8> {
    (0..hex.len()).step_by(2).map(|at| u8::from_str_radix(&hex[at..at + 2], 16).unwrap()).collect()
}

fn machine() -> Machine {
    Machine::new(WHO, 1).unwrap()
}

/// What a poll sends.
fn sent(machine: &mut Machine, now: u64) -> Option<Vec<u8>> {
    let mut frame = [0; FRAME_ROOM];
    match machine.poll(now, &mut frame) {
        Poll::Send(len) => Some(frame[..len].to_vec()),
        _ => None,
    }
}

/// The reply with this body to a request.
fn reply(request: &[u8], body: &[u8]) -> Vec<u8> {
    let mut frame = request[..24].to_vec();
    frame[3] += 128;
    frame.extend((body.len() as u16).to_be_bytes());
    frame.extend(body);
    frame
}

#[test]
fn an_alloc_and_its_reply() {
    let mut machine = machine();
    assert!(machine.is_empty());
    assert_eq!(machine.issue(&Call::Alloc { pages: 1, perm: Perm::ReadWrite }), Ok(1));
    assert_eq!(sent(&mut machine, 0), Some(bytes(ALLOC)));
    assert_eq!(sent(&mut machine, 0), None);
    assert_eq!(machine.done(&mut []), None);
    assert_eq!(machine.hear(b"no frame"), Heard::Bad);
    assert_eq!(machine.hear(&bytes(ITS_REPLY)), Heard::Ended);
    assert_eq!(machine.hear(&bytes(ITS_REPLY)), Heard::Late);
    let ended = machine.done(&mut []).unwrap();
    assert_eq!((ended.call, ended.answer), (1, Answer::Done(0x1000)));
    assert!(machine.is_empty());
}

#[test]
fn ids_begin_where_they_are_told() {
    for first in [1, 0x1234_5678_9abc_def0, 1 << 63] {
        let mut machine = Machine::new(WHO, first).unwrap();
        machine.issue(&Call::Atomic { addr: 0x1000, op: AtomicOp::Lock }).unwrap();
        assert_eq!(sent(&mut machine, 0).unwrap()[8..16], first.to_be_bytes());
        assert_eq!(sent(&mut machine, 100).unwrap()[8..16], (first + 1).to_be_bytes());
    }
    assert_eq!(Machine::new(WHO, 0).err(), Some(Fault::BadArgument));
    assert_eq!(Machine::new(WHO, (1 << 63) + 1).err(), Some(Fault::BadArgument));
    assert_eq!(Machine::new(Identity { client: 1, process: 0 }, 1).err(), Some(Fault::BadArgument));
}

#[test]
fn clients_may_go_to_other_threads() {
    fn goes<T: Send>() {}
    goes::<Machine>();
    goes::<clio::Client>();
}

#[test]
fn the_clock_gives_a_first_id_that_rises() {
    let earlier = clio::first_id();
    assert!((1..=1 << 63).contains(&earlier));
    std::thread::sleep(std::time::Duration::from_millis(2));
    assert!(clio::first_id() > earlier + 1_000_000);
}

#[test]
fn dependent_calls_wait() {
    let mut machine = machine();
    machine.issue(&Call::Write { addr: 0x1000, bytes: Cow::Borrowed(b"abc") }).unwrap();
    machine.issue(&Call::Read { addr: 0x1000, len: 3 }).unwrap();
    machine.issue(&Call::Read { addr: 0x2000, len: 3 }).unwrap();
    let write = sent(&mut machine, 0).unwrap();
    let other = sent(&mut machine, 0).unwrap();
    assert_eq!((write[3], other[3], &other[26..30]), (4, 3, &[0, 0, 0x20, 0][..]));
    assert_eq!(sent(&mut machine, 0), None);
    assert_eq!(machine.hear(&reply(&write, &[0])), Heard::Ended);
    let read = sent(&mut machine, 0).unwrap();
    assert_eq!(machine.hear(&reply(&read, b"\0abcd")), Heard::Unfit);
    assert_eq!(machine.hear(&reply(&read, b"\0abc")), Heard::Ended);
    let mut got = [9; 4];
    assert_eq!(machine.done(&mut got).unwrap().call, 1);
    assert_eq!(machine.done(&mut got).unwrap().answer, Answer::Done(3));
    assert_eq!(&got, b"abc\x09");
}

#[test]
fn a_call_is_refused_or_times_out() {
    let mut machine = machine();
    machine.issue(&Call::Free { addr: 0x1000, pages: 1 }).unwrap();
    let free = sent(&mut machine, 7).unwrap();
    machine.hear(&reply(&free, &[1]));
    assert_eq!(machine.done(&mut []).unwrap().answer, Answer::Refused(Refusal::NoMapping));

    machine.issue(&Call::Offload { object: 0, op: 4, bytes: Cow::Borrowed(b""), room: 4 }).unwrap();
    assert!(sent(&mut machine, 8).is_some());
    for age in [100, 200, 300] {
        assert!(sent(&mut machine, 8 + age).is_some());
        assert!(sent(&mut machine, 8 + age).is_none());
    }
    let mut frame = [0; FRAME_ROOM];
    assert_eq!(machine.poll(407, &mut frame), Poll::Idle);
    assert_eq!(machine.poll(408, &mut frame), Poll::GaveUp);
    assert_eq!(machine.done(&mut []).unwrap().answer, Answer::TimedOut { first_sent: 8 });
    machine.issue(&Call::Fence).unwrap();
    assert_eq!(machine.poll(408, &mut frame), Poll::FenceEnded);
    assert_eq!(machine.done(&mut []).unwrap().answer, Answer::Done(0));
}

#[test]
fn faults_of_calls() {
    let mut machine = machine();
    let long = vec![0; 65_537];
    for (call, fault) in [
        (Call::Read { addr: 0x1000, len: 0 }, Fault::Empty),
        (Call::Write { addr: 0x1000, bytes: Cow::Borrowed(&[]) }, Fault::Empty),
        (Call::Write { addr: 0x1000, bytes: Cow::Borrowed(&long) }, Fault::TooLong),
        (Call::Read { addr: 0x1000, len: u32::MAX }, Fault::TooLong),
        (Call::Alloc { pages: 1025, perm: Perm::ReadOnly }, Fault::TooLong),
        (Call::Offload { object: 0, op: 1, bytes: Cow::Borrowed(&long[..1025]), room: 0 }, Fault::TooLong),
        (Call::Read { addr: 0x0fff_ffff, len: 2 }, Fault::BadAddress),
        (Call::Atomic { addr: 0x1004, op: AtomicOp::Unlock }, Fault::Misaligned),
        (Call::Free { addr: 0x1004, pages: 1 }, Fault::Misaligned),
    ] {
        assert_eq!(machine.issue(&call), Err(fault), "{call:?}");
    }
    for number in 1..=256 {
        assert!(!machine.is_full());
        assert_eq!(machine.issue(&Call::Fence), Ok(number));
    }
    assert!(machine.is_full());
    assert_eq!(machine.issue(&Call::Fence), Err(Fault::QueueFull));
}
