//! The client at a node. `CLIO_NODE` names its address, and `CLIO_OBJECTS` that of a node with a key-value object of 3 records;
//! without them nothing is tested here. Each test has a client number and a process of its own.
use clio::{Client, Error, Fault, Identity, Perm, Refusal, TICK};

/// A client of the node that a variable names, if it names one.
fn client(variable: &str, number: u16) -> Option<Client> {
    let Ok(node) = std::env::var(variable) else {
        println!("{variable} names no node: nothing is tested");
        return None;
    };
    Some(Client::connect(node, Identity { client: number, process: number }, TICK).unwrap())
}

fn pattern(len: usize) -> Vec<u8> {
    (0..len).map(|at| (at * 31 / 8) as u8).collect()
}

#[test]
fn bytes_of_any_length() {
    let Some(client) = client("CLIO_NODE", 201) else { return };
    let range = client.alloc(40, Perm::ReadWrite).unwrap();
    for (offset, len) in [(0, 0), (0, 1), (4095, 2), (17, 1024), (1, 65_536), (5, 150_000), (163_840, 0)] {
        let data = pattern(len);
        range.write_at(offset, &data).unwrap();
        let mut back = vec![0; len];
        range.read_at(offset, &mut back).unwrap();
        assert!(back == data, "{len} bytes at {offset}");
    }
    for (offset, len) in [(163_840, 1), (163_839, 2), (u32::MAX, 1), (0, 163_841)] {
        let mut bytes = vec![0; len];
        assert!(matches!(range.read_at(offset, &mut bytes), Err(Error::NotIssued(Fault::OutOfRange))));
        assert!(matches!(range.write_at(offset, &bytes), Err(Error::NotIssued(Fault::OutOfRange))));
    }
    range.free().unwrap();
}

#[test]
fn words() {
    let Some(client) = client("CLIO_NODE", 202) else { return };
    let range = client.alloc(1, Perm::ReadWrite).unwrap();
    let word = range.word(8).unwrap();
    assert_eq!((word.fetch_add(5).unwrap(), word.fetch_add(u64::MAX).unwrap(), word.load().unwrap()), (0, 5, 4));
    assert_eq!(word.compare_exchange(4, 0x0102_0304_0506_0708).unwrap(), Ok(4));
    assert_eq!(word.compare_exchange(4, 1).unwrap(), Err(0x0102_0304_0506_0708));
    let mut bytes = [0; 8];
    range.read_at(8, &mut bytes).unwrap();
    assert_eq!(bytes, [8, 7, 6, 5, 4, 3, 2, 1]);
    word.store(3).unwrap();
    assert_eq!(word.load().unwrap(), 3);
    assert!(matches!(range.word(4), Err(Error::NotIssued(Fault::Misaligned))));
    assert!(matches!(range.word(4096), Err(Error::NotIssued(Fault::OutOfRange))));
}

#[test]
fn locks() {
    let Some(client) = client("CLIO_NODE", 203) else { return };
    let range = client.alloc(1, Perm::ReadWrite).unwrap();
    let word = range.word(0).unwrap();
    let guard = word.lock().unwrap();
    assert!(word.try_lock().unwrap().is_none());
    assert_eq!(word.load().unwrap(), 1);
    guard.unlock().unwrap();
    let dropped = word.try_lock().unwrap();
    assert!(dropped.is_some());
    drop(dropped);
    assert_eq!(word.load().unwrap(), 0);
}

#[test]
fn refusals() {
    let Some(client) = client("CLIO_NODE", 204) else { return };
    let range = client.alloc(2, Perm::ReadOnly).unwrap();
    assert!(matches!(range.write_at(0, b"x"), Err(Error::Refused(Refusal::NoPermission))));
    let gone = range.clone();
    range.free().unwrap();
    assert!(matches!(gone.read_at(0, &mut [0]), Err(Error::Refused(Refusal::NoMapping))));
    assert!(matches!(gone.free(), Err(Error::Refused(Refusal::NoMapping))));
    assert!(matches!(client.alloc(0, Perm::ReadWrite), Err(Error::NotIssued(Fault::Empty))));
    assert!(matches!(client.key_value(99).count(), Err(Error::Refused(Refusal::NoOffload))));
    client.fence().unwrap();
}

#[test]
fn a_batch_keeps_the_order_of_calls_that_meet() {
    let Some(client) = client("CLIO_NODE", 205) else { return };
    let range = client.alloc(64, Perm::ReadWrite).unwrap();
    let data = pattern(200_000);
    let mut batch = client.batch();
    let mut tickets = Vec::new();
    for round in 0..300u32 {
        let word = range.word(round % 3 * 4096).unwrap();
        tickets.push((u64::from(round / 3), batch.fetch_add(&word, 1)));
    }
    let first = batch.read(&range, 0, 8);
    batch.fence();
    batch.write(&range, 0, &data);
    let middle = batch.read(&range, 66_000, 70_000);
    let exchanged = batch.compare_exchange(&range.word(204_800).unwrap(), 0, 9);
    let kept = batch.compare_exchange(&range.word(204_800).unwrap(), 0, 10);
    let mut answers = batch.run().unwrap();
    for (old, ticket) in tickets {
        assert_eq!(answers.take(ticket).unwrap(), old);
    }
    assert_eq!(answers.take(first).unwrap(), 100u64.to_le_bytes());
    assert!(answers.take(middle).unwrap() == data[66_000..136_000]);
    assert_eq!((answers.take(exchanged).unwrap(), answers.take(kept).unwrap()), (Ok(0), Err(9)));
}

#[test]
fn a_batch_tells_the_first_error_and_each() {
    let Some(client) = client("CLIO_NODE", 206) else { return };
    let range = client.alloc(1, Perm::ReadWrite).unwrap();
    let absent = client.range(range.addr() + 0x10_0000, 1);
    assert!(client.batch().run().is_ok());
    let mut batch = client.batch();
    let written = batch.write(&range, 0, b"kept");
    let refused = batch.read(&absent, 0, 1);
    let outside = batch.read(&range, 4096, 1);
    let mut answers = batch.run_each().unwrap();
    assert!(answers.take(written).is_ok());
    assert!(matches!(answers.take(refused), Err(Error::Refused(Refusal::NoMapping))));
    assert!(matches!(answers.take(outside), Err(Error::NotIssued(Fault::OutOfRange))));
    let mut batch = client.batch();
    batch.write(&range, 4, b"too");
    batch.read(&absent, 0, 1);
    batch.read(&range, 4096, 1);
    assert!(matches!(batch.run(), Err(Error::Refused(Refusal::NoMapping))));
    let mut bytes = [0; 7];
    range.read_at(0, &mut bytes).unwrap();
    assert_eq!(&bytes, b"kepttoo");
    let mut dropped = client.batch();
    dropped.write(&range, 0, b"lost");
    drop(dropped);
    range.read_at(0, &mut bytes).unwrap();
    assert_eq!(&bytes, b"kepttoo");
}

#[test]
fn a_later_run_under_the_same_number() {
    let mut addresses = Vec::new();
    for run in 0..3 {
        let Some(client) = client("CLIO_NODE", 207) else { return };
        let range = client.alloc(1, Perm::ReadWrite).unwrap();
        assert!(!addresses.contains(&range.addr()));
        addresses.push(range.addr());
        assert_eq!(client.range(addresses[0], 1).word(0).unwrap().fetch_add(1).unwrap(), run);
    }
}

#[test]
fn a_key_value_object() {
    let Some(client) = client("CLIO_OBJECTS", 208) else { return };
    let object = client.key_value(0);
    assert_eq!((object.count().unwrap(), object.get(b"a").unwrap()), (0, None));
    for key in [b"a", b"b", b"c"] {
        object.put(key, &key.repeat(256)).unwrap();
    }
    object.put(b"a", b"").unwrap();
    assert!(matches!(object.put(b"d", b"1"), Err(Error::Refused(Refusal::ObjectFull))));
    for (key, value) in [(vec![], vec![]), (vec![1; 33], vec![]), (vec![1; 256], vec![]), (vec![1], vec![0; 257])] {
        assert!(matches!(object.put(&key, &value), Err(Error::Refused(Refusal::BadOp))), "{key:?}");
    }
    assert!(matches!(object.put(&[1], &[0; 1023]), Err(Error::NotIssued(Fault::TooLong))));
    let mut batch = client.batch();
    let (a, b) = (batch.get(&object, b"a"), batch.get(&object, b"b"));
    let (gone, absent) = (batch.delete(&object, b"b"), batch.delete(&object, b"b"));
    batch.put(&object, b"d", b"new");
    let (none, d) = (batch.get(&object, b"b"), batch.get(&object, b"d"));
    let raw = batch.offload(0, 4, b"", 4);
    let mut answers = batch.run().unwrap();
    assert_eq!(answers.take(a).unwrap(), Some(vec![]));
    assert_eq!(answers.take(b).unwrap(), Some(vec![b'b'; 256]));
    assert_eq!((answers.take(gone).unwrap(), answers.take(absent).unwrap()), (true, false));
    assert_eq!((answers.take(none).unwrap(), answers.take(d).unwrap()), (None, Some(b"new".to_vec())));
    assert_eq!(answers.take(raw).unwrap(), [0, 0, 0, 3]);
    for key in [b"a", b"c", b"d"] {
        assert!(object.delete(key).unwrap());
    }
    assert_eq!(object.count().unwrap(), 0);
}

#[test]
fn an_absent_node_is_a_call_that_times_out() {
    // A socket that never answers, and ticks of a millisecond, so that 400 of them pass soon.
    let mute = std::net::UdpSocket::bind("127.0.0.1:0").unwrap();
    let who = Identity { client: 1, process: 1 };
    let tick = std::time::Duration::from_millis(1);
    let client = Client::connect(mute.local_addr().unwrap(), who, tick).unwrap();
    assert!(matches!(client.alloc(1, Perm::ReadWrite), Err(Error::TimedOut)));
    let node = mute.local_addr().unwrap();
    drop(mute);
    let client = Client::connect(node, who, tick).unwrap();
    assert!(matches!(client.alloc(1, Perm::ReadWrite), Err(Error::TimedOut)));
}
