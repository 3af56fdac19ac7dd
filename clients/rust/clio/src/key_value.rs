//! The key-value objects of a node.
use crate::client::Client;
use crate::error::{Error, Refusal};
use crate::machine::{Call, OBJECT_BYTES};
use std::borrow::Cow;

/// The bytes of a value, at most.
const VALUE_BYTES: u32 = 256;

/// A key-value object: keys of 1 to 32 bytes, values of at most 256. Each operation is one step.
#[derive(Clone, Copy)]
pub struct KeyValue<'c> {
    client: &'c Client,
    object: u8,
}

/// The operations, by their numbers at the node.
#[derive(Clone, Copy)]
pub(crate) enum Op {
    Put = 1,
    Get = 2,
    Delete = 3,
    Count = 4,
}

impl<'c> KeyValue<'c> {
    pub(crate) fn new(client: &'c Client, object: u8) -> KeyValue<'c> {
        KeyValue { client, object }
    }

    /// Puts a value under a key, in place of an old one. Refused as `ObjectFull` if the key is new and there is no room.
    pub fn put(&self, key: &[u8], value: &[u8]) -> Result<(), Error> {
        self.call(Op::Put, &keyed(key, value)).map(drop)
    }

    /// The value of a key.
    pub fn get(&self, key: &[u8]) -> Result<Option<Vec<u8>>, Error> {
        if_there(self.call(Op::Get, &keyed(key, &[])))
    }

    /// Takes a key out, and tells whether it was there.
    pub fn delete(&self, key: &[u8]) -> Result<bool, Error> {
        Ok(if_there(self.call(Op::Delete, &keyed(key, &[])))?.is_some())
    }

    /// How many keys there are.
    pub fn count(&self) -> Result<u32, Error> {
        let bytes = self.call(Op::Count, &[])?;
        Ok(bytes.iter().fold(0, |sum, byte| sum << 8 | u32::from(*byte)))
    }

    fn call(&self, op: Op, bytes: &[u8]) -> Result<Vec<u8>, Error> {
        self.client.offload(self.object, op as u8, bytes, VALUE_BYTES)
    }

    pub(crate) fn as_call(&self, op: Op, key: &[u8], value: &[u8]) -> Call<'static> {
        Call::Offload { object: self.object, op: op as u8, bytes: Cow::Owned(keyed(key, value)), room: VALUE_BYTES }
    }
}

/// A key behind its length, and a value. A key that is too long for any frame keeps its fault, which the node would tell.
fn keyed(key: &[u8], value: &[u8]) -> Vec<u8> {
    let len = u8::try_from(key.len()).unwrap_or(u8::MAX);
    let mut bytes = Vec::with_capacity(OBJECT_BYTES);
    bytes.push(len);
    bytes.extend_from_slice(key);
    bytes.extend_from_slice(value);
    bytes
}

/// Nothing, where the key isn't there.
pub(crate) fn if_there<T>(result: Result<T, Error>) -> Result<Option<T>, Error> {
    match result {
        Ok(value) => Ok(Some(value)),
        Err(Error::Refused(Refusal::NoKey)) => Ok(None),
        Err(error) => Err(error),
    }
}
