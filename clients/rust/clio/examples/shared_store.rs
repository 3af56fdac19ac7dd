//! Two programs move money between two accounts of a key-value object. A lock in a page that they share lets one at a time.
//!
//!     shared_store HOST:PORT [TRANSFERS [TICK]]       the tick is in milliseconds
use clio::{Client, Identity, KeyValue, Perm, TICK};
use std::env;
use std::process::Command;
use std::time::Duration;

type Result<T> = std::result::Result<T, Box<dyn std::error::Error>>;

/// Of each program, unless told.
const TRANSFERS: u32 = 40;

/// Whose memory both share.
const PROCESS: u16 = 23;

fn balance(accounts: &KeyValue, name: &[u8]) -> Result<i64> {
    let text = accounts.get(name)?.ok_or("no such account")?;
    Ok(String::from_utf8(text)?.parse()?)
}

fn put(accounts: &KeyValue, name: &[u8], amount: i64) -> Result<()> {
    Ok(accounts.put(name, amount.to_string().as_bytes())?)
}

/// Moves 1 from one account to the other, again and again.
fn work(client: &Client, transfers: u32, addr: u32) -> Result<()> {
    let (lock, accounts) = (client.range(addr, 1).word(0)?, client.key_value(0));
    for _ in 0..transfers {
        let guard = lock.lock()?;
        let (alice, bob) = (balance(&accounts, b"alice")?, balance(&accounts, b"bob")?);
        put(&accounts, b"alice", alice - 1)?;
        put(&accounts, b"bob", bob + 1)?;
        guard.unlock()?;
    }
    Ok(())
}

/// Starts two programs with these words, a client number and the address of the lock, and tells what they leave.
fn share(client: &Client, words: [&str; 3]) -> Result<()> {
    let (page, accounts) = (client.alloc(1, Perm::ReadWrite)?, client.key_value(0));
    put(&accounts, b"alice", 1000)?;
    put(&accounts, b"bob", 0)?;
    let program = |number: u16| {
        let own = [number.to_string(), page.addr().to_string()];
        Command::new(env::current_exe()?).args(words).args(own).spawn()
    };
    for mut program in [program(24)?, program(25)?] {
        if !program.wait()?.success() {
            return Err("a program failed".into());
        }
    }
    println!("alice has {} and bob {}", balance(&accounts, b"alice")?, balance(&accounts, b"bob")?);
    for name in [&b"alice"[..], b"bob"] {
        accounts.delete(name)?;
    }
    Ok(page.free()?)
}

fn main() -> Result<()> {
    let words: Vec<String> = env::args().skip(1).collect();
    let node = words.first().ok_or("shared_store HOST:PORT [TRANSFERS [TICK]]")?;
    let transfers = words.get(1).map_or(Ok(TRANSFERS), |word| word.parse())?;
    let tick = words.get(2).map_or(Ok(TICK), |word| word.parse().map(Duration::from_millis))?;
    let connect = |number| Client::connect(node, Identity { client: number, process: PROCESS }, tick);
    match &words[..] {
        [_, _, _, number, addr] => work(&connect(number.parse()?)?, transfers, addr.parse()?),
        _ => share(&connect(23)?, [node, &transfers.to_string(), &tick.as_millis().to_string()]),
    }
}
