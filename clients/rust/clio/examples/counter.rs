//! Counts at a node, whatever the network loses: each add that is answered was done once.
//!
//!     counter HOST:PORT COUNT [CLIENT [TICK]]       the tick is in milliseconds
use clio::{Client, Identity, Perm, TICK};
use std::time::Duration;

fn main() -> Result<(), Box<dyn std::error::Error>> {
    let words: Vec<String> = std::env::args().collect();
    let count: u64 = words[2].parse()?;
    let number = words.get(3).map_or(Ok(21), |word| word.parse())?;
    let tick = words.get(4).map_or(Ok(TICK), |word| word.parse().map(Duration::from_millis))?;

    let client = Client::connect(&words[1], Identity { client: number, process: 21 }, tick)?;
    let counter = client.alloc(1, Perm::ReadWrite)?.word(0)?;
    let olds = (0..count).map(|_| counter.fetch_add(1)).collect::<Result<Vec<u64>, _>>()?;
    println!("each add once: {}", olds.into_iter().eq(0..count));
    println!("counted {}", counter.load()?);
    Ok(())
}
