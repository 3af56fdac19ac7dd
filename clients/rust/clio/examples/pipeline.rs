//! Measures reads of 64 bytes at a node: one at a time, and 64 in a batch.
//!
//!     pipeline HOST:PORT [READS]
use clio::{Client, Error, Identity, Perm, Range, TICK};
use std::time::{Duration, Instant};

const READ_BYTES: usize = 64;
const BATCH: usize = 64;

/// The turns of each kind, one after the other, so that both meet the same machine. The best of each counts.
const TURNS: usize = 10;

fn one_at_a_time(range: &Range, reads: usize) -> Result<Duration, Error> {
    let mut bytes = [0; READ_BYTES];
    let start = Instant::now();
    for at in 0..reads {
        range.read_at((at % BATCH * READ_BYTES) as u32, &mut bytes)?;
    }
    Ok(start.elapsed())
}

fn batches(client: &Client, range: &Range, reads: usize) -> Result<Duration, Error> {
    let start = Instant::now();
    for _ in 0..reads / BATCH {
        let mut batch = client.batch();
        let tickets: Vec<_> = (0..BATCH).map(|at| batch.read(range, (at * READ_BYTES) as u32, READ_BYTES)).collect();
        let mut answers = batch.run()?;
        for ticket in tickets {
            assert_eq!(answers.take(ticket)?.len(), READ_BYTES);
        }
    }
    Ok(start.elapsed())
}

fn main() -> Result<(), Box<dyn std::error::Error>> {
    let words: Vec<String> = std::env::args().collect();
    let reads: usize = words.get(2).map_or(Ok(64_000), |word| word.parse())?;
    let client = Client::connect(&words[1], Identity { client: 29, process: 29 }, TICK)?;
    let range = client.alloc(1, Perm::ReadWrite)?;
    range.write_at(0, &[1; BATCH * READ_BYTES])?;
    let reads = reads / TURNS / BATCH * BATCH;
    let (mut alone, mut together) = (Duration::MAX, Duration::MAX);
    for _ in 0..TURNS {
        alone = alone.min(one_at_a_time(&range, reads)?);
        together = together.min(batches(&client, &range, reads)?);
    }
    let each = |took: Duration| took.as_secs_f64() * 1e6 / reads as f64;
    println!("one at a time: {:.2} us a read, {:.0} reads a second", each(alone), 1e6 / each(alone));
    println!("a batch of {BATCH}: {:.2} us a read, {:.0} reads a second", each(together), 1e6 / each(together));
    println!("ratio {:.2}", each(alone) / each(together));
    range.free()?;
    Ok(())
}
