//! A data frame in pages of a node: columns of numbers of 64 bits, each in a range of its own, so a sum reads one column alone.
//!
//!     data_frame HOST:PORT
use clio::{Client, Error, Identity, PAGE_BYTES, Perm, Range, TICK};

const NUMBER_BYTES: u32 = 8;

/// Rows of `C` columns.
struct Frame<'c, const C: usize> {
    client: &'c Client,
    columns: [Range<'c>; C],
    rows: u32,
}

impl<'c, const C: usize> Frame<'c, C> {
    /// A frame with room for so many rows, at most 524,288.
    fn new(client: &'c Client, most_rows: u32) -> Result<Frame<'c, C>, Error> {
        let pages = (most_rows * NUMBER_BYTES).div_ceil(PAGE_BYTES);
        let columns: Vec<Range> = (0..C).map(|_| client.alloc(pages, Perm::ReadWrite)).collect::<Result<_, _>>()?;
        Ok(Frame { client, columns: columns.try_into().unwrap_or_else(|_| unreachable!()), rows: 0 })
    }

    /// Writes rows behind the others, a write for each column, all at once.
    fn append(&mut self, rows: &[[u64; C]]) -> Result<(), Error> {
        let columns: [Vec<u8>; C] =
            std::array::from_fn(|column| rows.iter().flat_map(|row| row[column].to_le_bytes()).collect());
        let mut batch = self.client.batch();
        for (range, bytes) in self.columns.iter().zip(&columns) {
            batch.write(range, self.rows * NUMBER_BYTES, bytes);
        }
        batch.run()?;
        self.rows += rows.len() as u32;
        Ok(())
    }

    /// All numbers of a column.
    fn column(&self, column: usize) -> Result<Vec<u64>, Error> {
        let mut bytes = vec![0; (self.rows * NUMBER_BYTES) as usize];
        self.columns[column].read_at(0, &mut bytes)?;
        let (numbers, _) = bytes.as_chunks();
        Ok(numbers.iter().map(|number| u64::from_le_bytes(*number)).collect())
    }

    fn free(self) -> Result<(), Error> {
        self.columns.into_iter().try_for_each(Range::free)
    }
}

fn main() -> Result<(), Box<dyn std::error::Error>> {
    let node = std::env::args().nth(1).ok_or("data_frame HOST:PORT")?;
    let client = Client::connect(&node, Identity { client: 26, process: 26 }, TICK)?;
    let mut frame = Frame::new(&client, 50_000)?;
    for start in (0..50_000).step_by(10_000) {
        let rows: Vec<[u64; 2]> = (start..start + 10_000).map(|day| [day, day * day]).collect();
        frame.append(&rows)?;
    }
    let amounts = frame.column(1)?;
    println!("rows {}", frame.rows);
    println!("amounts {}", amounts.iter().sum::<u64>());
    println!("days on which the amount was even {}", amounts.iter().filter(|amount| *amount % 2 == 0).count());
    frame.free()?;
    Ok(())
}
