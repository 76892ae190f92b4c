//! Counts in a page, and prints each count once it is saved. Kill it at any moment and start it again: it continues after the last
//! count that it printed, or after the next one.
//!
//! `eros build examples/embed/counter.toml IMAGE` makes the image.
use std::error::Error;
use std::io::Write;

fn main() -> Result<(), Box<dyn Error>> {
    let words: Vec<_> = std::env::args().collect();
    let [_, image, times] = &words[..] else {
        return Err("usage: counter IMAGE TIMES".into());
    };
    let mut machine = vezhnake::Machine::open(image)?;
    let first = machine.page(16)?[0];
    for count in first + 1..=first + times.parse::<u64>()? {
        machine.call(1, 6, [2, 0, count])?;
        machine.save()?;
        println!("{count}");
        std::io::stdout().flush()?;
    }
    Ok(())
}
