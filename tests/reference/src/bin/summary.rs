//! The summary of standard input, as the summary program must write it.

use reference::summary::summary;
use std::io::{self, Read};

fn main() -> io::Result<()> {
    let mut text = Vec::new();
    io::stdin().lock().read_to_end(&mut text)?;
    print!("{}", summary(&text));
    Ok(())
}
