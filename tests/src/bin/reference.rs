//! The reference model as a program: from standard input to standard output, like the paper's
//! program. It reads in blocks and prints the replies before it waits for more.

use rack_tests::program::Running;
use std::io::{self, Read, Write};

const BLOCK: usize = 65_536;

fn main() -> io::Result<()> {
    let (mut input, mut output) = (io::stdin().lock(), io::stdout().lock());
    let mut block = vec![0; BLOCK];
    let mut printed = Vec::new();
    let mut running = Running::default();
    while !running.over() {
        let count = input.read(&mut block)?;
        running.take(&block[..count], &mut printed);
        output.write_all(&printed)?;
        output.flush()?;
        printed.clear();
    }
    Ok(())
}
