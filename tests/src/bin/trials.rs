//! Writes the table of trials of the supply, with what the reference model expects. In this folder,
//! `cargo run --bin trials > ../crates/trials/stdin` renews the stored one.

use std::io::{self, Write};

fn main() -> io::Result<()> {
    io::stdout().lock().write_all(rack_tests::trials::table().as_bytes())
}
