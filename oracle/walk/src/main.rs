//! Reads a walk and prints what `store-walk` shall print, each call carried out by the given files.
use std::io::{Read, Write};

use oracle_walk::{mirrors, walk};

fn main() {
    mirrors::check();
    let mut input = vec![];
    std::io::stdin()
        .take(walk::INPUT as u64)
        .read_to_end(&mut input)
        .expect("readable input");
    let mut out = std::io::BufWriter::new(std::io::stdout().lock());
    let mut walk = walk::Walk::new();
    for line in walk::lines(&input) {
        out.write_all(walk.line(line).as_bytes()).expect("output");
    }
    out.flush().expect("output");
}
