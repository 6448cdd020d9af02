//! Writes the reference's answers: reads request lines (fields 1 to 5 of the
//! vector format, further ones ignored) and writes the answer's fields for
//! each, a refusal's column after its line.

#[path = "../tests/reference/mod.rs"]
mod reference;
#[path = "../tests/vector/mod.rs"]
mod vector;

use std::io::{self, BufRead, BufWriter, Write};
use std::process::exit;

fn main() -> io::Result<()> {
    let mut out = BufWriter::new(io::stdout().lock());
    for (number, line) in (1..).zip(io::stdin().lock().lines()) {
        match vector::Request::parse(&line?) {
            Ok((request, _)) => writeln!(out, "{}", vector::fields(&request.by_reference()))?,
            Err(error) => {
                out.flush()?;
                eprintln!("expect: line {number}: {error}");
                exit(1);
            }
        }
    }
    out.flush()
}
