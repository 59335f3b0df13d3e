//! The program: reads one roll from standard input to its end and writes what `rollplan` must
//! print for it.
#![forbid(unsafe_code)]

use std::io::{self, Read, Write};

fn main() -> io::Result<()> {
    let mut input = Vec::new();
    io::stdin().lock().read_to_end(&mut input)?;
    let mut output = io::stdout().lock();
    output.write_all(&oracle::answer_program(&input))?;
    output.flush()
}
