//! Prints the answers to a script that is read from standard input, one to a line.

use model::script::Program;
use std::io::{self, Read as _, Write as _};

fn main() -> io::Result<()> {
    let mut script = Vec::new();
    io::stdin().read_to_end(&mut script)?;
    let mut output = io::stdout().lock();
    Program::answers(&script).iter().try_for_each(|line| writeln!(output, "{line}"))
}
