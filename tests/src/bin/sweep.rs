//! Writes the file for the records on standard input, as the proved program of this name does.

use std::io::{stdin, stdout, Read, Result, Write};
use togbefulo_tests::sweep::sweep;

fn main() -> Result<()> {
    let mut input = Vec::new();
    stdin().read_to_end(&mut input)?;
    let mut output = stdout();
    output.write_all(&sweep(&input))?;
    output.flush()
}
