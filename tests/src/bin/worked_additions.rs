//! Prints what the program `worked_additions` is to print, or, with the argument `input`, writes the steps that it
//! reads.

use std::{
    env,
    io::{stdout, Error, Result, Write},
};
use togbefulo_tests::{lines::hexadecimal, sweep, worked_additions};

fn main() -> Result<()> {
    let script = worked_additions::script();
    let argument = env::args().nth(1);
    let bytes = match argument.as_deref() {
        None => {
            let lines = script.lines.iter();
            let texts = lines.map(|line| hexadecimal(line) + "\n");
            texts.collect::<String>().into_bytes()
        }
        Some("input") => sweep::bytes(&script.words),
        Some(_) => return Err(Error::other("give `input`, or nothing")),
    };
    let mut output = stdout();
    output.write_all(&bytes)?;
    output.flush()
}
