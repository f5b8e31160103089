//! Writes a file of records for `sweep` to standard output, by the name that is given.

use std::{
    env,
    io::{stdout, Error, Result, Write},
};
use togbefulo_tests::record_files::{self, FILES};

fn main() -> Result<()> {
    let name = env::args().nth(1).unwrap_or_default();
    let Some(file) = record_files::file(&name) else {
        let names = FILES.map(|(name, _)| name).join(", ");
        return Err(Error::other(format!("give one of {names}")));
    };
    let mut output = stdout();
    output.write_all(&file)?;
    output.flush()
}
