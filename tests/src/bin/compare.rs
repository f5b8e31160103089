//! Compares the whole core, through the static library, with the adapted functions of del-msh and with the readings
//! of document 01: lists of additions until there are as many as the argument says. `list` and a number repeat one.

use std::{env, process::ExitCode};
use togbefulo_tests::comparison;

/// A few seconds' worth.
const ADDITIONS: u64 = 300_000;

const USAGE: &str = "give a number of additions, or `list` and a list's number";

fn main() -> ExitCode {
    let arguments: Vec<String> = env::args().skip(1).collect();
    let arguments: Vec<&str> = arguments.iter().map(String::as_str).collect();
    let number = |text: &str| text.parse().ok();
    let compared = match arguments[..] {
        [] => comparison::rounds(ADDITIONS, comparison::all_cores()),
        ["list", text] => match number(text) {
            Some(number) => Ok(comparison::list(number)),
            None => return usage(),
        },
        [text] => match number(text) {
            Some(additions) if additions > 0 => {
                comparison::rounds(additions, comparison::all_cores())
            }
            _ => return usage(),
        },
        _ => return usage(),
    };
    match compared {
        Ok(counts) => {
            println!("{counts}");
            ExitCode::SUCCESS
        }
        Err(list) => {
            println!("list {list} differs; the argument `list {list}` repeats it");
            ExitCode::FAILURE
        }
    }
}

fn usage() -> ExitCode {
    eprintln!("{USAGE}");
    ExitCode::FAILURE
}
