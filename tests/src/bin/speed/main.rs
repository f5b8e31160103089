//! Times whole additions to a set: the proved code through the library, Rust written for speed, and the source.
//! With the argument `parts`, the parts of one of them.

mod cases;
mod measure;
mod parts;
mod sides;

use cases::Case;
use sides::{measure, Measured, SIDES};
use std::{env, error::Error, fs, time::Duration};

/// For each line.
const SPAN: Duration = Duration::from_millis(2_500);

const COMMAND: &str = "cargo run --release --offline --locked --manifest-path tests/Cargo.toml \
     --target-dir target/tests --bin speed";

fn main() -> Result<(), Box<dyn Error>> {
    let arguments: Vec<String> = env::args().skip(1).collect();
    match arguments.iter().map(String::as_str).collect::<Vec<_>>()[..] {
        [] => all(),
        ["parts"] => {
            parts::print(&cases::capsule(1_000), SPAN);
            Ok(())
        }
        _ => Err("give no argument, or `parts`".into()),
    }
}

fn all() -> Result<(), Box<dyn Error>> {
    println!("{COMMAND}");
    println!("{}, {}", processor()?, env!("RUSTC_VERSION"));
    print_head();
    let mut rounds = Vec::new();
    for (title, cases) in cases::all() {
        println!("{title}");
        for case in cases {
            let measured = measure(&case, SPAN)?;
            print(&case, &measured);
            rounds.push(measured.rounds);
        }
    }
    rounds.sort();
    let [least, most] = [rounds[0], rounds[rounds.len() - 1]];
    println!("{least} to {most} rounds a line; all sides left the same in all three buffers");
    Ok(())
}

fn print_head() {
    println!("microseconds, 10th percentile and median");
    print!("{:18} {:8} {:>8}", "", "", "clearing");
    for side in &SIDES {
        print!(" {:>15}", side.name);
    }
    println!(" {:>12} {:>13}", "proved by", "ns a vertex");
    print!("{:18} {:>8} {:>8}", "", "vertices", "10th");
    for _ in &SIDES {
        print!(" {:>7} {:>7}", "10th", "median");
    }
    println!(
        " {:>6} {:>5} {:>7} {:>5}",
        "SSE2", "plain", "proved", "SSE2"
    );
}

fn print(case: &Case, measured: &Measured) {
    let vertices = case.counts()[0];
    print!(
        "  {:16} {vertices:8} {:8.1}",
        case.name, measured.clearing.low
    );
    for times in measured.adding {
        print!(" {:7.1} {:7.1}", times.low, times.median);
    }
    let [proved, sse2, plain, _] = measured.adding.map(|times| times.low);
    print!(" {:6.2} {:5.2}", proved / sse2, proved / plain);
    let a_vertex = |time: f64| 1_000.0 * time / vertices as f64;
    println!(" {:7.2} {:5.2}", a_vertex(proved), a_vertex(sse2));
}

fn processor() -> Result<String, Box<dyn Error>> {
    let text = fs::read_to_string("/proc/cpuinfo")?;
    let line = text.lines().find(|line| line.starts_with("model name"));
    let name = line.and_then(|line| line.split(": ").nth(1));
    Ok(name.unwrap_or("unknown processor").to_string())
}
