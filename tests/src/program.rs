//! The proved program `sweep` as a process: what it is fed, what it writes, and what it says on standard error.

use std::{
    io::{ErrorKind, Read, Write},
    path::{Path, PathBuf},
    process::{Child, Command, ExitStatus, Stdio},
    thread::{self, JoinHandle},
    time::{Duration, Instant},
};

/// A program that has not ended by then hangs.
pub const PATIENCE: Duration = Duration::from_secs(20);

pub fn path() -> PathBuf {
    Path::new(env!("CARGO_MANIFEST_DIR")).join("../crates/sweep/out/sweep")
}

/// Starts the program; its standard error is a pipe.
pub fn start(input: impl Into<Stdio>, output: impl Into<Stdio>) -> Child {
    spawn(Command::new(path()).stdin(input).stdout(output))
}

/// Starts the program with these redirections of the shell, as `>&-`; both other ends are pipes.
pub fn start_with(redirections: &str) -> Child {
    let mut shell = Command::new("sh");
    shell.args(["-c", &format!("exec \"$0\" {redirections}")]);
    spawn(
        shell
            .arg(path())
            .stdin(Stdio::piped())
            .stdout(Stdio::piped()),
    )
}

fn spawn(command: &mut Command) -> Child {
    let started = command.stderr(Stdio::piped()).spawn();
    started.unwrap_or_else(|why| panic!("{}: {why}", path().display()))
}

/// Feeds the input in pieces of this size, with a pause after each, so that a read ends where a piece does.
pub fn feed(child: &mut Child, input: &[u8], piece: usize, pause: Duration) {
    let mut pipe = child.stdin.take().expect("a pipe");
    for piece in input.chunks(piece) {
        match pipe.write_all(piece) {
            // The program has ended before it read everything, as it may.
            Err(why) if why.kind() == ErrorKind::BrokenPipe => return,
            written => written.expect("a pipe to write to"),
        }
        thread::sleep(pause);
    }
}

/// Feeds the whole input at once.
pub fn feed_all(child: &mut Child, input: &[u8]) {
    feed(child, input, usize::MAX, Duration::ZERO);
}

/// How a run of the program ended.
pub struct Run {
    /// What it wrote, where that goes to a pipe.
    pub written: Vec<u8>,
    /// What it said on standard error.
    pub said: String,
    pub status: ExitStatus,
}

/// Feeds a program that was started and waits for its end.
pub fn run(mut child: Child, feed: impl FnOnce(&mut Child)) -> Run {
    let output = child.stdout.take().map(read_all);
    let errors = read_all(child.stderr.take().expect("a pipe"));
    feed(&mut child);
    let status = wait(child);
    let finish = |reader: JoinHandle<Vec<u8>>| reader.join().expect("a reader that ends");
    Run {
        written: output.map(finish).unwrap_or_default(),
        said: String::from_utf8(finish(errors)).expect("text"),
        status,
    }
}

fn read_all(mut pipe: impl Read + Send + 'static) -> JoinHandle<Vec<u8>> {
    thread::spawn(move || {
        let mut all = Vec::new();
        pipe.read_to_end(&mut all).expect("a pipe to read from");
        all
    })
}

/// Waits for the end of a program, and ends it where it hangs.
fn wait(mut child: Child) -> ExitStatus {
    let begin = Instant::now();
    while begin.elapsed() < PATIENCE {
        if let Some(status) = child.try_wait().expect("a program that was started") {
            return status;
        }
        thread::sleep(Duration::from_millis(1));
    }
    child.kill().expect("a program that runs");
    panic!("the program hangs");
}
