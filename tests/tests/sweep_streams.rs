//! The proved program `sweep` where its input or output fails, is closed, or is interrupted by signals: what it says on
//! standard error, and what it still writes.

use std::{
    fs::{self, File},
    io::{ErrorKind, Read, Write},
    net::Shutdown,
    os::{fd::OwnedFd, unix::net::UnixStream},
    process::{Command, Stdio},
    thread,
    time::{Duration, Instant},
};
use togbefulo_tests::{
    program::{feed_all, run, start, start_with, PATIENCE},
    record_files::{read_stored as stored, EXAMPLE},
    sweep,
};

const NOT_WRITTEN: &str =
    "sweep: the set could not be written whole; what was written is not a set";
const NOT_READ: &str =
    "sweep: standard input could not be read; the set has only the records before that";

/// Two ends of a socket: what the program gets, and ours.
fn pair() -> [UnixStream; 2] {
    let (theirs, ours) = UnixStream::pair().expect("two ends");
    [theirs, ours]
}

/// Nobody reads the output: a write fails then, and no signal ends the program.
#[test]
fn output_closed_early() {
    for name in ["empty", "sample", EXAMPLE, "exact"] {
        let mut child = start(Stdio::piped(), Stdio::piped());
        drop(child.stdout.take());
        let run = run(child, |child| feed_all(child, &stored(name)[0]));
        assert_eq!(run.said, format!("{NOT_WRITTEN}: Broken pipe\n"), "{name}");
        assert!(run.status.success(), "{name}: {}", run.status);
    }
}

/// One byte is read and the rest is not.
#[test]
fn output_closed_after_a_byte() {
    let mut child = start(Stdio::piped(), Stdio::piped());
    let mut output = child.stdout.take().expect("a pipe");
    let run = run(child, |child| {
        feed_all(child, &stored("exact")[0]);
        output.read_exact(&mut [0]).expect("a byte of the file");
        drop(output);
    });
    assert_eq!(run.said, format!("{NOT_WRITTEN}: Broken pipe\n"));
    assert!(run.status.success(), "{}", run.status);
}

/// A full device takes no byte.
#[test]
fn full_device() {
    for name in ["empty", "sample", EXAMPLE] {
        let full = File::options().write(true).open("/dev/full");
        let child = start(Stdio::piped(), full.expect("a full device"));
        let run = run(child, |child| feed_all(child, &stored(name)[0]));
        let said = format!("{NOT_WRITTEN}: No space left on device\n");
        assert_eq!(run.said, said, "{name}");
        assert!(run.status.success(), "{name}: {}", run.status);
    }
}

/// Closed before the program starts.
#[test]
fn closed_output() {
    let run = run(start_with(">&-"), |child| {
        feed_all(child, &stored("sample")[0]);
    });
    assert_eq!(run.said, format!("{NOT_WRITTEN}: Bad file descriptor\n"));
    assert!(run.status.success(), "{}", run.status);
}

/// With standard error closed too, nobody can be told, and the program ends as ever.
#[test]
fn all_closed() {
    let run = run(start_with("<&- >&- 2>&-"), |_| ());
    assert_eq!(run.said, "");
    assert!(run.status.success(), "{}", run.status);
}

/// The set is empty, and standard error says why.
#[test]
fn input_that_cannot_be_read() {
    for (redirection, why) in [
        ("< /", "Is a directory"),
        ("<&-", "Bad file descriptor"),
        ("0> /dev/null", "Bad file descriptor"),
    ] {
        let run = run(start_with(redirection), |_| ());
        assert!(run.written == sweep::sweep(&[]), "{redirection}");
        assert_eq!(run.said, format!("{NOT_READ}: {why}\n"), "{redirection}");
        assert!(run.status.success(), "{redirection}: {}", run.status);
    }
}

/// A read that fails after whole records, at the end of one and inside one: the set has those before it.
#[test]
fn input_fails_between_and_inside_records() {
    let [sample, set] = stored("sample");
    for more in [0, 5, 30] {
        let [mut theirs, mut ours] = pair();
        // What its peer leaves unread when it closes makes a socket fail, once it has handed over what it holds.
        theirs.write_all(&[0]).expect("a byte nobody reads");
        ours.write_all(&[&sample[..], &sample[..more]].concat())
            .expect("a socket to write to");
        drop(ours);
        let child = start(OwnedFd::from(theirs), Stdio::piped());
        let run = run(child, |_| ());
        let said = format!("{NOT_READ}: Connection reset by peer\n");
        assert_eq!(run.said, said, "{more} bytes more");
        assert!(run.written == set, "{more} bytes more");
    }
}

/// Fills what a socket holds, and makes room again for `room` bytes at least.
fn fill(theirs: &UnixStream, mut ours: &UnixStream, room: usize) -> usize {
    let mut filled = 0;
    theirs.set_nonblocking(true).expect("a socket");
    loop {
        match (&*theirs).write(&[0; 4096]) {
            Ok(count) => filled += count,
            Err(why) if why.kind() == ErrorKind::WouldBlock => break,
            Err(why) => panic!("{why}"),
        }
    }
    theirs.set_nonblocking(false).expect("a socket");
    ours.read_exact(&mut vec![0; room])
        .expect("what was filled");
    filled - room
}

/// Output that takes a part and then fails: the part is the file's beginning.
#[test]
fn output_fails_after_a_part() {
    let [records, set] = stored("exact");
    let [theirs, mut ours] = pair();
    let held = fill(&theirs, &ours, 40_960);
    let timeout = Duration::from_millis(100);
    theirs.set_write_timeout(Some(timeout)).expect("a socket");
    let child = start(Stdio::piped(), OwnedFd::from(theirs));
    let run = run(child, |child| feed_all(child, &records));
    let said = format!("{NOT_WRITTEN}: Resource temporarily unavailable\n");
    assert_eq!(run.said, said);
    assert!(run.status.success(), "{}", run.status);
    let mut written = Vec::new();
    ours.read_to_end(&mut written).expect("a socket to read");
    let part = &written[held..];
    assert!(!part.is_empty() && part.len() < set.len() && set.starts_with(part));
    println!("{} of {} bytes were taken", part.len(), set.len());
}

/// Waits until the process is in this state: S asleep in a read or a write, T stopped.
fn await_state(process: u32, state: char) {
    let begin = Instant::now();
    while begin.elapsed() < PATIENCE {
        let status = fs::read_to_string(format!("/proc/{process}/stat"));
        let status = status.expect("a process that runs");
        if status
            .rsplit(") ")
            .next()
            .is_some_and(|s| s.starts_with(state))
        {
            return;
        }
        thread::sleep(Duration::from_micros(200));
    }
    panic!("the program never came to state {state}");
}

fn send(signal: &str, process: u32) {
    let mut shell = Command::new("sh");
    shell.args(["-c", "kill \"$0\" \"$1\"", signal, &process.to_string()]);
    assert!(shell.status().expect("a shell").success(), "{signal}");
}

/// Stops a process that sleeps in a read or a write of a socket with a timeout and lets it go on. Linux then ends the
/// call with EINTR, without any handler (signal(7), "Interruption of system calls and library functions by stop
/// signals").
fn interrupt(process: u32) {
    await_state(process, 'S');
    send("-STOP", process);
    await_state(process, 'T');
    send("-CONT", process);
}

/// Reads that signals interrupt, before a record, in its head and in its curve, are made again.
#[test]
fn interrupted_input() {
    let [records, set] = stored("sample");
    let [theirs, mut ours] = pair();
    theirs.set_read_timeout(Some(PATIENCE)).expect("a socket");
    let child = start(OwnedFd::from(theirs), Stdio::piped());
    let run = run(child, |child| {
        for piece in records.chunks(11) {
            interrupt(child.id());
            interrupt(child.id());
            ours.write_all(piece).expect("a program that reads");
        }
        interrupt(child.id());
        ours.shutdown(Shutdown::Both).expect("a socket");
    });
    assert!(run.written == set, "{}", run.said);
    assert_eq!(run.said, "");
    assert!(run.status.success(), "{}", run.status);
}

/// Interrupts the writing of a stored set to a socket that takes `room` bytes at first and the rest
/// later: the whole set arrives, once.
fn interrupt_output(name: &str, room: usize) {
    let [records, set] = stored(name);
    let [theirs, mut ours] = pair();
    let held = fill(&theirs, &ours, room);
    theirs.set_write_timeout(Some(PATIENCE)).expect("a socket");
    let child = start(Stdio::piped(), OwnedFd::from(theirs));
    let mut written = Vec::new();
    let run = run(child, |child| {
        let process = child.id();
        feed_all(child, &records);
        // The first may meet the last read, which a pipe makes again by itself.
        for _ in 0..3 {
            interrupt(process);
        }
        ours.read_to_end(&mut written).expect("a socket to read");
    });
    assert!(written[held..] == set, "{}", run.said);
    assert_eq!(run.said, "");
    assert!(run.status.success(), "{}", run.status);
}

/// A write that signals interrupt before it moves a byte is made again.
#[test]
fn interrupted_output() {
    interrupt_output(EXAMPLE, 0);
}

/// A write that signals interrupt after it moved a part: the next goes on behind that part.
#[test]
fn output_interrupted_after_a_part() {
    interrupt_output("exact", 40_960);
}
