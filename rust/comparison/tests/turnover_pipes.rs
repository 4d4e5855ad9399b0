//! The proved program `turnover` on inputs that come in parts, on files that
//! are not ready, and where a read or a write fails. `rt run` in
//! `crates/turnover` builds the program, and so does `rt ci`.

use std::fs::{File, OpenOptions};
use std::io::{self, PipeReader, PipeWriter, Read, Write};
use std::os::fd::AsRawFd;
use std::os::unix::fs::OpenOptionsExt;
use std::os::unix::net::{UnixDatagram, UnixStream};
use std::os::unix::process::ExitStatusExt;
use std::path::{Path, PathBuf};
use std::process::{Child, Command, ExitStatus, Stdio};
use std::sync::mpsc::{self, Receiver, RecvTimeoutError};
use std::thread;
use std::time::{Duration, Instant};

use comparison::cases;
use reference::generate::{mutated_script, script, script_text};
use reference::turnover::turnover;

/// No run takes nearly as long.
const LIMIT: Duration = Duration::from_secs(60);

/// Linux's flag of a file that does not wait.
const O_NONBLOCK: i32 = 0o4000;

const SIGPIPE: i32 = 13;

fn program() -> PathBuf {
    let root = Path::new(env!("CARGO_MANIFEST_DIR")).join("../..");
    let path = root.join("crates/turnover/out/turnover");
    assert!(
        path.exists(),
        "crates/turnover/out/turnover is not there: run `rt run < /dev/null` in crates/turnover"
    );
    path
}

/// A run of the program, which is killed where it does not end.
struct Run(Child);

impl Run {
    fn start(command: &mut Command, stdin: impl Into<Stdio>, stdout: impl Into<Stdio>) -> Self {
        let child = command.stdin(stdin).stdout(stdout).spawn();
        // The command keeps its files open until it is given others.
        command.stdin(Stdio::null()).stdout(Stdio::null());
        Run(child.expect("the program starts"))
    }

    fn end(mut self) -> ExitStatus {
        let start = Instant::now();
        loop {
            if let Some(status) = self.0.try_wait().expect("a status") {
                return status;
            }
            assert!(start.elapsed() < LIMIT, "the program does not end");
            thread::sleep(Duration::from_millis(2));
        }
    }
}

impl Drop for Run {
    fn drop(&mut self) {
        let _ = self.0.kill();
        let _ = self.0.wait();
    }
}

/// What comes out of a pipe, part by part, until it ends.
fn parts(mut from: impl Read + Send + 'static, each: usize, wait: Duration) -> Receiver<Vec<u8>> {
    let (sender, receiver) = mpsc::channel();
    thread::spawn(move || {
        let mut buffer = vec![0; each];
        loop {
            thread::sleep(wait);
            let count = from.read(&mut buffer).expect("its output");
            if count == 0 || sender.send(buffer[..count].to_vec()).is_err() {
                return;
            }
        }
    });
    receiver
}

/// All that still comes.
fn rest(parts: &Receiver<Vec<u8>>) -> Vec<u8> {
    let start = Instant::now();
    let mut all = Vec::new();
    loop {
        match parts.recv_timeout(LIMIT.saturating_sub(start.elapsed())) {
            Ok(part) => all.extend(part),
            Err(RecvTimeoutError::Disconnected) => return all,
            Err(RecvTimeoutError::Timeout) => panic!("the output does not end"),
        }
    }
}

fn all_parts(from: impl Read + Send + 'static) -> Receiver<Vec<u8>> {
    parts(from, 65_536, Duration::ZERO)
}

/// A pipe's end, opened once more so that calls on it do not wait.
fn unwaiting(end: &impl AsRawFd, options: &mut OpenOptions) -> File {
    options
        .custom_flags(O_NONBLOCK)
        .open(format!("/proc/self/fd/{}", end.as_raw_fd()))
        .expect("the pipe's end")
}

fn unwaiting_input() -> (File, PipeWriter) {
    let (reader, writer) = io::pipe().expect("a pipe");
    (unwaiting(&reader, OpenOptions::new().read(true)), writer)
}

fn unwaiting_output() -> (PipeReader, File) {
    let (reader, writer) = io::pipe().expect("a pipe");
    let end = unwaiting(&writer, OpenOptions::new().write(true));
    (reader, end)
}

/// A lone station that makes this many entries.
fn entries(count: u32) -> Vec<u8> {
    let mut input = b"net 1 65535\nallow 0 65535\n".to_vec();
    for register in 0..count {
        writeln!(input, "enter 0 {register}").expect("a line");
    }
    input
}

/// A half line is not obeyed while the rest may come; at the end of input it
/// is a line.
#[test]
fn line_in_two_halves() {
    let halves = [&b"net 1 9\nallow 0 9\nenter 0 12"[..], b"34\nenter 0 5"];
    let (stdin, mut writer) = unwaiting_input();
    let (stdout, end) = io::pipe().expect("a pipe");
    let run = Run::start(&mut Command::new(program()), stdin, end);
    let output = all_parts(stdout);
    writer.write_all(halves[0]).expect("the first half");
    assert_eq!(
        output.recv_timeout(Duration::from_millis(400)),
        Err(RecvTimeoutError::Timeout),
        "printed before the line was whole"
    );
    writer.write_all(halves[1]).expect("the second half");
    drop(writer);
    assert_eq!(rest(&output), b"1 entry 0 0 1\n2 entry 0 0 2\n");
    assert_eq!(
        turnover(&halves.concat()),
        b"1 entry 0 0 1\n2 entry 0 0 2\n"
    );
    assert!(run.end().success());
}

/// Whoever types a line sees its answer before the next read.
#[test]
fn answers_before_the_next_read() {
    let (stdin, mut writer) = unwaiting_input();
    let (stdout, end) = io::pipe().expect("a pipe");
    let run = Run::start(&mut Command::new(program()), stdin, end);
    let output = all_parts(stdout);
    writer.write_all(b"net 1 9\nallow 0 9\n").expect("a pipe");
    for (line, answer) in [
        (&b"enter 0 1\n"[..], &b"1 entry 0 0 1\n"[..]),
        (b"enter 1 1\n", b"2 no 4\n"),
        (b"enter\n", b"bad\n"),
        (b"start 0\n", b"3 mode 1 0 normal\n"),
    ] {
        writer.write_all(line).expect("a line");
        assert_eq!(output.recv_timeout(LIMIT).as_deref(), Ok(answer));
    }
    drop(writer);
    assert_eq!(rest(&output), b"");
    assert!(run.end().success());
}

/// A read that fails is no end of input: the half line before it is not
/// obeyed, and no setup is made.
#[test]
fn failed_read() {
    for (input, expected) in [
        (
            &b"net 1 9\nallow 0 9\nenter 0 1\nenter 0 2"[..],
            &b"1 entry 0 0 1\n"[..],
        ),
        (b"net 9 9\n", b""),
        (b"net 9 9\nstart 0", b""),
    ] {
        let (ours, theirs) = UnixStream::pair().expect("sockets");
        // Closed with this byte unread, our socket makes their next read fail behind what we sent.
        (&theirs).write_all(b"x").expect("a byte");
        (&ours).write_all(input).expect("the input");
        let (stdout, end) = io::pipe().expect("a pipe");
        let output = all_parts(stdout);
        drop(ours);
        let run = Run::start(
            &mut Command::new(program()),
            std::os::fd::OwnedFd::from(theirs),
            end,
        );
        assert_eq!(rest(&output), expected);
        assert!(run.end().success());
    }
}

/// What the program prints into a file that does not wait, read slowly.
fn slowly(input: &[u8], each: usize, wait: Duration) -> Vec<u8> {
    let (stdout, end) = unwaiting_output();
    let (stdin, mut writer) = io::pipe().expect("a pipe");
    let run = Run::start(&mut Command::new(program()), stdin, end);
    let output = parts(stdout, each, wait);
    let input = input.to_vec();
    let written = thread::spawn(move || writer.write_all(&input));
    let all = rest(&output);
    assert!(run.end().success());
    written.join().expect("a writer").expect("all was read");
    all
}

#[test]
fn slow_reader() {
    let input = entries(40_000);
    let expected = turnover(&input);
    // Far more than a pipe holds: the program meets one that is full.
    assert!(expected.len() > 800_000);
    assert_eq!(
        expected.iter().filter(|&&byte| byte == b'\n').count(),
        40_000
    );
    let output = slowly(&input, 5_000, Duration::from_millis(2));
    assert!(
        output == expected,
        "{} of {} bytes",
        output.len(),
        expected.len()
    );
}

/// Starts the program on an output that takes nothing, and gives it lines
/// until it takes no more of them.
fn refused_output(command: &mut Command, stdout: impl Into<Stdio>) -> ExitStatus {
    let (stdin, mut writer) = io::pipe().expect("a pipe");
    let run = Run::start(command, stdin, stdout);
    let written = thread::spawn(move || {
        let lines = entries(1_000);
        (0..1_000).all(|_| writer.write_all(&lines).is_ok())
    });
    let status = run.end();
    assert!(!written.join().expect("a writer"), "all was read");
    status
}

#[test]
fn closed_output() {
    let (reader, writer) = io::pipe().expect("a pipe");
    drop(reader);
    let again = writer.try_clone().expect("the same end");
    let status = refused_output(&mut Command::new(program()), writer);
    assert!(
        status.success() || status.signal() == Some(SIGPIPE),
        "{status}"
    );
    // Where the signal is ignored, the write fails and the program ends by itself.
    let mut deaf = Command::new("sh");
    deaf.arg("-c")
        .arg("trap '' PIPE; exec \"$0\"")
        .arg(program());
    let status = refused_output(&mut deaf, again);
    assert!(status.success(), "{status}");
}

#[test]
fn full_device() {
    let full = File::options().write(true).open("/dev/full");
    let status = refused_output(&mut Command::new(program()), full.expect("/dev/full"));
    assert!(status.success(), "{status}");
}

/// What the program prints for an input that comes in these parts, one to a
/// read: a socket of messages keeps them apart, and an empty one is the end.
fn in_parts<'a>(parts: impl Iterator<Item = &'a [u8]>, waits: bool) -> Vec<u8> {
    let (ours, theirs) = UnixDatagram::pair().expect("sockets");
    theirs.set_nonblocking(!waits).expect("a flag");
    let (stdout, end) = io::pipe().expect("a pipe");
    let run = Run::start(
        &mut Command::new(program()),
        std::os::fd::OwnedFd::from(theirs),
        end,
    );
    let output = all_parts(stdout);
    for part in parts.chain([&[][..]]) {
        // A refused setup ends the program before it has read everything.
        if ours.send(part).is_err() {
            break;
        }
    }
    let all = rest(&output);
    assert!(run.end().success());
    all
}

#[test]
fn byte_by_byte() {
    cases("byte_by_byte", 20, |rng| {
        let input = script_text(&script(rng, 100), rng.chance(1, 2));
        let waits = rng.chance(1, 2);
        assert_eq!(in_parts(input.chunks(1), waits), turnover(&input));
        let input = mutated_script(rng, 40);
        assert_eq!(in_parts(input.chunks(1), waits), turnover(&input));
    });
}

#[test]
fn any_parts() {
    cases("any_parts", 40, |rng| {
        let input = script_text(&script(rng, 300), rng.chance(1, 2));
        let mut parts = Vec::new();
        let mut left = &input[..];
        while !left.is_empty() {
            let (part, more) = left.split_at(1 + rng.index(left.len().min(200)));
            parts.push(part);
            left = more;
        }
        assert_eq!(in_parts(parts.into_iter(), true), turnover(&input));
    });
}
