//! The program `boresums` where its input or output is out of the ordinary: a
//! full device, closed ends, pipes that do not wait, single bytes, calls that
//! were interrupted. It prints its whole text, or a line on standard error says
//! what it could not do; the status is 0 either way.

mod common;

use common::job_parts::{Parts, EXAMPLE};
use common::program::program;
use reference::random::Random;
use std::fs::{File, OpenOptions};
use std::io::{pipe, Read, Write};
use std::os::fd::AsRawFd;
use std::os::unix::fs::OpenOptionsExt;
use std::path::{Path, PathBuf};
use std::process::{self, Command, Output, Stdio};
use std::thread;
use std::time::Duration;

/// How often the program makes a call while no byte moves.
const TRIES: u64 = 10_000_000;

const UNWRITTEN: &str = "boresums: cannot write standard output: ";
const UNREAD: &str = "boresums: cannot read standard input: ";

/// Linux: an open file whose reads and writes do not wait.
const O_NONBLOCK: i32 = 0o4000;

/// A job whose text has more than 200,000 bytes, more than a pipe and the
/// program's own buffer hold.
fn long_job() -> Vec<u8> {
    let pixels = Random::new(1).pixels(1000 * 60);
    Parts::new(&[2, 2], &[2, 2], [1000, 60], pixels).bytes()
}

/// A path for a file of this name, for one test of this process alone.
fn own(name: &str) -> PathBuf {
    let name = format!("{}-{name}", process::id());
    Path::new(env!("CARGO_TARGET_TMPDIR")).join(name)
}

/// The file of a job, opened; its name, for a test alone, is gone again.
fn file_of(name: &str, job: &[u8]) -> File {
    let path = own(name);
    std::fs::write(&path, job).expect("the job can be written");
    let file = File::open(&path).expect("the job can be read");
    std::fs::remove_file(path).expect("the job can be removed");
    file
}

/// The end of a command: status 0 and this line on standard error.
fn says(output: &Output, line: &str) {
    assert_eq!(output.status.code(), Some(0), "{output:?}");
    assert_eq!(String::from_utf8_lossy(&output.stderr), line);
}

/// The program prints what the reference does, and says nothing else.
fn prints(output: &Output, job: &[u8]) {
    says(output, "");
    assert!(output.stdout == reference::boresums(job).as_bytes());
}

/// Jobs whose texts are short, long, and a refusal.
fn jobs() -> [Vec<u8>; 3] {
    [EXAMPLE.to_vec(), long_job(), vec![]]
}

#[test]
fn a_full_device() {
    for (at, job) in jobs().iter().enumerate() {
        let full = OpenOptions::new().write(true).open("/dev/full");
        let mut command = Command::new(program());
        command.stdin(file_of(&format!("full{at}.job"), job));
        command.stdout(full.expect("the device is there"));
        let output = command.output().expect("the program runs");
        says(&output, &format!("{UNWRITTEN}No space left on device\n"));
    }
}

/// The program with one of its ends closed before it starts.
fn with_closed(end: &str, job: File) -> Output {
    let mut command = Command::new("sh");
    let line = format!("exec \"$0\" {end}");
    command.arg("-c").arg(line).arg(program()).stdin(job);
    command.output().expect("the program runs")
}

#[test]
fn closed_ends() {
    for (at, job) in jobs().iter().enumerate() {
        let output = with_closed(">&-", file_of(&format!("closed{at}.job"), job));
        says(&output, &format!("{UNWRITTEN}Bad file descriptor\n"));
    }
    let output = with_closed("<&-", file_of("unread.job", &EXAMPLE));
    says(&output, &format!("{UNREAD}Bad file descriptor\n"));
    assert_eq!(output.stdout, b"");
}

#[test]
fn input_that_cannot_be_read() {
    let folder = File::open(env!("CARGO_TARGET_TMPDIR")).expect("the folder is there");
    let output = Command::new(program()).stdin(folder).output();
    let output = output.expect("the program runs");
    says(&output, &format!("{UNREAD}Is a directory\n"));
    assert_eq!(output.stdout, b"");
}

/// A pipe that nobody reads any more: the write fails, and the program says so.
#[test]
fn a_pipe_without_a_reader() {
    let (reader, writer) = pipe().expect("there is a pipe");
    drop(reader);
    let mut command = Command::new(program());
    command.stdin(file_of("gone.job", &EXAMPLE)).stdout(writer);
    let output = command.output().expect("the program runs");
    says(&output, &format!("{UNWRITTEN}Broken pipe\n"));
}

/// The same end of a pipe, opened so that its calls do not wait.
fn unwaiting(end: &impl AsRawFd, way: &mut OpenOptions) -> File {
    let path = format!("/proc/self/fd/{}", end.as_raw_fd());
    let opened = way.custom_flags(O_NONBLOCK).open(path);
    opened.expect("an end of a pipe can be opened")
}

/// Runs the program with an output that does not wait, and reads it in pieces
/// with a pause after each.
fn read_slowly(job: File, piece: usize, pause: Duration) -> Output {
    let (mut reader, writer) = pipe().expect("there is a pipe");
    let mut command = Command::new(program());
    command.stdin(job).stderr(Stdio::piped());
    command.stdout(unwaiting(&writer, OpenOptions::new().write(true)));
    let child = command.spawn().expect("the program starts");
    drop((command, writer));
    let (mut text, mut part) = (Vec::new(), vec![0; piece]);
    loop {
        let got = reader.read(&mut part).expect("the output can be read");
        if got == 0 {
            break;
        }
        text.extend_from_slice(&part[..got]);
        thread::sleep(pause);
    }
    let mut output = child.wait_with_output().expect("the program ends");
    output.stdout = text;
    output
}

#[test]
fn output_that_does_not_wait() {
    let job = long_job();
    let name = "slow.job";
    let output = read_slowly(file_of(name, &job), 4096, Duration::from_millis(2));
    prints(&output, &job);
    let output = read_slowly(file_of(name, &job), 100_000, Duration::from_millis(100));
    prints(&output, &job);
    let output = read_slowly(file_of(name, &job), 1, Duration::ZERO);
    prints(&output, &job);
}

#[test]
fn input_that_does_not_wait() {
    let job = long_job();
    let (reader, writer) = pipe().expect("there is a pipe");
    let mut command = Command::new(program());
    command.stdin(unwaiting(&reader, OpenOptions::new().read(true)));
    command.stdout(Stdio::piped()).stderr(Stdio::piped());
    let child = command.spawn().expect("the program starts");
    drop(command);
    let output = thread::scope(|scope| {
        scope.spawn(|| {
            let mut writer = writer;
            for part in job.chunks(3000) {
                writer.write_all(part).expect("the input can be written");
                thread::sleep(Duration::from_millis(5));
            }
        });
        child.wait_with_output().expect("the program ends")
    });
    prints(&output, &job);
}

/// The library that stands before read and write, compiled.
fn shim(name: &str) -> PathBuf {
    let tests = Path::new(env!("CARGO_MANIFEST_DIR")).join("tests/shim/shim.c");
    let library = own(name);
    let mut command = Command::new("gcc");
    command.args(["-O2", "-shared", "-fPIC", "-o"]);
    let status = command.arg(&library).arg(tests).status();
    assert!(status.expect("there is a C compiler").success());
    library
}

/// Runs the program behind the shim: so many calls fail before each byte. It runs
/// in the shim's folder, since LD_PRELOAD is parted at spaces and colons.
fn behind(shim: &Path, job: File, reads: u64, writes: u64) -> Output {
    let [folder, name] = [shim.parent().map(Path::as_os_str), shim.file_name()];
    let preload = Path::new(".").join(name.expect("the shim has a name"));
    let mut command = Command::new(program());
    command.current_dir(folder.expect("the shim is in a folder"));
    command.env("LD_PRELOAD", preload).stdin(job);
    command.env("SHIM_READS", reads.to_string());
    command.env("SHIM_WRITES", writes.to_string());
    command.output().expect("the program runs")
}

#[test]
fn single_bytes_between_calls_that_fail() {
    let shim = shim("single.so");
    let small = Parts::new(&[2, 2], &[3], [9, 7], Random::new(2).pixels(63)).bytes();
    for (job, fails) in [
        (&small, 0),
        (&small, 1),
        (&small, 7),
        (&long_job(), 0),
        (&long_job(), 3),
    ] {
        let output = behind(&shim, file_of("single.job", job), fails, fails);
        prints(&output, job);
    }
    std::fs::remove_file(shim).expect("the shim can be removed");
}

/// The last try is enough, and there is no further one. The last of so many
/// failures is a write that was interrupted, and a read that would have to wait.
#[test]
fn as_many_tries_as_stated() {
    let shim = shim("tries.so");
    let job = || file_of("tries.job", &EXAMPLE);
    prints(&behind(&shim, job(), 0, TRIES - 1), &EXAMPLE);
    prints(&behind(&shim, job(), TRIES - 1, 0), &EXAMPLE);
    let output = behind(&shim, job(), 0, TRIES);
    says(&output, &format!("{UNWRITTEN}Interrupted system call\n"));
    assert_eq!(output.stdout, b"");
    let output = behind(&shim, job(), TRIES, 0);
    says(
        &output,
        &format!("{UNREAD}Resource temporarily unavailable\n"),
    );
    assert_eq!(output.stdout, b"");
    std::fs::remove_file(shim).expect("the shim can be removed");
}
