//! Runs the program `boresums` on an input. It has to end in order and to write
//! nothing to standard error.

use std::fs::{self, File};
use std::io::{ErrorKind, Write};
use std::path::{Path, PathBuf};
use std::process::{ChildStdin, Command, Stdio};
use std::thread;
use std::time::Duration;

/// How the input comes.
#[derive(Clone, Copy, Debug)]
pub enum Way {
    /// Through a pipe, as fast as it goes.
    Pipe,
    /// Through a pipe in pieces of so many bytes, with a pause after each.
    Pieces(usize, Duration),
    /// As a file, of this name while the program runs.
    File(&'static str),
}

pub fn program() -> PathBuf {
    let path = Path::new(env!("CARGO_MANIFEST_DIR")).join("../../target/bin/boresums");
    assert!(
        path.exists(),
        "target/bin/boresums is missing: run tools/staticlibs first"
    );
    path
}

/// Writes the input and closes the pipe. A program that has read enough may
/// close it before.
fn feed(mut pipe: ChildStdin, input: &[u8], piece: usize, pause: Duration) {
    for part in input.chunks(piece) {
        match pipe.write_all(part) {
            Ok(()) => thread::sleep(pause),
            Err(error) if error.kind() == ErrorKind::BrokenPipe => return,
            Err(error) => panic!("the input cannot be written: {error}"),
        }
    }
}

/// What the program prints. Its output is read while the input is written, so
/// that neither pipe can stay full; reading it begins after a wait.
fn printed_after(input: &[u8], way: Way, wait: Duration) -> Vec<u8> {
    let mut command = Command::new(program());
    command.stdout(Stdio::piped()).stderr(Stdio::piped());
    let file = match way {
        Way::File(name) => Some(Path::new(env!("CARGO_TARGET_TMPDIR")).join(name)),
        _ => None,
    };
    match &file {
        Some(path) => {
            fs::write(path, input).expect("the input can be written");
            command.stdin(File::open(path).expect("the input can be read"))
        }
        None => command.stdin(Stdio::piped()),
    };
    let mut child = command.spawn().expect("the program starts");
    let pipe = child.stdin.take();
    let (piece, pause) = match way {
        Way::Pieces(piece, pause) => (piece, pause),
        _ => (input.len().max(1), Duration::ZERO),
    };
    let output = thread::scope(|scope| {
        if let Some(pipe) = pipe {
            scope.spawn(move || feed(pipe, input, piece, pause));
        }
        thread::sleep(wait);
        child.wait_with_output().expect("the program ends")
    });
    if let Some(path) = &file {
        fs::remove_file(path).expect("the input can be removed");
    }
    let errors = String::from_utf8_lossy(&output.stderr);
    assert!(output.status.success(), "{}, {errors}", output.status);
    assert_eq!(errors, "", "standard error");
    output.stdout
}

/// Compares what is printed with the reference, and returns the text.
pub fn agrees_after(input: &[u8], way: Way, wait: Duration) -> String {
    let expected = reference::boresums(input);
    let found = printed_after(input, way, wait);
    if found != expected.as_bytes() {
        let pairs = found.iter().zip(expected.as_bytes());
        let at = pairs.take_while(|(found, byte)| found == byte).count();
        let from = |text: &[u8]| {
            let part = &text[at.min(text.len())..(at + 40).min(text.len())];
            String::from_utf8_lossy(part).into_owned()
        };
        panic!(
            "{} bytes are printed in place of {}; from byte {at}: found {:?}, expected {:?}; \
             {way:?}, input of {} bytes, {:?}",
            found.len(),
            expected.len(),
            from(&found),
            from(expected.as_bytes()),
            input.len(),
            &input[..input.len().min(111)],
        );
    }
    expected
}

/// The same, where the output is read at once.
pub fn agrees(input: &[u8], way: Way) -> String {
    agrees_after(input, way, Duration::ZERO)
}
