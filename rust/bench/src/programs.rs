//! The program `boresums`, the same program in Rust, and `cat`, each started as
//! a process that reads a file and prints to a pipe.

use std::fs::File;
use std::io::Read;
use std::path::{Path, PathBuf};
use std::process::{Command, Stdio};

/// A place beside this program's own file.
pub fn beside(name: &str) -> PathBuf {
    let own = std::env::current_exe().expect("this program has a path");
    own.with_file_name(name)
}

pub fn boresums() -> PathBuf {
    let path = Path::new(env!("CARGO_MANIFEST_DIR")).join("../../target/bin/boresums");
    assert!(
        path.exists(),
        "target/bin/boresums is missing; build it first: tools/staticlibs"
    );
    path
}

/// The program in Rust, which is built first: `cargo run` builds only the
/// benchmark itself.
pub fn boresums_rust() -> PathBuf {
    let cargo = std::env::var_os("CARGO").unwrap_or("cargo".into());
    let built = Command::new(cargo)
        .args(["build", "--quiet", "--offline", "--release"])
        .args(["-p", "bench", "--bin", "boresums_rust"])
        .current_dir(env!("CARGO_MANIFEST_DIR"))
        .status();
    assert!(built.is_ok_and(|status| status.success()), "cargo build");
    beside("boresums_rust")
}

/// Runs a program with this file as its input, and puts what it prints in place
/// of the text.
pub fn run(program: &Path, input: &Path, text: &mut Vec<u8>) {
    text.clear();
    let mut child = Command::new(program)
        .stdin(File::open(input).expect("the input can be read"))
        .stdout(Stdio::piped())
        .spawn()
        .expect("the program starts");
    let mut pipe = child.stdout.take().expect("the output is a pipe");
    pipe.read_to_end(text).expect("the output can be read");
    let status = child.wait().expect("the program ends");
    assert!(status.success(), "{status}");
}
