//! Links the static library of the C calls, which has to be built before this
//! package.

use std::path::Path;
use std::process::exit;

fn main() {
    let manifest = std::env::var("CARGO_MANIFEST_DIR").expect("cargo names the manifest's folder");
    let folder = Path::new(&manifest).join("../../target/staticlib");
    let library = folder.join("libbore.a");
    if !library.exists() {
        eprintln!("libbore.a is missing; build it first: tools/staticlibs");
        exit(1);
    }
    println!("cargo:rustc-link-search=native={}", folder.display());
    println!("cargo:rustc-link-lib=static=bore");
    println!("cargo:rerun-if-changed={}", library.display());
}
