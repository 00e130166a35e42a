//! Links libfirmware.a from the folder GRIDSTEP_LIB, taken from the manifest's folder if it is relative.

use std::env;
use std::path::Path;

fn main() {
    println!("cargo:rerun-if-env-changed=GRIDSTEP_LIB");
    let manifest = env::var("CARGO_MANIFEST_DIR").expect("set by cargo");
    let folder = env::var("GRIDSTEP_LIB").unwrap_or("../crates/firmware/out".into());
    let folder = Path::new(&manifest).join(folder);
    let archive = folder.join("libfirmware.a");
    assert!(archive.is_file(), "no archive at {}", archive.display());
    println!("cargo:rerun-if-changed={}", archive.display());
    println!("cargo:rustc-link-search=native={}", folder.display());
    println!("cargo:rustc-link-lib=static=firmware");
}
