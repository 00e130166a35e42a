//! Where things stand: the scripts examples/*.steps and tests/*.steps, each with its output beside it, and the runner.

use std::fs;
use std::path::{Path, PathBuf};

/// A folder of the repository.
pub fn folder(name: &str) -> PathBuf {
    Path::new(env!("CARGO_MANIFEST_DIR")).join("..").join(name)
}

/// The runner: GRIDSTEP_RUNNER, taken from the manifest's folder if it is relative, or the one that `rt` makes.
pub fn runner() -> PathBuf {
    let path = std::env::var("GRIDSTEP_RUNNER").unwrap_or("../crates/runner/out/runner".into());
    let path = Path::new(env!("CARGO_MANIFEST_DIR")).join(path);
    assert!(path.is_file(), "no runner at {}: make it by `rt run` in crates/runner", path.display());
    path
}

/// The scripts of both folders, by name.
pub fn scripts() -> Vec<PathBuf> {
    let in_folder = |name| fs::read_dir(folder(name)).expect("a folder of scripts");
    let files = ["examples", "tests"].into_iter().flat_map(in_folder).map(|entry| entry.expect("an entry").path());
    let mut scripts: Vec<PathBuf> = files.filter(|file| file.extension().is_some_and(|end| end == "steps")).collect();
    scripts.sort();
    scripts
}

/// A script's bytes and its stored output.
pub fn read(script: &Path) -> (Vec<u8>, String) {
    let input = fs::read(script).expect("a script is read");
    let out = fs::read_to_string(script.with_extension("out"));
    (input, out.unwrap_or_else(|error| panic!("no output beside {}: {error}", script.display())))
}
