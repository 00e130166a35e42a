//! Writes tests/malformed.steps, and beside each stored script what the leaping model says that the runner prints.
//! What it writes is read against 01 before it is kept; tests/scripts.rs holds it against the single-tick model.

use gridstep_tests::peer::Peer;
use gridstep_tests::script::stored::{folder, scripts};
use gridstep_tests::script::{malformed, output};
use std::fs;

fn main() {
    fs::write(folder("tests").join("malformed.steps"), malformed::steps()).expect("malformed.steps is written");
    for script in scripts() {
        let input = fs::read(&script).expect("a script is read");
        let out = script.with_extension("out");
        fs::write(&out, output::<Peer>(&input)).expect("its output is written");
        println!("{}", out.display());
    }
}
