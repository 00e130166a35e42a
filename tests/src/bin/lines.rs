//! Lines per second of the runner, and its time as a multiple of `wc -l` on the same file, in one run.
//! Each file has a million short lines; start and end of the process count, what is printed goes nowhere.

use gridstep_tests::script::stored::runner;
use std::fs::{self, File};
use std::path::Path;
use std::process::{Command, Stdio};
use std::time::Instant;

const LINES: usize = 1_000_000;
const TIMES: usize = 5;

struct Case {
    name: &'static str,
    /// once, before the lines
    set_up: &'static str,
    /// over and over
    round: &'static str,
}

const CASES: [Case; 6] = [
    Case { name: "clear", set_up: "", round: "clear\n" },
    Case { name: "jumps", set_up: "track,0,0,9\n", round: "jump,0,3\njump,0,7\n" },
    Case {
        name: "mode calls",
        set_up: "track,0,0,9\ntrack,1,0,9\n",
        round: "play,0\npause,0\nresume,0\nplay,1\nstop,1\nstop,0\n",
    },
    Case {
        name: "advances by one tick, two tracks, four points",
        set_up: "track,0,0,9\nrepeat,0,1\npoint,0,0,1,0,0,0\npoint,0,5,2,0,0,0\nplay,0\n\
            track,1,0,29\nrepeat,1,1\npoint,1,0,3,0,0,0\npoint,1,9,4,0,0,0\nplay,1\n",
        round: "advance,1\nadvance,1\nadvance,1\nadvance,1\nadvance,1\nadvance,1\nadvance,1\nclear\n",
    },
    Case { name: "refused by the call", set_up: "", round: "play,0\n" },
    Case { name: "not in the grammar", set_up: "", round: "play,00\n" },
];

/// The file's bytes: the set-up, then rounds, cut to a million lines.
fn bytes(case: &Case) -> Vec<u8> {
    let lines = case.set_up.split_inclusive('\n').chain(case.round.split_inclusive('\n').cycle());
    lines.take(LINES).flat_map(str::bytes).collect()
}

/// The least time of one program over the file, in seconds.
fn least(program: &Path, words: &[&str], file: &Path) -> f64 {
    let once = |_| {
        let input = File::open(file).expect("the file is there");
        let began = Instant::now();
        let ended = Command::new(program).args(words).stdin(input).stdout(Stdio::null()).status();
        assert!(ended.expect("it starts").success(), "{} failed", program.display());
        began.elapsed().as_secs_f64()
    };
    (0..TIMES).map(once).fold(f64::MAX, f64::min)
}

fn main() {
    let file = std::env::temp_dir().join(format!("gridstep-lines-{}", std::process::id()));
    println!("| Lines | bytes | runner, lines a second | `wc -l`, lines a second | runner's time over `wc`'s |");
    println!("|---|---|---|---|---|");
    for case in &CASES {
        let bytes = bytes(case);
        fs::write(&file, &bytes).expect("the file is written");
        let (ours, counted) = (least(&runner(), &[], &file), least(Path::new("wc"), &["-l"], &file));
        let rate = |seconds: f64| LINES as f64 / seconds;
        let (name, length) = (case.name, bytes.len());
        println!("| {name} | {length} | {:.0} | {:.0} | {:.0} |", rate(ours), rate(counted), ours / counted);
    }
    fs::remove_file(&file).expect("the file is taken away");
}
