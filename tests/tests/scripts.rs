//! The stored outputs against the model; then the runner, byte for byte, on the stored scripts and on scripts from
//! fixed seeds.

use gridstep_tests::gen::Rng;
use gridstep_tests::model::Model;
use gridstep_tests::peer::Peer;
use gridstep_tests::script::made::{FULL_LOG, KINDS, Kind, script};
use gridstep_tests::script::stored::{folder, read, runner, scripts};
use gridstep_tests::script::{malformed, output};
use std::io::{BufRead, BufReader, Read, Write};
use std::process::{Command, Stdio};
use std::sync::mpsc;
use std::thread;
use std::time::Duration;

/// Single ticks beyond this clock are too many for the model; the leaping peer is held against it up to here.
const WITHIN_REACH: u64 = 400_000;
/// Scripts of each kind, and lines of each.
const SCRIPTS: u64 = 24;
const LINES: i64 = 2_500;
const PAUSE: Duration = Duration::from_micros(50);

/// Writes the input in pieces of at most so many bytes, while what the program prints is read.
/// A short input goes slowly, so that the pieces are read apart. Answers with what is printed and whether it ended well.
fn printed_by(command: &mut Command, input: &[u8], piece: usize, rng: &mut Rng) -> (Vec<u8>, bool) {
    let mut child = command.stdin(Stdio::piped()).stdout(Stdio::piped()).spawn().expect("the program starts");
    let (mut stdin, mut stdout) = (child.stdin.take().expect("a pipe"), child.stdout.take().expect("a pipe"));
    let mut printed = Vec::new();
    thread::scope(|scope| {
        scope.spawn(move || {
            let mut rest = input;
            while !rest.is_empty() {
                let (first, others) = rest.split_at(rest.len().min(rng.between(1, piece as i64) as usize));
                stdin.write_all(first).expect("the program reads all");
                thread::sleep(if input.len() < 5_000 { PAUSE } else { Duration::ZERO });
                rest = others;
            }
        });
        stdout.read_to_end(&mut printed).expect("what it prints is read");
    });
    (printed, child.wait().expect("it ends").success())
}

/// What the runner prints; on a difference the first line that differs.
fn hold(name: &str, input: &[u8], piece: usize, expected: &str) {
    let (printed, ended_well) = printed_by(&mut Command::new(runner()), input, piece, &mut Rng(piece as u64));
    let lines = |bytes: &[u8]| bytes.split(|&byte| byte == b'\n').map(<[u8]>::to_vec).collect::<Vec<_>>();
    assert!(ended_well, "{name}: the runner failed");
    if printed != expected.as_bytes() {
        let (ours, theirs) = (lines(expected.as_bytes()), lines(&printed));
        let at = ours.iter().zip(&theirs).position(|(a, b)| a != b).unwrap_or(ours.len().min(theirs.len()));
        let show = |lines: &[Vec<u8>]| lines.get(at).map_or("nothing".into(), |line| line.escape_ascii().to_string());
        panic!("{name}, line {} of the output: model {}, runner {}", at + 1, show(&ours), show(&theirs));
    }
}

fn end_clock(printed: &str) -> u64 {
    let end = printed.lines().last().and_then(|line| line.strip_prefix("end,")?.split(',').next()?.parse().ok());
    end.expect("a last line end,clock,held")
}

/// What the runner must print: the peer's, and the single-tick model's too where that is within reach.
fn expected(name: &str, input: &[u8]) -> (String, bool) {
    let printed = output::<Peer>(input);
    let within = end_clock(&printed) <= WITHIN_REACH;
    if within {
        assert!(output::<Model>(input) == printed, "{name}: model and peer differ");
    }
    (printed, within)
}

#[test]
fn stored_outputs() {
    let all = scripts();
    let singly = all.iter().filter(|script| {
        let (input, out) = read(script);
        let (printed, within) = expected(&script.display().to_string(), &input);
        assert_eq!(printed, out, "{}", script.display());
        within
    });
    let singly = singly.count();
    println!("{singly} of {} stored outputs by single ticks too", all.len());
    assert!(singly > 0);
    let (input, out) = read(&folder("tests").join("malformed.steps"));
    assert!(input == malformed::steps() && out == malformed::printed());
}

#[test]
fn runner_on_stored_scripts() {
    for script in scripts() {
        let (input, out) = read(&script);
        for piece in [1, 7, 63, 64, 65, 1 << 20] {
            hold(&script.display().to_string(), &input, piece, &out);
        }
    }
}

#[test]
fn runner_on_extremes() {
    hold("no input", b"", 1, "end,0,0\n");
    hold("a full log", FULL_LOG, 100, &expected("a full log", FULL_LOG).0);
    let many = b"\n".repeat(70_000);
    hold("many lines", &many, many.len(), &expected("many lines", &many).0);
    let long = [b"advance,".as_slice(), &b"1".repeat(300_000), b"\nadvance,2\n"].concat();
    hold("a long line", &long, 5_000, "refused,1,9\nend,2,0\n");
}

/// Refusals and shortfalls are printed as they come: before the next line is written.
#[test]
fn runner_as_lines_come() {
    let mut command = Command::new(runner());
    let mut child = command.stdin(Stdio::piped()).stdout(Stdio::piped()).spawn().expect("the runner starts");
    let (mut stdin, stdout) = (child.stdin.take().expect("a pipe"), child.stdout.take().expect("a pipe"));
    let (said, heard) = mpsc::channel();
    let reader = thread::spawn(move || BufReader::new(stdout).lines().try_for_each(|line| said.send(line)));
    let talk = [("play,0\n", "refused,1,1"), ("\n", "refused,2,9"), ("advance,1000000001\n", "short,3,1000000000,2")];
    for (line, answer) in talk {
        stdin.write_all(line.as_bytes()).expect("the runner reads");
        let printed = heard.recv_timeout(Duration::from_secs(20)).expect("an answer before the next line");
        assert_eq!(printed.expect("a line"), answer);
    }
    drop(stdin);
    assert_eq!(heard.recv().expect("the end").expect("a line"), "end,1000000000,0");
    assert!(child.wait().expect("it ends").success() && reader.join().expect("all is read").is_ok());
}

/// The launcher: one run for each script, standard input for `-` and for no script, a script that is not there.
#[test]
fn launcher() {
    let examples = folder("examples");
    let launch = |words: &[&str], input: &[u8]| {
        let mut command = Command::new(folder("gridstep"));
        command.args(words).current_dir(&examples).env("GRIDSTEP_RUNNER", runner()).stderr(Stdio::null());
        printed_by(&mut command, input, input.len(), &mut Rng(0))
    };
    let [(case_a, a), (_, b)] = ["case_a.steps", "mistakes.steps"].map(|name| read(&examples.join(name)));
    assert_eq!(launch(&["case_a.steps", "mistakes.steps"], b"").0, (a.clone() + &b).into_bytes());
    assert_eq!(launch(&[], &case_a), (a.clone().into_bytes(), true));
    assert_eq!(launch(&["mistakes.steps", "-"], &case_a), ((b + &a).into_bytes(), true));
    assert_eq!(launch(&["missing.steps", "case_a.steps"], b""), (a.into_bytes(), false));
}

/// Every cut of the input's end, so that each form lacks its LF once.
#[test]
fn runner_on_cut_scripts() {
    let input = read(&folder("examples").join("case_a.steps")).0;
    for length in 0..input.len() {
        let (out, _) = expected("case A cut", &input[..length]);
        hold(&format!("case A cut at {length}"), &input[..length], input.len(), &out);
    }
}

/// How often each refusal and each shortfall was printed, by its number.
#[derive(Debug, Default)]
struct Seen {
    lines: usize,
    singly: u32,
    refused: [u32; 10],
    short: [u32; 3],
    records: usize,
}

impl Seen {
    fn note(&mut self, input: &[u8], out: &str, within: bool) {
        self.lines += input.split_inclusive(|&byte| byte == b'\n').count();
        self.singly += u32::from(within);
        for line in out.lines() {
            let last = line.rsplit(',').next().and_then(|field| field.parse::<usize>().ok()).expect("a number");
            match line.split(',').next() {
                Some("refused") => self.refused[last] += 1,
                Some("short") => self.short[last] += 1,
                Some("end") => self.records += last,
                _ => {}
            }
        }
    }
}

fn compare(kind: Kind, seen: &mut Seen) {
    for nth in 0..SCRIPTS {
        let name = format!("{kind:?} script {nth}");
        let input = script(kind, nth, LINES);
        let (out, within) = expected(&name, &input);
        hold(&name, &input, [1 << 20, 4096, 100, 9][nth as usize % 4], &out);
        seen.note(&input, &out, within);
    }
}

#[test]
fn runner_on_made_scripts() {
    let mut seen = Seen::default();
    for kind in KINDS {
        compare(kind, &mut seen);
        println!("up to {kind:?}: {seen:?}");
    }
    assert!([1, 2, 3, 4, 5, 6, 8, 9].iter().all(|&number| seen.refused[number] > 0), "a refusal never came");
    assert_eq!((seen.refused[0], seen.refused[7]), (0, 0), "the runner's log is never short of what is held");
    assert!(seen.short[1] > 0 && seen.short[2] > 0);
    assert!(seen.singly > 0, "no script was within the single-tick model's reach");
}
