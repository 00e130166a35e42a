//! The model of 01's script lines: the grammar, malformed lines one by one, case A, and what is printed.

use gridstep_tests::call::{Call, Call::*, Pairs};
use gridstep_tests::gen::{PROFILES, case};
use gridstep_tests::model::{COUNT_MOST, Model};
use gridstep_tests::peer::Peer;
use gridstep_tests::script::made::FULL_LOG;
use gridstep_tests::script::{LINE_MOST, call_of, line_of, malformed, number, output};

/// Each form of 01, its fields in order.
#[test]
fn forms() {
    let forms = [
        ("track,1,-2,3", Track(1, -2, 3)),
        ("start,1,2", Start(1, 2)),
        ("end,1,2", End(1, 2)),
        ("loops,1,2", Loops(1, 2)),
        ("repeat,1,0", Repeat(1, 0)),
        ("dir,1,0", Direction(1, 0)),
        ("point,1,2,3,4,5,6", Point(1, 2, 3, 4, 5, 6)),
        ("drop,1,2", Drop(1, 2)),
        ("action,1,2,3,4", Action(1, 2, 3, 4)),
        ("jump,1,2", Jump(1, 2)),
        ("play,1", Play(1)),
        ("pause,1", Pause(1)),
        ("resume,1", Resume(1)),
        ("stop,1", Stop(1)),
        ("advance,1", Advance(1)),
        ("clear", Clear),
    ];
    for (line, call) in forms {
        assert_eq!(call_of(line.as_bytes()), Some(call));
        assert_eq!(line_of(call).as_deref(), Some(line));
    }
}

/// Master and rate have no lines before 2.8.
#[test]
fn no_lines_yet() {
    let lines: [&[u8]; 5] = [b"rate,0,1,2", b"rate,0", b"rate", b"master,0,1", b"master,0,1,3,31"];
    lines.iter().for_each(|line| assert_eq!(call_of(line), None));
    assert_eq!([Rate(0, 1, 2), Master(0, 1, Pairs::NONE)].map(line_of), [None, None]);
}

#[test]
fn numbers() {
    let good = [("0", 0), ("7", 7), ("-7", -7), ("10", 10), ("-100", -100), ("4294967295", COUNT_MOST)];
    for (field, value) in good {
        assert_eq!(number(field.as_bytes()), Some(value), "{field}");
    }
    assert_eq!(number(b"-4294967295"), Some(-COUNT_MOST));
    let bad = ["", "-", "-0", "00", "01", "-01", "+1", "--1", "1-", " 1", "1 ", "1\r", "1\0", "a", "1a", "1.0"];
    let large = ["4294967296", "-4294967296", "10000000000", "18446744073709551616", "99999999999999999999999999"];
    for field in bad.iter().chain(&large) {
        assert_eq!(number(field.as_bytes()), None, "{field:?}");
    }
}

/// Any call of the lists is the line that says it, if its numbers and its length are the grammar's.
#[test]
fn lines_of_calls() {
    let sized = |call: &Call| call.encode()[1..].iter().all(|n| (-COUNT_MOST..=COUNT_MOST).contains(n));
    let mut read = 0;
    for (profile, seed) in PROFILES.into_iter().flat_map(|profile| (0..50).map(move |seed| (profile, seed))) {
        for call in case(profile, seed).calls {
            let Some(line) = line_of(call) else { continue };
            let fits = sized(&call) && line.len() < LINE_MOST;
            assert_eq!(call_of(line.as_bytes()), fits.then_some(call), "{line}");
            read += u32::from(fits);
        }
    }
    println!("{read} lines of calls read");
    assert!(read > 10_000);
}

/// Each malformed line alone on a fresh board with a track: refused 9, and nothing else happens.
#[test]
fn malformed_lines() {
    let lines: Vec<&[u8]> = malformed::lines().filter(|(_, number)| *number == 9).map(|(line, _)| line).collect();
    for line in &lines {
        let input = [b"track,0,0,10\n", *line].concat();
        assert_eq!(output::<Model>(&input), "refused,2,9\nend,0,0\n", "{}", line.escape_ascii());
    }
    println!("{} malformed lines", lines.len());
    assert!(lines.len() > 100);
}

/// The same lines in one script: the refusals by hand, line by line.
#[test]
fn malformed_script() {
    assert_eq!(output::<Model>(&malformed::steps()), malformed::printed());
    assert_eq!(output::<Peer>(&malformed::steps()), malformed::printed());
}

#[test]
fn ends_of_input() {
    let cases: [(&[u8], &str); 9] = [
        (b"", "end,0,0\n"),
        (b"\n", "refused,1,9\nend,0,0\n"),
        (b"\n\n", "refused,1,9\nrefused,2,9\nend,0,0\n"),
        (b"advance,3\n", "end,3,0\n"),
        (b"advance,3", "refused,1,9\nend,0,0\n"),
        (b"advance,3\nadvance,4", "refused,2,9\nend,3,0\n"),
        (b"advance,3\n\n", "refused,2,9\nend,3,0\n"),
        (b"\0", "refused,1,9\nend,0,0\n"),
        (b"advance,-1\nadvance,2\n", "refused,1,3\nend,2,0\n"),
    ];
    for (input, printed) in cases {
        assert_eq!(output::<Model>(input), printed, "{}", input.escape_ascii());
    }
    let long = vec![b'1'; 100_000];
    assert_eq!(output::<Model>(&long), "refused,1,9\nend,0,0\n");
    assert_eq!(output::<Model>(&[&long[..], b"\nadvance,1\n"].concat()), "refused,1,9\nend,1,0\n");
}

/// 01's case A, whole.
#[test]
fn case_a() {
    let input = b"track,0,0,10\nstart,0,2\nend,0,5\nloops,0,2\npoint,0,2,7,0,0,0\npoint,0,5,9,1,0,0\n\
        action,0,1,3,20\naction,0,1,0,21\nplay,0\nadvance,10\nresume,0\nadvance,10\n";
    let printed = "1,0,1,7,0,2,0\n4,0,1,9,0,5,0\n4,0,2,20,19,5,1\n11,0,1,7,0,2,1\n14,0,1,9,0,5,1\n\
        14,0,2,21,16,5,2\nend,20,6\n";
    assert_eq!(output::<Model>(input), printed);
    assert_eq!(output::<Peer>(input), printed);
}

/// A log of 4,096 records: the tick that would write one more is not taken, a mode call's record is refused 8.
#[test]
fn a_full_log() {
    let record = |tick: u32| format!("{tick},0,1,{},0,{},{}\n", 8 + tick % 2, -((tick % 2) as i32), (tick - 1) / 2);
    let printed = "short,7,4096,1\nshort,9,0,1\nrefused,10,8\n".to_string()
        + &(1..=4096).map(record).collect::<String>()
        + "end,4096,4096\n";
    assert_eq!(output::<Model>(FULL_LOG), printed);
}
