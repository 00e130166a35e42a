//! Bench cards A to L of 01 on the model and the peer; then both on lists of calls, and lists cut anew.

use gridstep_tests::against;
use gridstep_tests::call::{Call, Call::Advance, Reply::Done};
use gridstep_tests::cards;
use gridstep_tests::gen::{Case, PROFILES, Profile, case, recut};
use gridstep_tests::lists::{Replay, Seen, in_run, merged, observed};
use gridstep_tests::model::Model;
use gridstep_tests::peer::Peer;
use gridstep_tests::record::{POINT, Record};
use gridstep_tests::tally::Tally;

macro_rules! on_both {
    ($($name:ident)*) => { $(#[test] fn $name() { cards::$name::<Model>(); cards::$name::<Peer>(); })* };
}

on_both!(a b c d e f g h i j k l);

/// Lists of a profile.
fn lists(profile: Profile) -> u64 {
    if profile == Profile::Full { 250 } else { 1000 }
}

#[test]
fn lists_agree() {
    let mut tally = Tally::default();
    for profile in PROFILES {
        for seed in 0..lists(profile) {
            against::side_by_side::<Peer>(&format!("{profile:?} list {seed}"), &case(profile, seed), &mut tally);
        }
        println!("up to {profile:?}: {tally:?}");
    }
    assert!(tally.kinds.iter().all(|&number| number > 1000));
    assert!(tally.records[1..].iter().all(|&number| number > 1000));
    // 7 and 9 cannot come in a list with one log: see rules.rs.
    assert!([1, 2, 3, 4, 5, 6, 8, 10, 11].iter().all(|&number| tally.refusals[number] > 500));
    assert!(tally.flips.iter().all(|&number| number > 1000));
}

fn replayed(case: &Case, calls: &[Call]) -> (Vec<Seen>, Replay) {
    let mut replay = Replay::new(&case.log);
    replay.board.clock = case.clock;
    let replies = replay.calls(calls);
    (observed(calls, &replies), replay)
}

/// Two lists that differ only in the cut: the same seen of each, the same board, log and row.
#[test]
fn cuts_agree() {
    let mut cut = 0;
    for profile in PROFILES {
        for seed in 0..lists(profile) / 3 {
            let case = case(profile, seed + 50_000);
            let calls = recut(&case.calls, seed);
            let (seen, whole) = replayed(&case, &case.calls);
            let (seen_anew, anew) = replayed(&case, &calls);
            if merged(&calls).is_none() {
                continue;
            }
            cut += u32::from(calls != case.calls);
            assert_eq!(merged(&calls), merged(&case.calls));
            assert_eq!(seen_anew, seen, "{profile:?} list {seed}");
            assert_eq!(anew.board, whole.board);
            assert!(anew.log == whole.log && anew.row == whole.row);
        }
    }
    println!("{cut} lists cut anew");
    assert!(cut > 1000);
}

/// The arrivals of the next tick at a point of their own, from walk and points alone, as kind 1 records.
fn arrivals(board: &Model) -> Vec<Record> {
    let playing = (0..16).filter(|t| board.playing() >> t & 1 == 1);
    let report = |t: i64| {
        let track = board.track(t).filter(|track| track.remainder + track.steps >= track.ticks)?;
        let (position, clock) = (track.arrival(), board.clock + 1);
        let point = board.points.get(&(t, position))?;
        let (event, detail) = (point.event as u8, (point.command * 16 + point.target) as u8);
        let (position, passes, clock) = (position as i32, track.passes as u32, clock as u32);
        Some(Record { clock, track: t as u8, kind: POINT, event, detail, position, passes })
    };
    playing.filter_map(report).collect()
}

/// One record of kind 1 for each arrival, in a tick taken, at a point of its own, and no more of that kind.
#[test]
fn rows_report_arrivals() {
    let mut reports = 0;
    for profile in PROFILES {
        for seed in 0..60 {
            let case = case(profile, seed + 90_000);
            let (_, whole) = replayed(&case, &case.calls);
            let mut due = Vec::new();
            let mut replay = Replay::new(&case.log);
            replay.board.clock = case.clock;
            for call in case.calls {
                let count = in_run(&call).unwrap_or(-1);
                (count < 0).then(|| replay.call(call));
                for _ in 0..count {
                    let next = arrivals(&replay.board);
                    if replay.call(Advance(1)) != Done(1) {
                        break;
                    }
                    due.extend(next);
                }
            }
            let records = whole.row.iter().map(|bytes| Record::unpack(bytes).expect("a record"));
            let row: Vec<Record> = records.filter(|record| record.kind == POINT).collect();
            assert_eq!(row, due, "{profile:?} list {seed}");
            reports += row.len();
        }
    }
    println!("{reports} arrivals at points");
    assert!(reports > 10_000);
}
