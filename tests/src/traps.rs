//! 01's traps, the order of refusals and a leap over the whole clock, for any board.

use crate::bench::{Begun, Bench};
use crate::call::Reply::{Accepted, ClockEnd, Done, LogFull, Refused};
use crate::call::{CALL_WIDTH, Call, Call::*, Pairs, Reply};

/// The codes of calls.
pub const CODES: i64 = 22;
/// Master's, whose second number is a track's too.
pub const MASTER: i64 = 21;

/// Each call once, with arguments that case A's board would take (master apart, which needs a second track), and once
/// with a track that is absent; then every turn of every track, and a rate and no rate for each.
pub fn each_call() -> Vec<Call> {
    let call = |[code, a, b, c]: [i64; 4]| {
        let mut row = [0; CALL_WIDTH];
        row[..4].copy_from_slice(&[code, a, b, c]);
        Call::decode(&row).expect("a call")
    };
    let mut calls: Vec<Call> = (1..=CODES).flat_map(|code| [call([code, 0, 3, 5]), call([code, 99, -9, 0])]).collect();
    calls.extend([Master(0, 1, Pairs::new(&[[3, 7], [5, 9]])), Master(1, 0, Pairs::NONE)]);
    calls.extend((0..16).flat_map(|t| [Direction(t, 0), Direction(t, 1), Rate(t, 2, 5), Rate(t, 5, 2)]));
    calls
}

/// 7, 1, 6, 2, 3, 4, 5, 8: of two that hold, the one named first.
pub fn order<B: Begun>() {
    let mut bench = Bench::<B>::case_a(16);
    let ones = [Track(16, 9, 9), Track(-1, 0, 1), Start(1, 99), Point(1, 99, 0, 2, 5, 16), Drop(1, 0), ShowTrack(16)];
    ones.iter().chain(&[Play(1), ShowPoint(1, 0), Count(1, 1, 0)]).for_each(|&c| assert_eq!(bench.call(c), Refused(1)));
    assert_eq!(bench.call(Track(0, 9, 9)), Refused(6));
    bench.accept(&[Action(0, 0, 1, 5), Play(0)]);
    let twos = [Start(0, 99), Loops(0, 0), Action(0, 1, 1, 0), Jump(0, 99), Drop(0, 99), Point(0, 99, 0, 0, 0, 0)];
    twos.iter().chain(&[Resume(0), Play(0)]).for_each(|&c| assert_eq!(bench.call(c), Refused(2)));
    bench.log.truncate(15);
    let sevens = [Play(0), Stop(0), Pause(77), Advance(0), Advance(-1)];
    sevens.iter().for_each(|&c| assert_eq!(bench.call(c), Refused(7)));
    bench.accept(&[Clear, Pause(0)]);
    assert_eq!(bench.call(Advance(-1)), Refused(3));
    let threes = [Action(0, 1, 1, 0), Point(0, 3, 1, 0, 0, 1), Point(0, 3, 1, 0, 1, 5), Point(0, 3, 1, 0, 4, -1)];
    threes.iter().for_each(|&c| assert_eq!(bench.call(c), Refused(3)));
    bench.accept(&[Action(0, 2, 0, 6)]);
    assert_eq!(bench.call(Stop(0)), Refused(8));
    bench.accept(&[Action(0, 2, 0, 0), Stop(0), Stop(0)]);
    assert_eq!(bench.call(Drop(0, i64::MIN)), Refused(4));
    assert_eq!(bench.call(Count(0, i64::MIN, i64::MAX)), Reply::Count(2));
}

/// Reports over the whole clock: a point k steps from home, span of n locations, repeat on.
pub fn leaps_the_clock<B: Begun>() {
    let (span, k) = (999_983, 17);
    let mut bench = Bench::<B>::new(16 * 2000);
    bench.accept(&[Track(0, 0, span - 1), Repeat(0, 1), Point(0, k, 5, 0, 0, 0), Play(0)]);
    bench.accept(&[Track(1, 0, 1), Repeat(1, 1), Play(1)]);
    assert_eq!(bench.call(Advance(4_294_967_295)), ClockEnd(1_000_000_000));
    let lines = bench.lines();
    assert_eq!(lines.len() as i64, 1 + (1_000_000_000 - 1 - k) / span);
    assert!((0..).zip(&lines).all(|(pass, line)| *line == [pass * span + k + 1, 0, 1, 5, 0, k, pass]));
    assert!(matches!(bench.call(ShowTrack(1)), Reply::Track(track) if track.passes == 500_000_000));
}

/// 01's traps and the readings of steps.
pub fn traps<B: Begun>() {
    // The home point at play, once; not again after pause and resume.
    let mut bench = Bench::<B>::new(160);
    bench.accept(&[Track(0, 0, 1), Repeat(0, 1), Point(0, 0, 7, 0, 0, 0), Play(0)]);
    assert_eq!(bench.call(Advance(1)), Done(1));
    bench.accept(&[Pause(0), Resume(0)]);
    assert_eq!(bench.call(Advance(1)), Done(1));
    assert_eq!(bench.lines(), [[1, 0, 1, 7, 0, 0, 0]]);
    // A command acts after a higher track has stepped; a started track steps from the next tick on.
    let mut bench = Bench::<B>::new(160);
    bench.accept(&[Track(0, 0, 1), Track(1, 0, 5), Track(2, 0, 5), Point(0, 0, 1, 0, 4, 1), Point(0, 1, 2, 1, 1, 2)]);
    bench.accept(&[Point(1, 0, 3, 0, 0, 0), Point(2, 0, 4, 0, 0, 0), Play(0), Play(1)]);
    assert_eq!(bench.call(Advance(3)), Done(3));
    let lines = [[1, 0, 1, 1, 65, 0, 0], [1, 1, 1, 3, 0, 0, 0], [2, 0, 1, 2, 18, 1, 0], [3, 2, 1, 4, 0, 0, 0]];
    assert_eq!(bench.lines(), lines);
    // Loops 1, jump to far, play: stops in the first tick, its wait for nothing (decisions 4 and 7).
    let mut bench = Bench::<B>::new(160);
    bench.accept(&[Track(0, 0, 3), Point(0, 3, 9, 1, 4, 0), Action(0, 1, 0, 8), Jump(0, 3), Play(0)]);
    assert_eq!(bench.call(Advance(2)), Done(2));
    assert_eq!(bench.lines(), [[1, 0, 1, 9, 64, 3, 0], [1, 0, 2, 8, 16, 3, 1]]);
    assert!(
        matches!(bench.call(ShowTrack(0)), Reply::Track(t) if (t.position, t.due, t.passes, t.mode) == (0, 1, 0, 0))
    );
    // ClockEnd is asked before LogFull.
    let mut bench = Bench { board: B::begun(1_000_000_000), log: vec![] };
    bench.accept(&[Track(0, 0, 3), Point(0, 0, 9, 0, 0, 0), Play(0)]);
    assert_eq!(bench.call(Advance(1)), ClockEnd(0));
    let mut bench = Bench { board: B::begun(999_999_999), log: vec![] };
    bench.accept(&[Track(0, 0, 3), Point(0, 0, 9, 0, 0, 0), Play(0)]);
    assert_eq!(bench.call(Advance(1)), LogFull(0));
    assert_eq!(bench.call(Stop(0)), Accepted);
}
