//! 02's rates (2.4) in small cases whose tracks and records are worked out by hand, for any board: when steps are made, and
//! what keeps or clears the remainder.

pub mod long;
pub mod refused;

use crate::bench::{Begun, Bench};
use crate::call::{Call, Call::*};
use crate::followers::{shown, ticks};
use crate::track::{self, PAUSED, PLAYING, STOPPED, WAITING};

/// Track 0 over 0 to 5 at a rate, STOPPED: three loops, a point on home (event 9), and more set up.
fn slow<B: Begun>(p: i64, q: i64, more: &[Call]) -> Bench<B> {
    let mut bench = Bench::new(160);
    bench.accept(&[Track(0, -3, 9), Start(0, 0), End(0, 5), Loops(0, 3), Point(0, 0, 9, 0, 0, 0), Rate(0, p, q)]);
    bench.accept(more);
    bench
}

/// The same, playing at clock 0.
fn playing<B: Begun>(p: i64, q: i64, more: &[Call]) -> Bench<B> {
    let mut bench = slow(p, q, more);
    bench.accept(&[Play(0)]);
    bench
}

/// A track's remainder, position and due flag.
fn place<B: Begun>(bench: &mut Bench<B>, t: i64) -> [i64; 3] {
    let track = shown(bench, t);
    [track.remainder, track.position, track.due]
}

/// Each tick: the remainder, the position and the due flag that track 0 is left with.
fn by_ticks<B: Begun>(bench: &mut Bench<B>, places: &[[i64; 3]]) {
    for (nth, &expected) in places.iter().enumerate() {
        ticks(bench, 1);
        assert_eq!(place(bench, 0), expected, "tick {} of these", nth + 1);
    }
}

/// 2 in 5 from rest: steps in ticks 3 and 5, 8 and 10. In the other ticks the remainder alone changes.
pub fn two_in_five<B: Begun>() {
    let first = [[2, 0, 1], [4, 0, 1], [1, 0, 0], [3, 0, 0], [0, 1, 0]];
    let second = [[2, 1, 0], [4, 1, 0], [1, 2, 0], [3, 2, 0], [0, 3, 0]];
    let mut bench = playing::<B>(2, 5, &[Point(0, 1, 8, 0, 0, 0)]);
    by_ticks(&mut bench, &[first, second].concat());
    let lines = [[3, 0, 1, 9, 0, 0, 0], [5, 0, 1, 8, 0, 1, 0]];
    assert_eq!((bench.lines(), bench.clock_and_held()), (lines.to_vec(), (10, 2)));
    let mut at_once = playing::<B>(2, 5, &[Point(0, 1, 8, 0, 0, 0)]);
    ticks(&mut at_once, 10);
    assert_eq!((shown(&mut at_once, 0), at_once.lines()), (shown(&mut bench, 0), lines.to_vec()));
}

/// 1 in q: the first step is in tick q, the next in tick 2 q. Until then the track is due and nothing is reported.
pub fn one_in_many<B: Begun>() {
    for q in [2, 3, 7, 1_000] {
        let mut bench = playing::<B>(1, q.into(), &[]);
        let before = shown(&mut bench, 0);
        ticks(&mut bench, q - 1);
        assert_eq!(shown(&mut bench, 0), track::Track { remainder: i64::from(q) - 1, ..before });
        assert_eq!(bench.clock_and_held(), (q - 1, 0));
        ticks(&mut bench, 1);
        assert_eq!((place(&mut bench, 0), bench.lines()), ([0, 0, 0], vec![[q.into(), 0, 1, 9, 0, 0, 0]]));
        ticks(&mut bench, q - 1);
        assert_eq!(place(&mut bench, 0), [i64::from(q) - 1, 0, 0]);
        ticks(&mut bench, 1);
        assert_eq!((place(&mut bench, 0), bench.lines().len()), ([0, 1, 0], 1));
    }
}

/// As many steps as ticks: a step in every tick, as at 1 in 1.
pub fn every_tick<B: Begun>() {
    for q in [1, 2, 5, 999, 1_000] {
        let (mut bench, mut plain) = (playing::<B>(q, q, &[]), playing::<B>(1, 1, &[]));
        for count in [1, 1, 3, 4, 9, 2] {
            ticks(&mut bench, count);
            ticks(&mut plain, count);
            let expected = track::Track { steps: q, ticks: q, ..shown(&mut plain, 0) };
            assert_eq!((shown(&mut bench, 0), bench.lines()), (expected, plain.lines()));
        }
        // Three passes of six steps; the last one stops it, at clock 18.
        assert_eq!((shown(&mut bench, 0).mode, bench.lines().len()), (STOPPED, 3));
    }
}

/// A tick without a step is no arrival: no wait, no command, no pass, no stop, however the track stands.
pub fn no_arrival<B: Begun>() {
    // On far, loops 1: the arrival that stops it is in tick 3, though it stands there from the start.
    let mut bench = slow::<B>(1, 3, &[Loops(0, 1), Point(0, 5, 8, 1, 4, 0), Action(0, 1, 0, 21), Jump(0, 5), Play(0)]);
    by_ticks(&mut bench, &[[1, 5, 1], [2, 5, 1]]);
    assert_eq!((shown(&mut bench, 0).mode, shown(&mut bench, 0).passes, bench.lines().len()), (PLAYING, 0, 0));
    by_ticks(&mut bench, &[[0, 0, 1]]);
    assert_eq!(bench.lines(), [[3, 0, 1, 8, 64, 5, 0], [3, 0, 2, 21, 16, 5, 1]]);
    // On a visited point, and on far after its pass: neither is reached again while it stands there.
    let mut bench = playing::<B>(1, 4, &[Start(0, 4), Point(0, 4, 7, 0, 0, 0), Point(0, 5, 8, 0, 0, 0), Repeat(0, 1)]);
    ticks(&mut bench, 15);
    assert_eq!(bench.lines(), [[4, 0, 1, 7, 0, 4, 0], [8, 0, 1, 8, 0, 5, 0], [12, 0, 1, 7, 0, 4, 1]]);
    assert_eq!((place(&mut bench, 0), shown(&mut bench, 0).passes), ([3, 4, 0], 1));
}

/// Paused after one tick of 2 in 5: the ticks that it stands count for nothing, those before it count.
pub fn kept_by_pause<B: Begun>() {
    let mut bench = playing::<B>(2, 5, &[]);
    by_ticks(&mut bench, &[[2, 0, 1]]);
    bench.accept(&[Pause(0)]);
    by_ticks(&mut bench, &[[2, 0, 1]; 3]);
    bench.accept(&[Resume(0)]);
    assert_eq!(place(&mut bench, 0), [2, 0, 1]);
    by_ticks(&mut bench, &[[4, 0, 1], [1, 0, 0]]);
    bench.accept(&[Pause(0)]);
    ticks(&mut bench, 1_000);
    bench.accept(&[Resume(0)]);
    by_ticks(&mut bench, &[[3, 0, 0], [0, 1, 0]]);
    assert_eq!(bench.lines(), [[6, 0, 1, 9, 0, 0, 0]]);
}

/// 2 in 3 waits on home with remainder 1, so that the tick after it is resumed has a step; paused from there, likewise.
pub fn kept_by_wait<B: Begun>() {
    for through_pause in [false, true] {
        let mut bench = playing::<B>(2, 3, &[Point(0, 0, 9, 1, 0, 0), Action(0, 1, 3, 20)]);
        by_ticks(&mut bench, &[[2, 0, 1], [1, 0, 0]]);
        assert_eq!(shown(&mut bench, 0).mode, WAITING);
        by_ticks(&mut bench, &[[1, 0, 0]; 3]);
        if through_pause {
            bench.accept(&[Pause(0)]);
            by_ticks(&mut bench, &[[1, 0, 0]; 2]);
        }
        bench.accept(&[Resume(0)]);
        by_ticks(&mut bench, &[[0, 1, 0], [2, 1, 0], [1, 2, 0]]);
        assert_eq!(bench.lines(), [[2, 0, 1, 9, 0, 0, 0], [2, 0, 2, 20, 19, 0, 0]]);
    }
}

/// A jump sets position and due, and leaves the remainder: the step at the new place is in the tick that was coming.
pub fn kept_by_jump<B: Begun>() {
    let mut bench = playing::<B>(2, 5, &[Point(0, 3, 7, 0, 0, 0)]);
    ticks(&mut bench, 2);
    bench.accept(&[Pause(0)]);
    let before = shown(&mut bench, 0);
    bench.accept(&[Jump(0, 3)]);
    assert_eq!(shown(&mut bench, 0), track::Track { position: 3, ..before });
    assert_eq!((before.remainder, before.due, before.mode), (4, 1, PAUSED));
    bench.accept(&[Resume(0)]);
    by_ticks(&mut bench, &[[1, 3, 0], [3, 3, 0], [0, 4, 0]]);
    assert_eq!(bench.lines(), [[3, 0, 1, 7, 0, 3, 0]]);
}

/// Turned on home at 2 in 3 (2.3): due is set and the remainder, 1, stays. The next tick closes the pass, the one after it
/// has no step, and the third crosses to the other end.
pub fn kept_by_turn<B: Begun>() {
    for (direction, home, far) in [(0, 0, 5), (1, 5, 0)] {
        let points = [Point(0, home, 9, 0, 0, 0), Point(0, far, 8, 0, 0, 0)];
        let mut bench = playing::<B>(2, 3, &[&[Direction(0, direction)], &points[..]].concat());
        by_ticks(&mut bench, &[[2, home, 1], [1, home, 0]]);
        bench.accept(&[Pause(0)]);
        let before = shown(&mut bench, 0);
        bench.accept(&[Direction(0, 1 - direction)]);
        assert_eq!(shown(&mut bench, 0), track::Track { direction: 1 - direction, due: 1, ..before });
        bench.accept(&[Resume(0)]);
        by_ticks(&mut bench, &[[0, home, 0], [2, home, 0], [1, far, 0]]);
        assert_eq!(shown(&mut bench, 0).passes, 1);
        let closed = [[2, 0, 1, 9, 0, home, 0], [3, 0, 1, 9, 0, home, 0]];
        assert_eq!(bench.lines(), [&closed[..], &[[5, 0, 1, 8, 0, far, 1]]].concat());
        // Turned elsewhere, the direction alone changes: the tick that was coming has its step, the other way.
        let step = far + (home - far).signum();
        by_ticks(&mut bench, &[[0, step, 0], [2, step, 0]]);
        bench.accept(&[Pause(0), Direction(0, direction), Resume(0)]);
        by_ticks(&mut bench, &[[1, far, 0], [0, home, 0]]);
    }
}

/// The stop call clears it, from every mode: the next step from rest is in the third tick of 2 in 5 again.
pub fn cleared_by_stop<B: Begun>() {
    for mode in [PLAYING, PAUSED, WAITING] {
        let wait = i64::from(mode == WAITING);
        let mut bench = playing::<B>(2, 5, &[Point(0, 0, 9, wait, 0, 0)]);
        ticks(&mut bench, 3);
        bench.accept(if mode == PAUSED { &[Pause(0)][..] } else { &[] });
        let before = shown(&mut bench, 0);
        assert_eq!((before.mode, before.remainder), (mode, 1));
        bench.accept(&[Stop(0)]);
        assert_eq!(shown(&mut bench, 0), track::Track { mode: STOPPED, remainder: 0, due: 1, ..before });
        bench.accept(&[Stop(0), Play(0)]);
        by_ticks(&mut bench, &[[2, 0, 1], [4, 0, 1], [1, 0, 0]]);
        assert_eq!(bench.lines(), [[3, 0, 1, 9, 0, 0, 0], [6, 0, 1, 9, 0, 0, 0]]);
    }
}

/// Its own stop clears what the last step has left, 2 of 3 in 5; so does the one on the pass that a turn closes.
pub fn cleared_by_the_last_pass<B: Begun>() {
    let mut bench = playing::<B>(3, 5, &[Loops(0, 1), Start(0, 4), Action(0, 1, 0, 21)]);
    by_ticks(&mut bench, &[[3, 4, 1], [1, 4, 0], [4, 4, 0], [0, 4, 1], [0, 4, 1]]);
    assert_eq!(bench.lines(), [[4, 0, 2, 21, 16, 5, 1]]);
    bench.accept(&[Play(0)]);
    by_ticks(&mut bench, &[[3, 4, 1], [1, 4, 0]]);
    bench.accept(&[Pause(0), Direction(0, 1), Resume(0)]);
    assert_eq!(place(&mut bench, 0), [1, 4, 1]);
    by_ticks(&mut bench, &[[4, 4, 1], [0, 5, 1]]);
    assert_eq!((shown(&mut bench, 0).mode, bench.lines()[1]), (STOPPED, [9, 0, 2, 21, 16, 4, 1]));
}

/// A point's stop clears it after the tick's own addition; played again in that tick, it is 0 still. Start, end and
/// direction of a STOPPED track find it 0, and leave the rate.
pub fn cleared_by_commands<B: Begun>() {
    let [stops, plays] = [Point(1, 0, 6, 0, 4, 0), Point(2, 0, 7, 0, 1, 0)];
    for (points, mode) in [(vec![stops], STOPPED), (vec![stops, plays], PLAYING)] {
        let mut bench = playing::<B>(2, 5, &[Track(1, 0, 3), Track(2, 0, 3)]);
        bench.accept(&points);
        by_ticks(&mut bench, &[[2, 0, 1]]);
        bench.accept(&[Play(1), Play(2)]);
        by_ticks(&mut bench, &[[0, 0, 1]]);
        assert_eq!(shown(&mut bench, 0).mode, mode);
        bench.accept(if mode == STOPPED { &[Play(0)][..] } else { &[] });
        by_ticks(&mut bench, &[[2, 0, 1], [4, 0, 1], [1, 0, 0]]);
    }
    let mut bench = slow::<B>(2, 5, &[]);
    for call in
        [Start(0, 1), End(0, 4), Direction(0, 1), Direction(0, 1), Stop(0), Jump(0, 2), Loops(0, 9), Repeat(0, 1)]
    {
        bench.accept(&[call]);
        let track = shown(&mut bench, 0);
        assert_eq!([track.steps, track.ticks, track.remainder], [2, 5, 0], "{call:?}");
    }
}

/// A track that a command starts or resumes has nothing added in that tick, whether its number is below or above; one that
/// a command pauses has played that tick.
pub fn by_commands<B: Begun>() {
    for other in [0, 2] {
        let mut bench = Bench::<B>::new(160);
        bench.accept(&[Track(1, 0, 5), Rate(1, 1, 2), Point(1, 0, 6, 0, 0, 0), Track(other, 0, 9)]);
        bench.accept(&[(0, 1), (4, 2), (7, 3)].map(|(at, command)| Point(other, at, 9, 0, command, 1)));
        bench.accept(&[Play(other)]);
        // Started in tick 1, steps in 3 and 5, paused in 5; resumed in 8, steps in 10.
        let places =
            [[0, 0, 1], [1, 0, 1], [0, 0, 0], [1, 0, 0], [0, 1, 0], [0, 1, 0], [0, 1, 0], [0, 1, 0], [1, 1, 0]];
        for (nth, expected) in places.into_iter().enumerate() {
            ticks(&mut bench, 1);
            assert_eq!(place(&mut bench, 1), expected, "track {other} commands, tick {}", nth + 1);
        }
        assert_eq!(bench.lines()[1], [3, 1, 1, 6, 0, 0, 0]);
    }
    // Paused in a tick without a step, which counts; resumed with that remainder, which alone counts then.
    let mut bench = playing::<B>(1, 3, &[Track(1, 0, 5), Point(1, 0, 6, 0, 2, 0), Point(1, 2, 7, 0, 3, 0), Play(1)]);
    by_ticks(&mut bench, &[[1, 0, 1], [1, 0, 1], [1, 0, 1], [2, 0, 1], [0, 0, 0]]);
}
