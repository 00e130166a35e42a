//! Bench cards A to L of 01, for any board.

use crate::bench::{Begun, Bench, FILL};
use crate::call::Reply::{ClockEnd, Done, LogFull, Refused};
use crate::call::{Call::*, Reply};
use crate::record::RECORD;

pub fn a<B: Begun>() {
    let mut bench = Bench::<B>::case_a(4096 * RECORD);
    bench.accept(&[Play(0)]);
    assert_eq!(bench.call(Advance(10)), Done(10));
    bench.accept(&[Resume(0)]);
    assert_eq!(bench.call(Advance(10)), Done(10));
    let lines = [
        [1, 0, 1, 7, 0, 2, 0],
        [4, 0, 1, 9, 0, 5, 0],
        [4, 0, 2, 20, 19, 5, 1],
        [11, 0, 1, 7, 0, 2, 1],
        [14, 0, 1, 9, 0, 5, 1],
        [14, 0, 2, 21, 16, 5, 2],
    ];
    assert_eq!(bench.lines(), lines);
    assert_eq!(bench.clock_and_held(), (20, 6));
}

fn first_advance<B: Begun>(bytes: usize) -> (Reply, usize) {
    let mut bench = Bench::<B>::case_a(bytes);
    bench.accept(&[Play(0)]);
    (bench.call(Advance(10)), bench.lines().len())
}

pub fn b<B: Begun>() {
    assert_eq!(first_advance::<B>(47), (LogFull(3), 1));
}

pub fn c<B: Begun>() {
    assert_eq!(first_advance::<B>(48), (Done(10), 3));
}

pub fn d<B: Begun>() {
    assert_eq!(first_advance::<B>(15), (LogFull(0), 0));
}

pub fn e<B: Begun>() {
    let mut bench = Bench { board: B::begun(999_999_999), log: vec![FILL; 32] };
    assert_eq!(bench.call(Advance(5)), ClockEnd(1));
    assert_eq!(bench.call(Advance(0)), Done(0));
    assert_eq!(bench.clock_and_held(), (1_000_000_000, 0));
}

pub fn f<B: Begun>() {
    let mut bench = Bench::<B>::case_a(64);
    assert_eq!(bench.call(Jump(0, 6)), Refused(3));
    bench.accept(&[Jump(0, 5)]);
}

pub fn g<B: Begun>() {
    let mut bench = Bench::<B>::case_a(64);
    bench.accept(&[Play(0)]);
    assert_eq!(bench.call(Advance(10)), Done(10));
    assert_eq!(bench.call(Jump(0, 4)), Refused(2));
}

pub fn h<B: Begun>() {
    let mut bench = Bench::<B>::new(64);
    bench.accept(&[Track(0, 0, 10), Start(0, 2), End(0, 5), Play(0)]);
    assert_eq!(bench.call(Advance(3)), Done(3));
    bench.accept(&[Pause(0), Direction(0, 1), Resume(0)]);
    assert!(matches!(bench.call(ShowTrack(0)), Reply::Track(track) if track.position == 4 && track.due == 0));
    assert_eq!(bench.call(Advance(1)), Done(1));
    assert!(matches!(bench.call(ShowTrack(0)), Reply::Track(track) if track.position == 3));
}

pub fn i<B: Begun>() {
    let mut bench = Bench::<B>::new(64);
    bench.accept(&[Track(0, 0, 10), End(0, 5), Start(0, 4)]);
    assert_eq!(bench.call(Start(0, 5)), Refused(3));
}

pub fn j<B: Begun>() {
    let mut bench = Bench::<B>::new(64);
    bench.accept(&[Track(0, 0, 10), Point(0, 10, 1, 0, 0, 0)]);
    assert_eq!(bench.call(Point(0, 11, 1, 0, 0, 0)), Refused(3));
}

pub fn k<B: Begun>() {
    let mut bench = Bench::<B>::new(64);
    bench.accept(&[Track(3, 0, 9), Track(5, -7, 7), Point(3, 0, 8, 0, 3, 5), Play(3)]);
    assert_eq!(bench.call(Advance(1)), Done(1));
    assert_eq!(bench.lines(), [[1, 3, 1, 8, 53, 0, 0], [1, 5, 3, 8, 48, -7, 0]]);
}

pub fn l<B: Begun>() {
    let mut bench = Bench::<B>::new(64);
    bench.accept(&[Track(0, 0, 1000), Track(1, 0, 1000)]);
    (0..256).for_each(|p| bench.accept(&[Point(p % 2, p, 1, 0, 0, 0)]));
    assert_eq!(bench.call(Point(0, 256, 1, 0, 0, 0)), Refused(5));
    bench.accept(&[Point(0, 254, 2, 1, 4, 1), Drop(1, 255), Point(0, 256, 1, 0, 0, 0)]);
    assert_eq!(bench.call(Count(0, 0, 1000)), Reply::Count(129));
}
