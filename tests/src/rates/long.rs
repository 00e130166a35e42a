//! Rates over many ticks, by hand: followers, the whole clock, ticks held back, and runs cut anew.

use super::place;
use crate::bench::{Begun, Bench, Held};
use crate::call::Reply::{self, ClockEnd, LogFull};
use crate::call::{Call, Call::*, Pairs};
use crate::followers::{pair, shown, ticks};
use crate::gen::recut;
use crate::lists::{Seen, observed};
use crate::record::RECORD;
use crate::track::{STOPPED, WAITING};

/// Followers are judged in ticks without a step too: after a jump, and after a stop, which leaves no band.
pub fn judged_without_a_step<B: Begun>() {
    let mut bench = pair::<B>(160);
    bench.accept(&[Rate(0, 1, 1_000), Rate(1, 1, 1_000), Play(0), Play(1)]);
    ticks(&mut bench, 1);
    bench.accept(&[Pause(0), Jump(0, 8), Resume(0)]);
    assert_eq!(shown(&mut bench, 1).band, 0);
    ticks(&mut bench, 1);
    assert_eq!((shown(&mut bench, 1).band, bench.lines()), (2, vec![[2, 1, 4, 51, 0, 0, 0]]));
    bench.accept(&[Pause(0), Jump(0, 4), Resume(0)]);
    ticks(&mut bench, 900);
    assert_eq!((shown(&mut bench, 1).band, bench.lines()[1..].to_vec()), (1, vec![[3, 1, 4, 31, 0, 0, 0]]));
    assert_eq!([0, 1].map(|t| place(&mut bench, t)), [[902, 4, 1], [902, 0, 1]]);
    bench.accept(&[Stop(0)]);
    ticks(&mut bench, 1);
    assert_eq!((shown(&mut bench, 1).band, place(&mut bench, 1), bench.lines().len()), (0, [903, 0, 1], 2));
}

/// The master at 1 in 2 beside a follower that stands: its distance after tick n is n / 2 - 1. It exceeds 3 in tick 10
/// and 5 in tick 14.
pub fn slow_master<B: Begun>() {
    let mut bench = pair::<B>(160);
    bench.accept(&[Rate(0, 1, 2), Rate(1, 3, 7), Play(0), Play(1), Pause(1)]);
    ticks(&mut bench, 20);
    assert_eq!(bench.lines(), [[10, 1, 4, 31, 0, 0, 0], [14, 1, 4, 51, 0, 0, 0]]);
    // Tick 22 takes it to 10, its far position, and stops it.
    assert_eq!((shown(&mut bench, 0).position, shown(&mut bench, 1).band), (9, 2));
    ticks(&mut bench, 2);
    assert_eq!((shown(&mut bench, 0).mode, shown(&mut bench, 1).band, bench.lines().len()), (STOPPED, 0, 2));
}

/// Both at 1 in 3, the follower four ticks behind: 2 apart in every third tick from 9 on, else 1. Its distance is then
/// n / 3 - 3.
pub fn alternating<B: Begun>() {
    let mut bench = Bench::<B>::new(100 * RECORD);
    bench.accept(&[Track(0, 0, 500), Track(1, 0, 500), Rate(0, 1, 3), Rate(1, 1, 3)]);
    bench.accept(&[Master(1, 0, Pairs::new(&[[1, 31]])), Play(0)]);
    ticks(&mut bench, 4);
    bench.accept(&[Play(1)]);
    ticks(&mut bench, 296);
    assert_eq!([0, 1].map(|t| place(&mut bench, t)), [[0, 99, 0], [2, 97, 0]]);
    assert!(bench.lines().into_iter().eq((3..=100).map(|third| [3 * third, 1, 4, 31, 0, third - 3, 0])));
}

/// 999 in 1,000 follows 998 in 999 over a span that they don't end: after tick n they have made n less n / 1,000 and n
/// less n / 999 steps, each rounded up. They are 2 apart from tick 999 k + 1 to 1,000 (k - 1), for k from 1,001 on.
pub fn close_rates<B: Begun>() {
    let mut bench = Bench::<B>::new(501 * RECORD);
    bench.accept(&[0, 1].map(|t| Track(t, -1_000_000, 1_000_000)));
    bench.accept(&[Rate(1, 999, 1_000), Rate(0, 998, 999), Master(1, 0, Pairs::new(&[[1, 31]])), Play(0), Play(1)]);
    ticks(&mut bench, 1_500_000);
    let line = |k: i64| {
        let clock = 999 * k + 1;
        let steps = clock - (clock + 999) / 1_000;
        [clock, 1, 4, 31, 0, steps - 1 - 1_000_000, 0]
    };
    assert!(bench.lines().into_iter().eq((1_001..=1_501).map(line)));
    // Of 1,500,000 ticks 1,500 are without a step, and 1,502 of the other's: 1,501 × 999 is 1,499,499.
    assert_eq!(place(&mut bench, 1), [0, 1_498_499 - 1_000_000, 0]);
    assert_eq!(place(&mut bench, 0)[1], 1_498_497 - 1_000_000);
}

/// In step at 2 in 7 over the whole clock, the follower 17 ticks behind: spans of 100 locations, 4 or 5 apart, or 95 or
/// 96. One band, entered once: it has 4 in tick 18, the first that it plays.
pub fn in_step_over_the_clock<B: Begun>() {
    let mut bench = Bench::<B>::new(160);
    bench.accept(&[Track(0, 0, 99), Track(1, -99, 0), Repeat(0, 1), Repeat(1, 1), Direction(1, 1)]);
    bench.accept(&[Rate(0, 2, 7), Rate(1, 2, 7), Master(1, 0, Pairs::new(&[[3, 7], [96, 8]])), Play(0)]);
    ticks(&mut bench, 17);
    bench.accept(&[Play(1)]);
    assert_eq!(bench.call(Advance(4_294_967_295)), ClockEnd(999_999_983));
    assert_eq!((shown(&mut bench, 1).band, bench.lines()), (1, vec![[18, 1, 4, 7, 0, 0, 0]]));
}

/// Both at 1 in 3 on spans of 100 locations, the follower 13 ticks behind: 4 or 5 apart; or 95 or 96, while the master has
/// gone home before it. Only 96 exceeds: in ticks 304, 307, 310 and 313, and so in each round of 300, until 4,096 records.
pub fn alternating_rounds<B: Begun>() {
    let mut bench = Bench::<B>::new(4_096 * RECORD);
    bench.accept(&[Track(0, 0, 99), Track(1, 0, 99), Repeat(0, 1), Repeat(1, 1), Rate(0, 1, 3), Rate(1, 1, 3)]);
    bench.accept(&[Master(1, 0, Pairs::new(&[[95, 8]])), Play(0)]);
    ticks(&mut bench, 13);
    bench.accept(&[Play(1)]);
    assert_eq!(bench.call(Advance(4_294_967_295)), LogFull(307_503 - 13));
    // The fourth is on the follower's far position.
    let round = |k: i64| [0, 1, 2, 3].map(|nth| [300 * k + 304 + 3 * nth, 1, 4, 8, 0, 96 + nth, k + nth / 3]);
    assert!(bench.lines().into_iter().eq((0..1_024).flat_map(round)));
}

/// The whole clock in one advance where nothing is written. Steps: 999,000,000 at 999 in 1,000; 1,003,009 at 1 in 997,
/// with remainder 27; a million at 1 in 1,000, of a track that would pass 65,535 times. The pair never exceeds 20.
pub fn at_one_go<B: Begun>() {
    let mut bench = Bench::<B>::new(0);
    bench.accept(&[Track(0, 0, 1), Repeat(0, 1), Rate(0, 999, 1_000), Track(1, 0, 1), Repeat(1, 1), Rate(1, 1, 997)]);
    bench.accept(&[Track(2, -1_000_000, 1_000_000), Loops(2, 65_535), Rate(2, 1, 1_000)]);
    bench.accept(&[Track(3, 0, 9), Repeat(3, 1), Rate(3, 1, 3), Track(4, 0, 11), Repeat(4, 1), Rate(4, 2, 5)]);
    bench.accept(&[Master(4, 3, Pairs::new(&[[20, 7]])), Play(0), Play(1), Play(2), Play(3), Play(4)]);
    assert_eq!(bench.call(Advance(1_000_000_000)), Reply::Done(1_000_000_000));
    let places = [[0, 1, 0], [27, 0, 0], [0, -1, 0], [1, 2, 0], [0, 3, 0]];
    assert_eq!([0, 1, 2, 3, 4].map(|t| place(&mut bench, t)), places);
    let passes = [499_500_000, 501_504, 0, 33_333_333, 33_333_333];
    assert_eq!([0, 1, 2, 3, 4].map(|t| shown(&mut bench, t).passes), passes);
}

/// The records of a point 17 from home, span of 999,983 locations, over the whole clock: at 1 in 3, 333,333,333 steps,
/// 334 records and remainder 1; at 999 in 1,000, 999,000,000 steps, 1,000 records and remainder 0.
pub fn over_the_clock<B: Begun>() {
    let (span, k) = (999_983, 17);
    for (p, q, steps, records, remainder) in [(1, 3, 333_333_333, 334, 1), (999, 1_000, 999_000_000, 1_000, 0)] {
        let mut bench = Bench::<B>::new(16 * 2_000);
        bench.accept(&[Track(0, 0, span - 1), Repeat(0, 1), Rate(0, p, q), Point(0, k, 5, 0, 0, 0), Play(0)]);
        bench.accept(&[Track(1, 0, 1), Repeat(1, 1), Rate(1, p, q), Play(1)]);
        assert_eq!(bench.call(Advance(4_294_967_295)), ClockEnd(1_000_000_000));
        let lines = bench.lines();
        assert_eq!(lines.len(), records);
        // The m-th step is in the first tick by which m × q / p ticks have been played.
        let clock = |m: i64| (m * q + p - 1) / p;
        assert!((0..).zip(&lines).all(|(pass, line)| *line == [clock(pass * span + k + 1), 0, 1, 5, 0, k, pass]));
        assert_eq!(place(&mut bench, 0), [remainder, (steps - 1) % span, 0]);
        assert_eq!((shown(&mut bench, 0).passes, shown(&mut bench, 1).passes), (steps / span, steps / 2));
    }
}

/// A tick whose record doesn't fit is not taken: the remainders are those before it, of the track that steps and of others.
pub fn held_back<B: Begun>() {
    let mut bench = Bench::<B>::new(15);
    bench.accept(&[Track(0, 0, 3), Rate(0, 2, 5), Point(0, 0, 9, 0, 0, 0), Track(1, 0, 3), Rate(1, 1, 3)]);
    bench.accept(&[Track(2, 0, 3), Rate(2, 1, 7), Play(0), Play(1), Play(2)]);
    for answer in [LogFull(2), LogFull(0)] {
        assert_eq!(bench.call(Advance(5)), answer);
        assert_eq!(
            ([0, 1, 2].map(|t| place(&mut bench, t)), bench.clock_and_held()),
            ([[4, 0, 1], [2, 0, 1], [2, 0, 1]], (2, 0))
        );
    }
    bench.log = vec![crate::bench::FILL; 16];
    ticks(&mut bench, 1);
    assert_eq!(
        ([0, 1, 2].map(|t| place(&mut bench, t)), bench.lines()),
        ([[1, 0, 0], [0, 0, 0], [3, 0, 1]], vec![[3, 0, 1, 9, 0, 0, 0]])
    );
    // Held back by its band alone, in a tick without a step of the follower.
    let mut bench = pair::<B>(15);
    bench.accept(&[Rate(0, 1, 2), Rate(1, 3, 1_000), Play(0), Play(1)]);
    assert_eq!(bench.call(Advance(20)), LogFull(9));
    assert_eq!([0, 1].map(|t| place(&mut bench, t)), [[1, 3, 0], [27, 0, 1]]);
}

/// Track 0 over four locations at 2 in 5; track 1 over two at 3 in 7, twice: it waits on far with remainder 1, is resumed
/// at clock 9, and stops there in tick 14.
fn two_rates() -> Vec<Call> {
    let first = [Track(0, 0, 3), Repeat(0, 1), Rate(0, 2, 5), Point(0, 0, 7, 0, 0, 0)];
    let second = [Track(1, 0, 1), Loops(1, 2), Rate(1, 3, 7), Point(1, 1, 8, 1, 0, 0), Action(1, 1, 3, 20)];
    let run = [Action(1, 1, 0, 21), Play(0), Play(1), Advance(9), Resume(1), Advance(14)];
    [&first[..], &second, &run].concat()
}

fn seen<B: Begun>(calls: &[Call]) -> (Bench<B>, Vec<Seen>) {
    let mut bench = Bench::new(160);
    let replies: Vec<Reply> = calls.iter().map(|&call| bench.call(call)).collect();
    (bench, observed(calls, &replies))
}

/// The same records, answers and board however the ticks are cut, singly too.
pub fn cut_anew<B: Held>() {
    let calls = two_rates();
    let (mut whole, all) = seen::<B>(&calls);
    let waited =
        [[3, 0, 1, 7, 0, 0, 0], [5, 1, 1, 8, 0, 1, 0], [5, 1, 2, 20, 16 + WAITING, 1, 1], [13, 0, 1, 7, 0, 0, 1]];
    let ended = [[14, 1, 1, 8, 0, 1, 1], [14, 1, 2, 21, 16 + STOPPED, 1, 2], [23, 0, 1, 7, 0, 0, 2]];
    assert_eq!(whole.lines(), [&waited[..], &ended].concat());
    assert_eq!([0, 1].map(|t| place(&mut whole, t)), [[1, 0, 0], [0, 0, 1]]);
    let singly = calls.iter().flat_map(|&call| match call {
        Advance(count) => vec![Advance(1); count as usize],
        other => vec![other],
    });
    let cuts = (0..50).map(|seed| recut(&calls, seed)).chain([singly.collect()]);
    for cut in cuts {
        let (mut anew, seen_anew) = seen::<B>(&cut);
        assert_eq!((anew.lines(), seen_anew), (whole.lines(), all.clone()), "{cut:?}");
        assert!(anew.board.equals(&whole.board) && anew.log == whole.log, "{cut:?}");
    }
}
