//! 02's followers (2.1) in small cases whose records are worked out by hand, for any board.

use crate::bench::{Begun, Bench};
use crate::call::Reply::{self, ClockEnd, Done, LogFull};
use crate::call::{Call::*, Pairs};
use crate::record::RECORD;
use crate::track::{self, PAUSED, PLAYING};

/// Tracks 0 and 1, both 0 to 10; 1 follows 0 with thresholds 3 and 5, events 31 and 51.
pub fn pair<B: Begun>(bytes: usize) -> Bench<B> {
    let mut bench = Bench::new(bytes);
    bench.accept(&[Track(0, 0, 10), Track(1, 0, 10), Master(1, 0, Pairs::new(&[[3, 31], [5, 51]]))]);
    bench
}

/// The same, both PAUSED at home before the first tick.
pub fn paused_pair<B: Begun>(bytes: usize) -> Bench<B> {
    let mut bench = pair(bytes);
    bench.accept(&[Play(0), Pause(0), Play(1), Pause(1)]);
    bench
}

pub fn shown<B: Begun>(bench: &mut Bench<B>, t: i64) -> track::Track {
    match bench.call(ShowTrack(t)) {
        Reply::Track(track) => track,
        other => panic!("{other:?}"),
    }
}

fn band<B: Begun>(bench: &mut Bench<B>) -> i64 {
    shown(bench, 1).band
}

pub fn ticks<B: Begun>(bench: &mut Bench<B>, count: u32) {
    assert_eq!(bench.call(Advance(count.into())), Done(count));
}

/// A drift of 3 does not exceed 3. Tick n takes the master to n - 1; tick 11 stops it at its far position.
pub fn exceeded<B: Begun>() {
    let mut bench = pair::<B>(160);
    bench.accept(&[Play(0), Play(1), Pause(1)]);
    ticks(&mut bench, 4);
    assert_eq!((band(&mut bench), bench.clock_and_held()), (0, (4, 0)));
    ticks(&mut bench, 1);
    assert_eq!(bench.lines(), [[5, 1, 4, 31, 0, 0, 0]]);
    ticks(&mut bench, 1);
    assert_eq!((band(&mut bench), bench.lines().len()), (1, 1));
    ticks(&mut bench, 4);
    assert_eq!(band(&mut bench), 2);
    ticks(&mut bench, 1);
    assert_eq!((band(&mut bench), bench.lines()), (0, vec![[5, 1, 4, 31, 0, 0, 0], [7, 1, 4, 51, 0, 0, 0]]));
}

/// Judged on an idle board too. Over a band at once; down to a lower one, which writes; to none, which does not.
pub fn idle_board<B: Begun>() {
    let mut bench = paused_pair::<B>(160);
    for (place, held) in [(8, 2), (4, 1), (5, 1), (6, 2), (2, 0), (3, 0), (4, 1), (0, 0)] {
        bench.accept(&[Jump(0, place)]);
        ticks(&mut bench, 1);
        assert_eq!(band(&mut bench), held, "master at {place}");
    }
    let entered = [[1, 51], [2, 31], [4, 51], [7, 31]].map(|[clock, event]| [clock, 1, 4, event, 0, 0, 0]);
    assert_eq!(bench.lines(), entered);
}

/// The follower moves and the master stands: position and passes are the follower's, after the tick's step.
pub fn follower_moves<B: Begun>() {
    let mut bench = pair::<B>(160);
    bench.accept(&[Start(1, 4), Repeat(1, 1), Play(0), Pause(0), Play(1)]);
    // Tick n takes the follower to 3 + n, n - 1 from home, and tick 8 back to 4.
    ticks(&mut bench, 14);
    let lines = [[5, 8, 0], [7, 10, 1], [12, 8, 1], [14, 10, 2]];
    let events = [31, 51, 31, 51];
    let expected: Vec<_> = lines.iter().zip(events).map(|(&[c, p, n], event)| [c, 1, 4, event, 0, p, n]).collect();
    assert_eq!(bench.lines(), expected);
}

/// Mode calls leave the band: stop and play between two ticks keep it, and nothing new is written.
pub fn mode_calls_leave_it<B: Begun>() {
    let mut bench = paused_pair::<B>(160);
    bench.accept(&[Jump(0, 8)]);
    ticks(&mut bench, 1);
    bench.accept(&[Stop(1)]);
    assert_eq!(band(&mut bench), 2);
    bench.accept(&[Play(1)]);
    ticks(&mut bench, 1);
    assert_eq!((band(&mut bench), bench.lines().len()), (2, 1));
    // STOPPED in a tick, it has none; the master STOPPED, likewise. Entered anew, it writes anew.
    bench.accept(&[Stop(1)]);
    ticks(&mut bench, 1);
    assert_eq!(band(&mut bench), 0);
    bench.accept(&[Play(1), Pause(1)]);
    ticks(&mut bench, 1);
    bench.accept(&[Stop(0)]);
    assert_eq!(band(&mut bench), 2);
    ticks(&mut bench, 1);
    assert_eq!(band(&mut bench), 0);
    bench.accept(&[Play(0), Pause(0), Jump(0, 8)]);
    ticks(&mut bench, 1);
    assert_eq!(bench.lines(), [1, 4, 6].map(|clock| [clock, 1, 4, 51, 0, 0, 0]));
}

/// Commands come first: one that stops the master leaves no band; records of kind 4 are behind those of commands.
pub fn behind_commands<B: Begun>() {
    for (command, wait) in [(4, 0), (1, 0), (0, 1)] {
        let mut bench = pair::<B>(160);
        bench.accept(&[Point(0, 4, 9, wait, command, 0), Action(0, 1, 3, 77), Action(0, 1, 0, 78)]);
        bench.accept(&[Play(0), Play(1), Pause(1)]);
        ticks(&mut bench, 5);
        let reached = [5, 0, 1, 9, command * 16, 4, 0];
        let entered = [5, 1, 4, 31, 0, 0, 0];
        let lines = match command {
            4 => vec![reached, [5, 0, 2, 78, 16, 4, 0]],
            1 => vec![reached, [5, 0, 3, 9, 17, 4, 0], entered],
            _ => vec![reached, [5, 0, 2, 77, 19, 4, 0], entered],
        };
        assert_eq!(bench.lines(), lines);
    }
}

/// A command leaves the band till the judging of its tick: stopped and played in one tick, it is kept.
pub fn commands_leave_it<B: Begun>() {
    let mut bench = paused_pair::<B>(160);
    bench.accept(&[Jump(0, 8), Track(2, 0, 5), Track(3, 0, 5), Point(2, 1, 6, 0, 4, 1), Point(3, 1, 7, 0, 1, 1)]);
    bench.accept(&[Play(2), Play(3)]);
    ticks(&mut bench, 1);
    assert_eq!((band(&mut bench), bench.lines()), (2, vec![[1, 1, 4, 51, 0, 0, 0]]));
    ticks(&mut bench, 1);
    assert_eq!((band(&mut bench), shown(&mut bench, 1).mode), (2, PLAYING));
    assert_eq!(bench.lines()[1..], [[2, 2, 1, 6, 65, 1, 0], [2, 3, 1, 7, 17, 1, 0]]);
}

/// Home goes by the direction of the moment: turning a PAUSED track moves its distance, judged in the next tick.
pub fn turning<B: Begun>() {
    let mut bench = pair::<B>(160);
    bench.accept(&[Play(0), Pause(0), Play(1)]);
    ticks(&mut bench, 3);
    bench.accept(&[Pause(1), Direction(1, 1)]);
    assert_eq!((band(&mut bench), bench.clock_and_held()), (0, (3, 0)));
    ticks(&mut bench, 1);
    assert_eq!((band(&mut bench), bench.lines()), (2, vec![[4, 1, 4, 51, 0, 2, 0]]));
    // The master turned too: 8 and 10 from home.
    bench.accept(&[Direction(0, 1)]);
    ticks(&mut bench, 1);
    assert_eq!((band(&mut bench), bench.lines().len()), (0, 1));
}

/// A tick whose kind 4 record does not fit is not taken: the bands are those before it.
pub fn held_back<B: Begun>() {
    let mut bench = paused_pair::<B>(RECORD);
    bench.accept(&[Jump(0, 8)]);
    ticks(&mut bench, 1);
    bench.accept(&[Jump(0, 4)]);
    assert_eq!(bench.call(Advance(5)), LogFull(0));
    assert_eq!((band(&mut bench), bench.clock_and_held()), (2, (1, 1)));
    // To none nothing is written, so the tick is taken; from none it is held back again.
    bench.accept(&[Jump(0, 2)]);
    ticks(&mut bench, 5);
    assert_eq!(band(&mut bench), 0);
    bench.accept(&[Jump(0, 4)]);
    assert_eq!(bench.call(Advance(5)), LogFull(0));
    bench.accept(&[Clear]);
    ticks(&mut bench, 5);
    assert_eq!((band(&mut bench), bench.lines()), (1, vec![[7, 1, 4, 31, 0, 0, 0]]));
    // The band is restored though a lower follower has entered its own, and the step and its record are undone.
    let mut bench = pair::<B>(2 * RECORD + 15);
    bench.accept(&[Track(2, 0, 10), Master(2, 0, Pairs::new(&[[3, 32]])), Point(0, 4, 9, 0, 0, 0)]);
    bench.accept(&[Play(0), Play(1), Pause(1), Play(2), Pause(2)]);
    assert_eq!(bench.call(Advance(9)), LogFull(4));
    assert_eq!((band(&mut bench), shown(&mut bench, 2).band, shown(&mut bench, 0).position), (0, 0, 3));
    assert_eq!(bench.lines().len(), 0);
}

/// Two tracks may follow each other, and one that is followed may follow: lowest first, detail the master's number.
pub fn rings<B: Begun>() {
    let mut bench = paused_pair::<B>(160);
    bench.accept(&[Stop(0), Track(9, 0, 10), Master(0, 1, Pairs::new(&[[2, 21], [7, 71], [8, 81]]))]);
    bench.accept(&[Master(9, 1, Pairs::new(&[[1, 11]])), Play(0), Pause(0), Jump(0, 8), Play(9)]);
    ticks(&mut bench, 3);
    let lines = [[1, 0, 4, 71, 1, 8, 0], [1, 1, 4, 51, 0, 0, 0], [3, 9, 4, 11, 1, 2, 0]];
    assert_eq!(bench.lines(), lines);
}

/// Setting makes the band none and does not rewind; the master's mode is free. No pairs: all is 0 again.
pub fn setting<B: Begun>() {
    let mut bench = paused_pair::<B>(160);
    bench.accept(&[Jump(0, 8)]);
    ticks(&mut bench, 1);
    bench.accept(&[Stop(1), Jump(1, 2)]);
    let before = shown(&mut bench, 1);
    assert_eq!((before.band, before.master, before.thresholds, before.events), (2, 0, [3, 5, 0, 0], [31, 51, 0, 0]));
    let four = [[1, 255], [2, 1], [3, 31], [1_000_000, 4]];
    bench.accept(&[Track(15, 0, 1), Play(15), Master(1, 15, Pairs::new(&four))]);
    let (thresholds, events) = ([1, 2, 3, 1_000_000], [255, 1, 31, 4]);
    assert_eq!(shown(&mut bench, 1), track::Track { master: 15, band: 0, thresholds, events, ..before });
    bench.accept(&[Master(1, 0, Pairs::new(&[[3, 31], [5, 51]]))]);
    assert_eq!(shown(&mut bench, 1), track::Track { band: 0, ..before });
    // 8 and 2 from home: 6 apart, entered from none.
    bench.accept(&[Play(1), Pause(1)]);
    ticks(&mut bench, 1);
    assert_eq!(bench.lines(), [[1, 1, 4, 51, 0, 0, 0], [2, 1, 4, 51, 0, 2, 0]]);
    bench.accept(&[Stop(1), Master(1, 15, Pairs::NONE)]);
    let free = shown(&mut bench, 1);
    assert_eq!((free.master, free.band, free.thresholds, free.events), (0, 0, [0; 4], [0; 4]));
    assert_eq!(shown(&mut bench, 0).mode, PAUSED);
}

/// Over the whole clock, in step: spans of 100 locations, 5 or 95 apart. One band, entered once.
pub fn in_step<B: Begun>() {
    let mut bench = Bench::<B>::new(160);
    bench.accept(&[Track(0, 0, 99), Track(1, -99, 0), Repeat(0, 1), Repeat(1, 1), Direction(1, 1)]);
    bench.accept(&[Master(1, 0, Pairs::new(&[[4, 7], [95, 8]])), Play(0)]);
    ticks(&mut bench, 5);
    bench.accept(&[Play(1)]);
    assert_eq!(bench.call(Advance(4_294_967_295)), ClockEnd(999_999_995));
    assert_eq!((band(&mut bench), bench.lines()), (1, vec![[6, 1, 4, 7, 0, 0, 0]]));
}

/// Spans of 10 and 1,000 locations until 4,096 records: the drift is the master's distance down to a multiple of 10.
/// It exceeds 50 at 60 and 500 at 510, in each round of 1,000 ticks.
pub fn unequal_spans<B: Begun>() {
    let mut bench = Bench::<B>::new(4096 * RECORD);
    bench.accept(&[Track(0, 0, 999), Track(1, 0, 9), Repeat(0, 1), Repeat(1, 1)]);
    bench.accept(&[Master(1, 0, Pairs::new(&[[50, 5], [500, 6]])), Play(0), Play(1)]);
    assert_eq!(bench.call(Advance(4_294_967_295)), LogFull(2_048_060));
    let round = |k: i64| {
        [[61, 5, 6], [511, 6, 51]].map(|[n, event, passes]| [1000 * k + n, 1, 4, event, 0, 0, 100 * k + passes])
    };
    assert!(bench.lines().into_iter().eq((0..2048).flat_map(round)));
}
