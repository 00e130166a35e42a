//! 02's turns on the home location (2.3) in small cases whose tracks and records are worked out by hand, for any board.

use crate::bench::{Begun, Bench, Held};
use crate::call::Reply::{self, ClockEnd, LogFull, Refused};
use crate::call::{Call, Call::*, Pairs};
use crate::followers::{pair, shown, ticks};
use crate::gen::recut;
use crate::lists::{Seen, observed};
use crate::record::RECORD;
use crate::track::{self, PAUSED, PLAYING, STOPPED, WAITING};

/// A direction with its home and far over 0 to 5.
#[derive(Clone, Copy)]
struct Way {
    direction: i64,
    home: i64,
    far: i64,
}

const WAYS: [Way; 2] = [Way { direction: 0, home: 0, far: 5 }, Way { direction: 1, home: 5, far: 0 }];

impl Way {
    fn flipped(self) -> i64 {
        1 - self.direction
    }

    /// So many steps from home.
    fn at(self, steps: i64) -> i64 {
        if self.direction == 0 { steps } else { 5 - steps }
    }
}

/// Track 0 over 0 to 5, its bounds beyond, in a direction, STOPPED: three loops, a point on home (event 9) and one on far
/// (event 8).
fn drawn_up<B: Begun>(way: Way) -> Bench<B> {
    let mut bench = Bench::new(160);
    bench.accept(&[Track(0, -3, 9), Start(0, 0), End(0, 5), Loops(0, 3), Direction(0, way.direction)]);
    bench.accept(&[Point(0, way.home, 9, 0, 0, 0), Point(0, way.far, 8, 0, 0, 0)]);
    bench
}

/// The same with more set up, played for one tick: it has just arrived on home, at clock 1.
fn on_home<B: Begun>(way: Way, more: &[Call]) -> Bench<B> {
    let mut bench = drawn_up(way);
    bench.accept(more);
    bench.accept(&[Play(0)]);
    ticks(&mut bench, 1);
    let track = shown(&mut bench, 0);
    assert_eq!((track.position, track.due, track.direction), (way.home, 0, way.direction));
    bench
}

/// Paused, turned and resumed where it stands.
fn turn<B: Begun>(bench: &mut Bench<B>, direction: i64) {
    bench.accept(&[Pause(0), Direction(0, direction), Resume(0)]);
}

/// Due is set; everything else is as it was. Resumed, the next arrival is where it stands: the point is reported again
/// with the passes so far, and a pass is closed. The arrival after that is the other end.
pub fn turned_on_home<B: Begun>() {
    for way in WAYS {
        let mut bench = on_home::<B>(way, &[]);
        bench.accept(&[Pause(0)]);
        let before = shown(&mut bench, 0);
        assert_eq!((before.passes, before.mode), (0, PAUSED));
        bench.accept(&[Direction(0, way.flipped())]);
        let turned = track::Track { direction: way.flipped(), due: 1, ..before };
        assert_eq!((shown(&mut bench, 0), bench.clock_and_held()), (turned, (1, 1)));
        bench.accept(&[Resume(0)]);
        ticks(&mut bench, 1);
        let closed = track::Track { due: 0, passes: 1, mode: PLAYING, ..turned };
        assert_eq!(shown(&mut bench, 0), closed);
        ticks(&mut bench, 1);
        assert_eq!(shown(&mut bench, 0), track::Track { position: way.far, ..closed });
        ticks(&mut bench, 5);
        assert_eq!(shown(&mut bench, 0), track::Track { passes: 2, ..closed });
        let [first, again, last] =
            [[1, 0], [2, 0], [8, 1]].map(|[clock, passes]| [clock, 0, 1, 9, 0, way.home, passes]);
        assert_eq!(bench.lines(), [first, again, [3, 0, 1, 8, 0, way.far, 1], last]);
    }
}

/// Turned on home after a pass, and on the new home right behind that: after each turn the next arrival closes a pass. The
/// third is the last of its loops and stops it. It rewinds by the direction of then, which is the first one again.
pub fn turned_after_a_pass<B: Begun>() {
    for way @ Way { home, far, .. } in WAYS {
        let mut bench = on_home::<B>(way, &[Action(0, 1, 0, 21)]);
        ticks(&mut bench, 6);
        turn(&mut bench, way.flipped());
        ticks(&mut bench, 2);
        turn(&mut bench, way.direction);
        let track = shown(&mut bench, 0);
        assert_eq!((track.position, track.passes, track.due), (far, 2, 1));
        ticks(&mut bench, 1);
        let stopped = track::Track { position: home, passes: 0, due: 1, mode: STOPPED, ..track };
        assert_eq!(shown(&mut bench, 0), stopped);
        let round = [[1, 0, 1, 9, 0, home, 0], [6, 0, 1, 8, 0, far, 0], [7, 0, 1, 9, 0, home, 1]];
        let turned = [[8, 0, 1, 9, 0, home, 1], [9, 0, 1, 8, 0, far, 2], [10, 0, 1, 8, 0, far, 2]];
        assert_eq!(bench.lines(), [&round[..], &turned, &[[10, 0, 2, 21, 16, far, 3]]].concat());
    }
}

/// With loops 1 and repeat off the pass is the last: the track stops on it and rewinds by the new direction. With repeat
/// on it crosses to the other end.
pub fn turned_for_the_last_pass<B: Begun>() {
    for way @ Way { home, far, .. } in WAYS {
        for repeat in [0, 1] {
            let mut bench = on_home::<B>(way, &[Loops(0, 1), Repeat(0, repeat), Action(0, 1, 0, 21)]);
            turn(&mut bench, way.flipped());
            let turned = shown(&mut bench, 0);
            ticks(&mut bench, 2);
            let stopped = track::Track { position: far, passes: 0, due: 1, mode: STOPPED, ..turned };
            let crossed = track::Track { position: far, passes: 1, due: 0, ..turned };
            assert_eq!(shown(&mut bench, 0), if repeat == 0 { stopped } else { crossed });
            let third = if repeat == 0 { [2, 0, 2, 21, 16, home, 1] } else { [3, 0, 1, 8, 0, far, 1] };
            assert_eq!(bench.lines(), [[1, 0, 1, 9, 0, home, 0], [2, 0, 1, 9, 0, home, 0], third]);
        }
    }
}

/// A wait flag on the point there: with loops left the track waits on it once more; on the stop it counts for nothing.
pub fn turned_on_a_wait<B: Begun>() {
    for way @ Way { home, far, .. } in WAYS {
        for loops in [1, 2] {
            let actions = [Action(0, 1, 0, 21), Action(0, 1, 3, 20), Action(0, 3, 2, 22)];
            let more = [&[Loops(0, loops), Point(0, home, 9, 1, 0, 0)], &actions[..]].concat();
            let mut bench = on_home::<B>(way, &more);
            turn(&mut bench, way.flipped());
            ticks(&mut bench, 2);
            let changed = if loops == 1 { [2, 0, 2, 21, 16, home, 1] } else { [2, 0, 2, 20, 19, home, 1] };
            let waited = [[1, 0, 1, 9, 0, home, 0], [1, 0, 2, 20, 19, home, 0], [1, 0, 2, 22, 50, home, 0]];
            assert_eq!(bench.lines(), [&waited[..], &[[2, 0, 1, 9, 0, home, 0], changed]].concat());
            let track = shown(&mut bench, 0);
            let left = if loops == 1 { (far, 0, 1, STOPPED) } else { (home, 1, 0, WAITING) };
            assert_eq!((track.position, track.passes, track.due, track.mode), left);
        }
    }
}

/// The arrival is a whole one: the command of the point there runs again, and now finds its target PLAYING.
pub fn turned_on_a_command<B: Begun>() {
    for way @ Way { home, .. } in WAYS {
        let mut bench = on_home::<B>(way, &[Track(1, 0, 50), Action(1, 0, 1, 30), Point(0, home, 9, 0, 1, 1)]);
        turn(&mut bench, way.flipped());
        ticks(&mut bench, 1);
        let [first, again] = [1, 2].map(|clock| [clock, 0, 1, 9, 17, home, 0]);
        assert_eq!(bench.lines(), [first, [1, 1, 2, 30, 1, 0, 0], again, [2, 1, 3, 9, 17, 0, 0]]);
    }
}

/// A tick whose records don't fit is not taken: the track stays due where it was turned, and closes the pass later.
pub fn turned_without_room<B: Begun>() {
    for way @ Way { home, .. } in WAYS {
        let mut bench = on_home::<B>(way, &[Loops(0, 1), Action(0, 1, 0, 21)]);
        turn(&mut bench, way.flipped());
        bench.log.truncate(2 * RECORD + 15);
        let turned = shown(&mut bench, 0);
        assert_eq!(bench.call(Advance(5)), LogFull(0));
        assert_eq!((shown(&mut bench, 0), bench.lines()), (turned, vec![[1, 0, 1, 9, 0, home, 0]]));
        bench.accept(&[Clear]);
        ticks(&mut bench, 5);
        assert_eq!(bench.lines(), [[2, 0, 1, 9, 0, home, 0], [2, 0, 2, 21, 16, home, 1]]);
    }
}

/// A turn that leaves due as it is. Places are told in steps from the home of before.
struct Turn {
    /// ticks from the arrival on home until it is paused
    ticks: u32,
    /// a jump while PAUSED, which makes it due
    jump: Option<i64>,
    flips: bool,
    /// where it stands, whether due, and where it arrives next
    stands: i64,
    due: i64,
    next: i64,
}

const OTHERS: [Turn; 11] = [
    // The same value again, on home and on far.
    Turn { ticks: 0, jump: None, flips: false, stands: 0, due: 0, next: 1 },
    Turn { ticks: 5, jump: None, flips: false, stands: 5, due: 0, next: 0 },
    // On the far of before, which is home then; and between the two.
    Turn { ticks: 5, jump: None, flips: true, stands: 5, due: 0, next: 4 },
    Turn { ticks: 1, jump: None, flips: true, stands: 1, due: 0, next: 0 },
    Turn { ticks: 2, jump: None, flips: true, stands: 2, due: 0, next: 1 },
    Turn { ticks: 4, jump: None, flips: true, stands: 4, due: 0, next: 3 },
    // Due, on home and elsewhere.
    Turn { ticks: 0, jump: Some(0), flips: true, stands: 0, due: 1, next: 0 },
    Turn { ticks: 3, jump: Some(0), flips: true, stands: 0, due: 1, next: 0 },
    Turn { ticks: 0, jump: Some(5), flips: true, stands: 5, due: 1, next: 5 },
    Turn { ticks: 5, jump: Some(3), flips: true, stands: 3, due: 1, next: 3 },
    Turn { ticks: 0, jump: Some(0), flips: false, stands: 0, due: 1, next: 0 },
];

/// Every other turn of a PAUSED track changes the direction alone.
pub fn other_turns<B: Begun>() {
    for (nth, turn) in OTHERS.iter().enumerate() {
        for way in WAYS {
            let mut bench = on_home::<B>(way, &[]);
            ticks(&mut bench, turn.ticks);
            bench.accept(&[Pause(0)]);
            turn.jump.iter().for_each(|&steps| bench.accept(&[Jump(0, way.at(steps))]));
            let (before, held) = (shown(&mut bench, 0), bench.clock_and_held());
            assert_eq!((before.position, before.due), (way.at(turn.stands), turn.due), "turn {nth}");
            let direction = if turn.flips { way.flipped() } else { way.direction };
            bench.accept(&[Direction(0, direction)]);
            assert_eq!(shown(&mut bench, 0), track::Track { direction, ..before }, "turn {nth}");
            assert_eq!(bench.clock_and_held(), held);
            bench.accept(&[Resume(0)]);
            ticks(&mut bench, 1);
            assert_eq!(shown(&mut bench, 0).position, way.at(turn.next), "turn {nth}");
        }
    }
}

/// Paused before its first tick, it is due already and stays so: the first arrival closes a pass, as a jump to far does.
pub fn turned_unvisited<B: Begun>() {
    for way @ Way { home, far, .. } in WAYS {
        let mut bench = drawn_up::<B>(way);
        bench.accept(&[Play(0), Pause(0)]);
        let before = shown(&mut bench, 0);
        bench.accept(&[Direction(0, way.flipped())]);
        assert_eq!(shown(&mut bench, 0), track::Track { direction: way.flipped(), ..before });
        bench.accept(&[Resume(0)]);
        ticks(&mut bench, 2);
        assert_eq!(bench.lines(), [[1, 0, 1, 9, 0, home, 0], [2, 0, 1, 8, 0, far, 1]]);
    }
}

/// Turned and turned back. On home the first flip sets due, and the second finds it so: home is reported again, and no
/// pass is closed. On far the first flip changes the direction alone; the second stands on its new far position, visited.
pub fn turned_twice<B: Begun>() {
    for way @ Way { home, far, .. } in WAYS {
        let mut bench = on_home::<B>(way, &[]);
        for (more, first_due) in [(0, 1), (4, 0)] {
            ticks(&mut bench, more);
            bench.accept(&[Pause(0)]);
            let before = shown(&mut bench, 0);
            assert_eq!(before.due, 0);
            bench.accept(&[Direction(0, way.flipped())]);
            assert_eq!(shown(&mut bench, 0), track::Track { direction: way.flipped(), due: first_due, ..before });
            bench.accept(&[Direction(0, way.direction)]);
            assert_eq!(shown(&mut bench, 0), track::Track { due: 1, ..before });
            bench.accept(&[Resume(0)]);
            ticks(&mut bench, 2);
        }
        let round = [[1, 0, 1, 9, 0, home, 0], [2, 0, 1, 9, 0, home, 0], [7, 0, 1, 8, 0, far, 0]];
        assert_eq!(bench.lines(), [&round[..], &[[8, 0, 1, 8, 0, far, 1], [9, 0, 1, 9, 0, home, 2]]].concat());
    }
}

/// Not PAUSED: STOPPED it rewinds, PLAYING and WAITING are refused 2. A value that is no direction is 3.
pub fn turned_in_other_modes<B: Begun>() {
    let no_directions = [2, -1, 255, 256, 257, 1 << 32, 1 << 32 | 1, i64::MIN, i64::MAX];
    for way @ Way { home, far, .. } in WAYS {
        for (wait, mode) in [(0, PLAYING), (1, WAITING)] {
            let mut bench = on_home::<B>(way, &[Point(0, home, 9, wait, 0, 0)]);
            let standing = |bench: &mut Bench<B>| (shown(bench, 0), bench.clock_and_held());
            let before = standing(&mut bench);
            assert_eq!(before.0.mode, mode);
            no_directions.iter().chain(&[0, 1]).for_each(|&d| assert_eq!(bench.call(Direction(0, d)), Refused(2)));
            assert_eq!(standing(&mut bench), before);
            bench.accept(&[Pause(0)]);
            let before = standing(&mut bench);
            no_directions.iter().for_each(|&d| assert_eq!(bench.call(Direction(0, d)), Refused(3)));
            assert_eq!(standing(&mut bench), before);
            bench.accept(&[Stop(0)]);
            no_directions.iter().for_each(|&d| assert_eq!(bench.call(Direction(0, d)), Refused(3)));
            for (direction, rewound) in [(way.direction, home), (way.flipped(), far), (way.direction, home)] {
                bench.accept(&[Jump(0, 3), Direction(0, direction)]);
                let stopped = track::Track { mode: STOPPED, position: rewound, due: 1, direction, ..before.0 };
                assert_eq!(standing(&mut bench), (stopped, before.1));
            }
        }
    }
}

/// A span of two locations: turned on home, on the new home right behind that, and, after a pass, on far.
pub fn turned_on_two_locations<B: Begun>() {
    let mut bench = Bench::<B>::new(160);
    bench.accept(&[Track(0, 7, 8), Repeat(0, 1), Point(0, 7, 70, 0, 0, 0), Point(0, 8, 80, 0, 0, 0), Play(0)]);
    // 7 home; 7 again as far, 8 home; 8 again as far, 7 home, 8 far; then 8 is home and visited, 7 far, 8 home.
    for (count, direction) in [(1, 1), (2, 0), (3, 1), (2, 1)] {
        ticks(&mut bench, count);
        turn(&mut bench, direction);
    }
    let places = [[7, 0], [7, 0], [8, 1], [8, 1], [7, 2], [8, 2], [7, 3], [8, 4]];
    let lines: Vec<_> = (1..).zip(places).map(|(clock, [p, passes])| [clock, 0, 1, 10 * p, 0, p, passes]).collect();
    assert_eq!(bench.lines(), lines);
}

/// Turned on home at clock 1, then leapt to the end of the clock: the pass closed at clock 2, then rounds of 999,983
/// ticks from the other end. The point, 17 from the new far, is met 999,965 ticks after that end.
pub fn turned_over_the_clock<B: Begun>() {
    let span = 999_983;
    let mut bench = Bench::<B>::new(1000 * RECORD);
    bench.accept(&[Track(0, 0, span - 1), Repeat(0, 1), Point(0, 17, 5, 0, 0, 0), Play(0)]);
    ticks(&mut bench, 1);
    turn(&mut bench, 1);
    assert_eq!(bench.call(Advance(4_294_967_295)), ClockEnd(999_999_999));
    let round = |n: i64| [999_968 + span * n, 0, 1, 5, 0, 17, 1 + n];
    assert!(bench.lines().into_iter().eq((0..1000).map(round)));
    let track = shown(&mut bench, 0);
    assert_eq!((track.position, track.passes, track.due), (982_985, 1001, 0));
}

/// A master turned on its home is at its span's last distance, told in the next tick; stopped on the pass that it
/// closes, it leaves its follower no band.
pub fn turned_master<B: Begun>() {
    let mut bench = pair::<B>(160);
    bench.accept(&[Action(0, 1, 0, 78), Play(0), Play(1)]);
    ticks(&mut bench, 1);
    bench.accept(&[Pause(0), Direction(0, 1)]);
    assert_eq!((shown(&mut bench, 1).band, bench.clock_and_held()), (0, (1, 0)));
    ticks(&mut bench, 1);
    bench.accept(&[Resume(0)]);
    assert_eq!(shown(&mut bench, 1).band, 2);
    ticks(&mut bench, 1);
    assert_eq!((shown(&mut bench, 1).band, shown(&mut bench, 0).position), (0, 10));
    assert_eq!(bench.lines(), [[2, 1, 4, 51, 0, 1, 0], [3, 0, 2, 78, 16, 0, 1]]);
}

/// A list on a follower and its master that turns, idles and jumps until clock 14: the records that it writes, and what
/// it leaves of the follower: position, passes, due and band.
struct Drift {
    calls: Vec<Call>,
    lines: Vec<[i64; 7]>,
    follower: i64,
    left: [i64; 4],
}

fn drifting() -> Drift {
    let pairs = Pairs::new(&[[3, 31], [5, 51]]);
    let set_up = [Track(0, 0, 10), Track(1, 0, 10), Loops(1, 9), Point(1, 0, 9, 0, 0, 0), Master(1, 0, pairs)];
    let calls = [
        // Both on home.
        &set_up[..],
        &[Play(0), Play(1), Advance(1), Pause(0), Pause(1)],
        // 0 and 10 from home; then 6 and 10, 4 and 10, 6 and 10. The follower is due.
        &[Direction(1, 1), Advance(3), Jump(0, 6), Advance(2), Direction(0, 1), Advance(1), Direction(0, 0)],
        // The follower closes its pass, 10 from home, crosses to 10, its home, and walks on: 0, 1, 2 from there.
        &[Resume(1), Advance(4)],
        // Turned at 8 it is 8 from home: 2 apart.
        &[Pause(1), Direction(1, 0), Advance(2), Resume(0), Advance(1)],
    ];
    let idle = [[1, 1, 1, 9, 0, 0, 0], [2, 1, 4, 51, 0, 0, 0], [5, 1, 4, 31, 0, 0, 0], [7, 1, 4, 51, 0, 0, 0]];
    let resumed = [[8, 1, 1, 9, 0, 0, 0], [8, 1, 4, 31, 0, 0, 1], [9, 1, 4, 51, 0, 10, 1], [10, 1, 4, 31, 0, 9, 1]];
    Drift { calls: calls.concat(), lines: [idle, resumed].concat(), follower: 1, left: [8, 1, 0, 0] }
}

/// The list of the proved cards: the master stands on its home, so that the follower's distance is the drift.
fn jumping() -> Drift {
    let pairs = Pairs::new(&[[2, 41], [4, 42]]);
    let set_up = [Track(0, 5, 15), Track(1, 0, 10), Direction(1, 1), Master(0, 1, pairs), Loops(0, 2)];
    let calls = [
        &set_up[..],
        &[Play(0), Play(1), Pause(1), Advance(1), Pause(0)],
        // 10 from home; the pass closed at clock 4, then 0 to 3 from home.
        &[Direction(0, 1), Advance(2), Resume(0), Advance(5)],
        // 8 from home; turned, 2 from home; 2 to 4 from home.
        &[Pause(0), Jump(0, 7), Advance(1), Direction(0, 0), Advance(2), Resume(0), Advance(3)],
    ];
    let lines = [[2, 0, 4, 42, 1, 5, 0], [8, 0, 4, 41, 1, 12, 1], [9, 0, 4, 42, 1, 7, 1], [13, 0, 4, 41, 1, 8, 1]];
    Drift { calls: calls.concat(), lines: lines.to_vec(), follower: 0, left: [9, 1, 0, 1] }
}

/// A list on a bench of its own, and what is seen of it.
fn seen<B: Begun>(calls: &[Call]) -> (Bench<B>, Vec<Seen>) {
    let mut bench = Bench::new(160);
    let replies: Vec<Reply> = calls.iter().map(|&call| bench.call(call)).collect();
    (bench, observed(calls, &replies))
}

/// A follower turned on home: its new distance is judged in the next tick, idle or not, however the ticks are cut.
pub fn turned_follower<B: Held>() {
    for Drift { calls, lines, follower, left } in [drifting(), jumping()] {
        let (mut whole, all) = seen::<B>(&calls);
        assert_eq!((whole.lines(), whole.clock_and_held()), (lines.clone(), (14, lines.len() as u64)));
        let track = shown(&mut whole, follower);
        assert_eq!([track.position, track.passes, track.due, track.band], left);
        let singly = calls.iter().flat_map(|&call| match call {
            Advance(count) => vec![Advance(1); count as usize],
            other => vec![other],
        });
        let cuts = (0..50).map(|seed| recut(&calls, seed)).chain([singly.collect()]);
        for cut in cuts {
            let (mut anew, seen_anew) = seen::<B>(&cut);
            assert_eq!((anew.lines(), seen_anew), (lines.clone(), all.clone()), "{cut:?}");
            assert!(anew.board.equals(&whole.board) && anew.log == whole.log, "{cut:?}");
        }
    }
}
