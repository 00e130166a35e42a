//! What 2.1 refuses, for any board: master calls in the order of their refusals, and lent boards whose follower breaks a
//! rule.

use crate::bench::{Begun, Bench, Held};
use crate::call::{CALL_WIDTH, Call, Call::*, Pairs, Reply, Reply::Accepted, Reply::Refused};
use crate::followers::{pair, shown};
use crate::library::Library;
use crate::model::Model;
use crate::peer::Peer;
use crate::track::{self, PAUSED, PLAYING, STOPPED, THRESHOLDS, WAITING};
use crate::traps::each_call;

/// The calls up to the tick that makes the board of four modes: tracks 1 to 4, one in each, and track 0.
pub fn set_up() -> Vec<Call> {
    let tracks = [0, 1, 2, 3, 4].map(|t| Track(t, 0, 10));
    let others = [Master(1, 0, Pairs::new(GOOD)), Point(4, 0, 9, 1, 0, 0), Play(2), Play(3), Pause(3), Play(4)];
    [&tracks[..], &others].concat()
}

/// Track 1 STOPPED, 2 PLAYING, 3 PAUSED, 4 WAITING.
pub fn four_modes<B: Begun>() -> Bench<B> {
    let mut bench = Bench::<B>::new(64);
    bench.accept(&set_up());
    assert_eq!(bench.call(Advance(1)), Reply::Done(1));
    let modes = [1, 2, 3, 4].map(|t| shown(&mut bench, t).mode);
    assert_eq!(modes, [STOPPED, PLAYING, PAUSED, WAITING]);
    bench
}

const GOOD: &[[i64; 2]] = &[[3, 31], [5, 51]];
/// Out of range, not rising and over four, all at once.
const BAD: &[[i64; 2]] = &[[9, 9], [9, 256], [0, 9], [9, 0], [1_000_001, 9]];
/// Out of range in one number, which the refusal 10 would come behind.
const OUTSIDE: [&[[i64; 2]]; 14] = [
    &[[0, 1]],
    &[[-1, 1]],
    &[[1_000_001, 1]],
    &[[1, 0]],
    &[[1, -1]],
    &[[1, 256]],
    &[[i64::MIN, 1]],
    &[[1, i64::MAX]],
    &[[1 << 32 | 5, 1]],
    &[[1, 1 << 32 | 5]],
    &[[3, 31], [3, 31], [0, 1]],
    &[[5, 51], [3, 256]],
    &[[1, 1], [2, 2], [3, 3], [4, 4], [5, 256]],
    &[[1, 1], [2, 2], [3, 3], [4, 4], [1_000_001, 5]],
];
/// In range, but equal, falling or over four.
const UNORDERED: [&[[i64; 2]]; 6] = [
    &[[3, 31], [3, 51]],
    &[[5, 51], [3, 31]],
    &[[1, 1], [2, 2], [4, 4], [3, 3]],
    &[[1, 1], [2, 2], [3, 3], [3, 4]],
    &[[1, 1], [2, 2], [3, 3], [4, 4], [5, 5]],
    &[[1, 1], [2, 2], [3, 3], [4, 4], [4, 5]],
];

/// Every call whose refusal is that number, though a later one may hold too.
fn refused_masters(number: u8) -> Vec<Call> {
    let all = [&[], GOOD, BAD].map(Pairs::new);
    let each = |ts: &[i64], ms: &[i64]| -> Vec<Call> {
        let places = ts.iter().flat_map(|&t| ms.iter().map(move |&m| (t, m)));
        places.flat_map(|(t, m)| all.map(|pairs| Master(t, m, pairs))).collect()
    };
    let absent = [5, 15, 16, -1, i64::MIN, i64::MAX, 1 << 32 | 1];
    match number {
        1 => [each(&absent, &[0, 1, 2, 5, 99]), each(&[1, 2, 3, 4], &absent)].concat(),
        2 => each(&[2, 3, 4], &[0, 1, 2, 3, 4]),
        3 => {
            let itself = [&[], GOOD, BAD, UNORDERED[0], UNORDERED[4]].map(|pairs| Master(1, 1, Pairs::new(pairs)));
            [itself.to_vec(), OUTSIDE.map(|pairs| Master(1, 0, Pairs::new(pairs))).to_vec()].concat()
        }
        _ => UNORDERED.map(|pairs| Master(1, 2, Pairs::new(pairs))).to_vec(),
    }
}

/// 1 for the track, 1 for the master, 2, 3, 10: of those that hold, the first; nothing changes.
pub fn in_order<B: Begun>() {
    let mut bench = four_modes::<B>();
    let picture = |bench: &mut Bench<B>| ([0, 1, 2, 3, 4].map(|t| shown(bench, t)), bench.clock_and_held());
    let before = picture(&mut bench);
    for number in [1, 2, 3, 10] {
        for call in refused_masters(number) {
            assert_eq!(bench.call(call), Refused(number), "{call:?}");
            assert_eq!(picture(&mut bench), before, "{call:?}");
        }
    }
    // The edges of the ranges, four pairs, a master in any mode; then none.
    let four = [[1, 1], [2, 255], [999_999, 255], [1_000_000, 1]];
    let masters = [0, 2, 3, 4].map(|m| Master(1, m, Pairs::new(&four)));
    bench.accept(&[&masters[..], &[Master(1, 4, Pairs::NONE), Master(0, 1, Pairs::new(GOOD))]].concat());
}

/// Numbers of any length: an event that is missing is 3; all pairs are judged for 3, then 10.
pub fn of_any_length<B: Begun>() {
    let mut bench = four_modes::<B>();
    let many: Vec<i64> = (1..=100).flat_map(|n| [n, 7]).collect();
    let mut out_at_last = many.clone();
    out_at_last[199] = 256;
    let cases: [(&[i64], u8); 8] = [
        (&[3], 3),
        (&[3, 31, 5], 3),
        (&[5, 51, 3, 31, 9], 3),
        (&many[..199], 3),
        (&many[..9], 3),
        (&out_at_last, 3),
        (&many, 10),
        (&many[..10], 10),
    ];
    let before = [1, 2].map(|t| shown(&mut bench, t));
    for (numbers, number) in cases {
        assert_eq!(bench.board.master(1, 0, numbers), Refused(number), "{numbers:?}");
        assert_eq!(bench.board.master(5, 0, numbers), Refused(1));
        assert_eq!(bench.board.master(1, 5, numbers), Refused(1));
        assert_eq!(bench.board.master(2, 0, numbers), Refused(2));
        assert_eq!([1, 2].map(|t| shown(&mut bench, t)), before, "{numbers:?}");
    }
    assert_eq!(bench.board.master(1, 0, &many[..8]), Accepted);
    assert_eq!((shown(&mut bench, 1).thresholds, shown(&mut bench, 1).events), ([1, 2, 3, 4], [7; THRESHOLDS]));
    assert_eq!(bench.board.master(1, 0, &[]), Accepted);
    assert_eq!((shown(&mut bench, 1).thresholds, shown(&mut bench, 1).events), ([0; THRESHOLDS], [0; THRESHOLDS]));
}

/// Rows of code 21, with what they answer on the board of four modes. A negative number of pairs is no call; of five or
/// more the row's five are judged; pairs past the number are not read.
pub fn rows() -> Vec<([i64; CALL_WIDTH], Reply)> {
    let row = |t: i64, m: i64, count: i64, rest: [i64; 10]| {
        let mut row = [21, t, m, count, 0, 0, 0, 0, 0, 0, 0, 0, 0, 0];
        row[4..].copy_from_slice(&rest);
        row
    };
    let five = [1, 1, 2, 2, 3, 3, 4, 4, 5, 5];
    let fifth_out = [1, 1, 2, 2, 3, 3, 4, 4, 5, 256];
    let noise = [i64::MIN, i64::MAX, -1, 256, 0, 0, 7, 7, 7, 7];
    vec![
        (row(1, 0, -1, five), Refused(9)),
        (row(99, 0, i64::MIN, five), Refused(9)),
        (row(1, 0, 5, five), Refused(10)),
        (row(1, 0, 6, five), Refused(10)),
        (row(1, 0, i64::MAX, five), Refused(10)),
        (row(1, 0, 5, fifth_out), Refused(3)),
        (row(1, 0, i64::MAX, fifth_out), Refused(3)),
        (row(1, 0, 1 << 32, fifth_out), Refused(3)),
        (row(1, 0, 256 + 2, noise), Refused(3)),
        (row(1, 0, 4, fifth_out), Accepted),
        (row(1, 0, 0, noise), Accepted),
        (row(1, 1, 0, noise), Refused(3)),
        (row(1, 5, 0, noise), Refused(1)),
    ]
}

pub fn by_rows<B: Begun>() {
    let mut bench = four_modes::<B>();
    for (row, reply) in rows() {
        let before = shown(&mut bench, 1);
        assert_eq!(bench.board.apply_encoded(&row, &mut bench.log), reply, "{row:?}");
        let numbers = if row[3] == 0 { [0; THRESHOLDS] } else { [1, 2, 3, 4] };
        let left = track::Track { thresholds: numbers, events: numbers, ..before };
        assert_eq!(shown(&mut bench, 1), if reply == Accepted { left } else { before }, "{row:?}");
    }
}

/// What a lent board says of a follower, in the model's words, and its clock.
#[derive(Clone, Copy, Debug)]
pub struct Led {
    pub what: &'static str,
    pub clock: i64,
    pub master: i64,
    pub band: i64,
    pub thresholds: [i64; THRESHOLDS],
    pub events: [i64; THRESHOLDS],
}

/// Nothing wrong: tracks 0, 1 and 2 are present, 1 follows 0.
const SOUND: Led =
    Led { what: "sound", clock: 9, master: 0, band: 0, thresholds: [3, 5, 0, 0], events: [31, 51, 0, 0] };
/// Nothing wrong either: 1 follows none.
const FREE: Led = Led { what: "free", thresholds: [0; 4], events: [0; 4], ..SOUND };

/// Each rule broken, for track 1.
pub const BROKEN: [Led; 28] = [
    Led { what: "master absent", master: 7, ..SOUND },
    Led { what: "master 16", master: 16, ..SOUND },
    Led { what: "master 255", master: 255, ..SOUND },
    Led { what: "master itself", master: 1, ..SOUND },
    Led { what: "master named without thresholds", master: 2, ..FREE },
    Led { what: "an absent master named without thresholds", master: 7, ..FREE },
    Led { what: "itself named without thresholds", master: 1, ..FREE },
    Led { what: "threshold 0 first", thresholds: [0, 5, 0, 0], events: [0, 51, 0, 0], ..SOUND },
    Led { what: "threshold 0 first, its event there", thresholds: [0, 5, 0, 0], ..SOUND },
    Led { what: "threshold 1,000,001", thresholds: [3, 1_000_001, 0, 0], ..SOUND },
    Led { what: "only threshold 1,000,001", thresholds: [1_000_001, 0, 0, 0], events: [31, 0, 0, 0], ..SOUND },
    Led { what: "threshold of 32 bits", thresholds: [3, 4_294_967_295, 0, 0], ..SOUND },
    Led { what: "thresholds equal", thresholds: [3, 3, 0, 0], ..SOUND },
    Led { what: "the last two equal", thresholds: [1, 2, 3, 3], events: [1; 4], ..SOUND },
    Led { what: "thresholds falling", thresholds: [5, 3, 0, 0], ..SOUND },
    Led { what: "the last falling", thresholds: [1, 2, 4, 3], events: [1; 4], ..SOUND },
    Led { what: "a 0 in the middle", thresholds: [3, 0, 5, 0], events: [31, 0, 51, 0], ..SOUND },
    Led { what: "a 0 before the last", thresholds: [3, 5, 0, 9], events: [31, 51, 0, 9], ..SOUND },
    Led { what: "event 0", events: [31, 0, 0, 0], ..SOUND },
    Led { what: "event 256", events: [31, 256, 0, 0], ..SOUND },
    Led { what: "event of 16 bits", events: [65_535, 51, 0, 0], ..SOUND },
    Led { what: "an event beside no threshold", events: [31, 51, 7, 0], ..SOUND },
    Led { what: "the last event beside none", events: [31, 51, 0, 7], ..SOUND },
    Led { what: "an event without thresholds", events: [7, 0, 0, 0], ..FREE },
    Led { what: "band above the row", band: 3, ..SOUND },
    Led { what: "band 255", band: 255, ..SOUND },
    Led { what: "band without thresholds", band: 1, ..FREE },
    Led { what: "band at clock 0", band: 1, clock: 0, ..SOUND },
];

/// At the edge of the rules.
pub const STANDING: [Led; 5] = [
    Led { band: 2, ..SOUND },
    Led { clock: 0, ..SOUND },
    Led { band: 2, clock: 1, master: 2, thresholds: [1, 1_000_000, 0, 0], events: [1, 255, 0, 0], ..SOUND },
    Led { band: 4, thresholds: [1, 2, 3, 4], events: [255; 4], ..SOUND },
    Led { clock: 0, ..FREE },
];

/// A board whose clock and follower can be set at will.
pub trait Lent: Held {
    /// Track 1 and the clock, as far as the board's numbers can hold that.
    fn lend(&mut self, led: &Led) -> bool;
}

impl Lent for Model {
    fn lend(&mut self, led: &Led) -> bool {
        let Led { clock, master, band, thresholds, events, .. } = *led;
        let track = self.tracks[1].expect("track 1");
        self.tracks[1] = Some(crate::track::Track { master, band, thresholds, events, ..track });
        self.clock = clock;
        true
    }
}

impl Lent for Peer {
    /// Its events are bytes.
    fn lend(&mut self, led: &Led) -> bool {
        let track = &mut self.tracks[1];
        (track.master, track.band) = (led.master as u8, led.band as u8);
        (track.thresholds, track.events) = (led.thresholds.map(|n| n as u32), led.events.map(|n| n as u8));
        self.clock = led.clock as u32;
        led.events.iter().all(|&event| event < 256)
    }
}

impl Lent for Library {
    fn lend(&mut self, led: &Led) -> bool {
        let track = &mut self.board.tracks[1];
        (track.master, track.band) = (led.master as u8, led.band as u8);
        (track.thresholds, track.events) = (led.thresholds.map(|n| n as u32), led.events.map(|n| n as u16));
        self.board.clock = led.clock as u32;
        true
    }
}

/// The board that is lent, with a follower that is set so; none if it cannot hold that.
pub fn lent<B: Lent>(led: &Led) -> Option<Bench<B>> {
    let mut bench = pair::<B>(64);
    bench.accept(&[Track(2, -5, 5), Point(1, 0, 9, 0, 4, 2)]);
    bench.board.lend(led).then_some(bench)
}

/// Every call refuses 3 where a rule is broken, board and log equal to the byte; where none is, the clock is told.
pub fn lent_boards<B: Lent>() {
    for led in &BROKEN {
        let Some(Bench { board, log }) = lent::<B>(led) else { continue };
        for call in each_call() {
            let (mut after, mut after_log) = (board.clone(), log.clone());
            assert_eq!(after.apply(call, &mut after_log), Refused(3), "{}: {call:?}", led.what);
            assert!(after.equals(&board) && after_log == log, "{}: {call:?}", led.what);
        }
    }
    for led in &STANDING {
        let mut bench = lent::<B>(led).expect("it can be held");
        assert_eq!(bench.clock_and_held(), (led.clock as u32, 0), "{led:?}");
    }
}
