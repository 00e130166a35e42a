//! What 2.4 sets and refuses, for any board: rate calls in the order of their refusals, and lent boards whose rate or
//! remainder breaks a rule.

use crate::bench::{Begun, Bench, Held};
use crate::call::Reply::{self, Accepted, Refused};
use crate::call::{CALL_WIDTH, Call, Call::*};
use crate::followers::{paused_pair, shown, ticks};
use crate::library::Library;
use crate::model::Model;
use crate::peer::Peer;
use crate::refused::four_modes;
use crate::track::{self, PAUSED, PLAYING, STOPPED, WAITING};
use crate::traps::each_call;

/// 1 in 1 for a new track. Setting changes the rate alone: it does not rewind, and leaves a band; it writes nothing.
pub fn setting<B: Begun>() {
    let mut bench = paused_pair::<B>(160);
    bench.accept(&[Jump(0, 8)]);
    ticks(&mut bench, 1);
    bench.accept(&[Stop(1), Jump(1, 4)]);
    let (before, held) = (shown(&mut bench, 1), bench.clock_and_held());
    assert_eq!([before.steps, before.ticks, before.remainder], [1, 1, 0]);
    assert_eq!((before.position, before.due, before.band), (4, 1, 2));
    for (steps, ticks) in [(1, 1_000), (1_000, 1_000), (999, 1_000), (2, 5), (2, 5), (7, 7), (1, 1)] {
        bench.accept(&[Rate(1, steps, ticks)]);
        assert_eq!(shown(&mut bench, 1), track::Track { steps, ticks, ..before });
        assert_eq!(bench.clock_and_held(), held);
    }
    assert_eq!([shown(&mut bench, 0).steps, shown(&mut bench, 0).ticks], [1, 1]);
}

/// Steps or ticks below 1 or above 1,000, or more steps than ticks.
const WRONG: [[i64; 2]; 25] = [
    [0, 1],
    [1, 0],
    [0, 0],
    [0, 1_000],
    [-1, 1],
    [1, -1],
    [-1, -1],
    [-5, -2],
    [2, 1],
    [1_000, 999],
    [1_000, 1],
    [1, 1_001],
    [1_001, 1_001],
    [1_001, 1_000],
    [65_536, 65_536],
    [65_537, 65_538],
    [1, 65_537],
    [65_537, 1],
    [1 << 32 | 1, 1 << 32 | 2],
    [1, 1 << 32 | 2],
    [1 << 32 | 1, 2],
    [i64::MIN, i64::MIN],
    [i64::MIN, 1],
    [1, i64::MAX],
    [i64::MAX, i64::MAX],
];

/// 1, 2, 11: of those that hold, the first; nothing changes. The rate of a track in any mode but STOPPED stays.
pub fn in_order<B: Begun>() {
    let mut bench = four_modes::<B>();
    let picture = |bench: &mut Bench<B>| ([0, 1, 2, 3, 4].map(|t| shown(bench, t)), bench.clock_and_held());
    let before = picture(&mut bench);
    let absent = [5, 15, 16, -1, i64::MIN, i64::MAX, 1 << 32 | 1];
    let places = [(&absent[..], 1), (&[2, 3, 4], 2)].map(|(tracks, number)| (tracks.to_vec(), number));
    for [p, q] in WRONG.into_iter().chain([[1, 1], [2, 5]]) {
        for (tracks, number) in &places {
            tracks.iter().for_each(|&t| assert_eq!(bench.call(Rate(t, p, q)), Refused(*number), "{t}, {p} in {q}"));
        }
    }
    WRONG.iter().for_each(|&[p, q]| assert_eq!(bench.call(Rate(1, p, q)), Refused(11), "{p} in {q}"));
    assert_eq!(picture(&mut bench), before);
    bench.accept(&[Rate(1, 1, 1), Rate(1, 1, 1_000), Rate(1, 1_000, 1_000), Rate(0, 2, 5)]);
    // Refused 11 leaves the rate that was set; with a log that is too short it is no other: the call takes none.
    bench.log.clear();
    assert_eq!(bench.call(Rate(0, 6, 5)), Refused(11));
    assert_eq!([shown(&mut bench, 0).steps, shown(&mut bench, 0).ticks], [2, 5]);
}

/// Rows of code 22: numbers behind the third are not read.
pub fn by_rows<B: Begun>() {
    let mut bench = four_modes::<B>();
    let row = |t: i64, p: i64, q: i64, rest: i64| {
        let mut row = [rest; CALL_WIDTH];
        row[..4].copy_from_slice(&[22, t, p, q]);
        row
    };
    for rest in [0, 1, -1, i64::MIN, i64::MAX] {
        let answers = [(1, 3, 7, Accepted), (1, 7, 3, Refused(11)), (2, 3, 7, Refused(2)), (9, 7, 3, Refused(1))];
        for (t, p, q, reply) in answers {
            assert_eq!(bench.board.apply_encoded(&row(t, p, q, rest), &mut bench.log), reply);
        }
        assert_eq!(Call::decode(&row(1, 3, 7, rest)), Some(Rate(1, 3, 7)));
    }
}

/// What a lent board says of a track's rate, in the model's words.
#[derive(Clone, Copy, Debug)]
pub struct Paced {
    pub mode: i64,
    pub steps: i64,
    pub ticks: i64,
    pub remainder: i64,
}

fn paced([steps, ticks, remainder]: [i64; 3], modes: &[i64]) -> Vec<Paced> {
    modes.iter().map(|&mode| Paced { mode, steps, ticks, remainder }).collect()
}

const ALL: &[i64] = &[STOPPED, PLAYING, PAUSED, WAITING];
const MOVED: &[i64] = &[PLAYING, PAUSED, WAITING];

/// Each rule broken: the rate's range in every mode; a remainder that is not below the ticks, or not 0 when STOPPED.
pub fn broken() -> Vec<Paced> {
    let rates = [[0, 1], [0, 0], [1, 0], [0, 1_000], [2, 1], [1_000, 999], [1, 1_001], [1_001, 1_001], [500, 1_001]];
    let wide = [[65_535, 65_535], [1, 65_535], [65_535, 1], [-1, 5], [-1, -1]];
    let rates = rates.into_iter().chain(wide).flat_map(|[p, q]| paced([p, q, 0], ALL));
    let remainders = [[1, 1, 1], [2, 5, 5], [5, 5, 5], [2, 5, 6], [1, 1_000, 1_000], [3, 7, 65_535], [2, 5, -1]];
    let remainders = remainders.into_iter().flat_map(|numbers| paced(numbers, ALL));
    let stopped = [[2, 5, 1], [2, 5, 4], [1, 1_000, 999], [1_000, 1_000, 1]];
    let stopped = stopped.into_iter().flat_map(|numbers| paced(numbers, &[STOPPED]));
    rates.chain(remainders).chain(stopped).collect()
}

/// At the edge of the rules.
pub fn standing() -> Vec<Paced> {
    let rates = [[1, 1, 0], [1, 1_000, 0], [1_000, 1_000, 0], [2, 5, 0]].map(|numbers| paced(numbers, ALL));
    let remainders = [[2, 5, 4], [1, 2, 1], [1, 1_000, 999], [1_000, 1_000, 999], [999, 1_000, 1]];
    [rates.concat(), remainders.map(|numbers| paced(numbers, MOVED)).concat()].concat()
}

/// A board whose track 1 can be given a mode, a rate and a remainder at will.
pub trait Lent: Held {
    /// As far as the board's numbers can hold that.
    fn lend(&mut self, paced: &Paced) -> bool;
}

/// The numbers in 16 bits each; whether they are these.
fn narrow(paced: &Paced) -> ([u16; 3], bool) {
    let numbers = [paced.steps, paced.ticks, paced.remainder];
    (numbers.map(|n| n as u16), numbers.iter().all(|n| (0..=65_535).contains(n)))
}

impl Lent for Model {
    fn lend(&mut self, paced: &Paced) -> bool {
        let Paced { mode, steps, ticks, remainder } = *paced;
        let track = self.tracks[1].expect("track 1");
        self.tracks[1] = Some(track::Track { mode, steps, ticks, remainder, ..track });
        true
    }
}

impl Lent for Peer {
    fn lend(&mut self, paced: &Paced) -> bool {
        let ([steps, ticks, remainder], fits) = narrow(paced);
        self.tracks[1] = crate::peer::Track { mode: paced.mode as u8, steps, ticks, remainder, ..self.tracks[1] };
        fits
    }
}

impl Lent for Library {
    fn lend(&mut self, paced: &Paced) -> bool {
        let ([steps, ticks, remainder], fits) = narrow(paced);
        let track = &mut self.board.tracks[1];
        (track.mode, track.steps, track.ticks, track.remainder) =
            (paced.mode as u8, steps, ticks, u32::from(remainder));
        fits
    }
}

/// The board that is lent, its track 1 a follower and a master; none if it cannot hold that.
pub fn lent<B: Lent>(paced: &Paced) -> Option<Bench<B>> {
    let mut bench = crate::followers::pair::<B>(64);
    bench.accept(&[Track(2, -5, 5), Point(1, 0, 9, 0, 4, 2), Point(1, 3, 9, 1, 0, 0), Play(0)]);
    bench.board.lend(paced).then_some(bench)
}

/// Every call refuses 3 where a rule is broken, board and log equal to the byte; where none is, the clock is told.
pub fn lent_boards<B: Lent>() {
    for paced in &broken() {
        let Some(Bench { board, log }) = lent::<B>(paced) else { continue };
        for call in each_call() {
            let (mut after, mut after_log) = (board.clone(), log.clone());
            assert_eq!(after.apply(call, &mut after_log), Refused(3), "{paced:?}: {call:?}");
            assert!(after.equals(&board) && after_log == log, "{paced:?}: {call:?}");
        }
    }
    for paced in &standing() {
        let mut bench = lent::<B>(paced).expect("it can be held");
        assert_eq!(bench.clock_and_held(), (0, 0), "{paced:?}");
        let Reply::Track(track) = bench.call(ShowTrack(1)) else { panic!("{paced:?} is refused") };
        assert_eq!([track.mode, track.steps, track.ticks, track.remainder], paced.numbers());
    }
}

impl Paced {
    fn numbers(&self) -> [i64; 4] {
        [self.mode, self.steps, self.ticks, self.remainder]
    }
}

/// A remainder that is lent is the one that the next tick adds to: at 1,000 in 1,000 with 999, one step a tick and no more.
pub fn lent_remainders<B: Lent>() {
    let cases = [([2, 5, 4], [1, 0, 0]), ([1, 1_000, 999], [0, 0, 0]), ([1_000, 1_000, 999], [999, 0, 0])];
    for ([steps, ticks_of_rate, remainder], left) in cases {
        let paced = Paced { mode: PLAYING, steps, ticks: ticks_of_rate, remainder };
        let mut bench = lent::<B>(&paced).expect("it can be held");
        ticks(&mut bench, 1);
        let track = shown(&mut bench, 1);
        assert_eq!([track.remainder, track.position, track.due], left, "{paced:?}");
    }
}
