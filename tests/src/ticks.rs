//! 02's ticks (2.2), for any board: what a taken tick writes, and the board after it but for held, are the same for
//! every log and count held; its records are at most 64, and one board writes so many.

use crate::against::agree;
use crate::bench::{Alike, Bench, FILL, Held};
use crate::call::Reply::{self, ClockEnd, Done, LogFull, Refused};
use crate::call::{Call, Call::*, Pairs, refusal};
use crate::followers::shown;
use crate::gen::{Case, PROFILES, Rng, case};
use crate::lists::taken;
use crate::model::{self, CLOCK_END, Model, TRACKS};
use crate::record::{RECORD, capacity};
use crate::track::{self, PLAYING, WAITING};
use std::iter;

/// The most records of a tick, and their bytes.
pub const MOST: usize = 64;
pub const FULL: usize = MOST * RECORD;

/// The last track, and the last location of each in the tick of 64 records.
const LAST: i64 = TRACKS as i64 - 1;
const END: i64 = 100;

/// Where a track begins: even ones on their far position, odd ones as far from home as their number says.
fn place(t: i64) -> i64 {
    if t % 2 == 0 { END } else { t }
}

/// Passes after the first step, which for even tracks is an arrival at far.
fn passes(t: i64) -> i64 {
    1 - t % 2
}

/// A board whose first tick writes 64 records. Each track reaches a point that makes it wait, and the point's command,
/// play for another track, is refused, since that one waits too; and each follows its neighbour, from which it is 85 to 99
/// apart. The same calls are in board/proofs/lists/FullCalls.
pub fn set_up() -> Vec<Call> {
    let tracks = (0..=LAST).map(|t| Track(t, 0, END));
    let others = (0..=LAST).flat_map(|t| {
        let point = Point(t, place(t), 40 + t, 1, 1, LAST - t);
        let master = Master(t, t ^ 1, Pairs::new(&[[84, 80 + t], [99, 120 + t]]));
        [Repeat(t, 1), Jump(t, place(t)), Action(t, PLAYING, WAITING, 20 + t), point, master, Play(t)]
    });
    tracks.chain(others).collect()
}

/// Its records: of each track the point, then the change to WAITING; the commands, lowest point's first, so that their
/// targets descend; the bands.
fn lines() -> Vec<[i64; 7]> {
    let steps = (0..=LAST).flat_map(|t| {
        let point = [1, t, 1, 40 + t, 16 + LAST - t, place(t), 0];
        [point, [1, t, 2, 20 + t, 16 * PLAYING + WAITING, place(t), passes(t)]]
    });
    let command = |target: i64| [1, target, 3, 40 + LAST - target, 16 + WAITING, place(target), passes(target)];
    let bands = (0..=LAST).map(|t| [1, t, 4, 80 + t, t ^ 1, place(t), passes(t)]);
    steps.chain((0..=LAST).rev().map(command)).chain(bands).collect()
}

/// Track t as these calls leave it, every field (`fullTrack` of board/specs/Full).
fn drawn(t: i64) -> track::Track {
    let mut actions = [[0; 4]; 4];
    actions[PLAYING as usize][WAITING as usize] = 20 + t;
    track::Track {
        min: 0,
        max: END,
        start: 0,
        end: END,
        position: place(t),
        direction: 0,
        repeat: 1,
        loops: 1,
        passes: 0,
        due: 1,
        mode: PLAYING,
        actions,
        master: t ^ 1,
        band: 0,
        thresholds: [84, 99, 0, 0],
        events: [80 + t, 120 + t, 0, 0],
        steps: 1,
        ticks: 1,
        remainder: 0,
    }
}

/// That board before its first tick, with a log of so many bytes.
fn begun<B: Held>(bytes: usize) -> Bench<B> {
    let mut bench = Bench::new(bytes);
    bench.accept(&set_up());
    assert_eq!(bench.clock_and_held(), (0, 0));
    for t in 0..=LAST {
        assert_eq!(shown(&mut bench, t), drawn(t));
        let point = model::Point { event: 40 + t, wait: 1, command: 1, target: LAST - t };
        assert_eq!(bench.call(ShowPoint(t, place(t))), Reply::Point(t, place(t), point));
        assert_eq!(bench.call(Count(t, 0, END)), Reply::Count(1));
    }
    bench
}

/// The same after so many ticks: all tracks wait in the first band, and only the first tick has written.
fn waiting<B: Held>(ticks: u32) -> Bench<B> {
    let mut bench = begun(FULL);
    assert_eq!(bench.call(Advance(ticks.into())), Done(ticks));
    assert_eq!((bench.clock_and_held(), bench.lines()), ((ticks, MOST as u64), lines()));
    for t in 0..=LAST {
        let after = track::Track { mode: WAITING, due: 0, passes: passes(t), band: 1, ..drawn(t) };
        assert_eq!(shown(&mut bench, t), after);
    }
    bench
}

/// A tick of 64 records: taken on a log of just these, as are the ticks after it; held back on one of a byte less.
pub fn sixty_four<B: Held>() {
    let (mut one, five) = (waiting::<B>(1), waiting::<B>(5));
    assert_eq!(one.call(Advance(4)), Done(4));
    assert!(one.board.equals(&five.board) && one.log == five.log);
    for ticks in [1, 5] {
        let mut bench = begun::<B>(FULL - 1);
        let before = bench.board.clone();
        assert_eq!(bench.call(Advance(ticks)), LogFull(0));
        assert!(bench.board.equals(&before) && bench.log == [FILL; FULL - 1]);
    }
}

/// The board with so many records held.
fn holding<B: Held>(board: &B, held: u64) -> B {
    let mut board = board.clone();
    *board.held() = held;
    board
}

/// What the next ticks of a board come to, found on a log with room for 64 records of each.
struct Stretch<B> {
    ticks: i64,
    reply: Reply,
    /// the board after them, with no other records held
    board: B,
    /// the bytes of their records
    records: Vec<u8>,
    /// how many of them write records
    writing: usize,
}

impl<B: Held> Stretch<B> {
    /// The log never fills, since no tick writes more than it has room for; so only the clock can stop them.
    fn of(board: &B, ticks: i64, place: &str) -> Stretch<B> {
        let mut bench = Bench { board: holding(board, 0), log: vec![FILL; ticks as usize * FULL] };
        let rest = CLOCK_END - i64::from(bench.clock_and_held().0);
        let reply = if ticks <= rest { Done(ticks as u32) } else { ClockEnd(rest as u32) };
        assert_eq!(bench.call(Advance(ticks)), reply, "{place}: {ticks} ticks");
        let lines = bench.lines();
        let of_a_tick = lines.chunk_by(|a, b| a[0] == b[0]);
        assert!(of_a_tick.clone().all(|records| records.len() <= MOST), "{place}: {ticks} ticks");
        let Bench { board, log } = bench;
        let records = log[..lines.len() * RECORD].to_vec();
        Stretch { ticks, reply, board, records, writing: of_a_tick.count() }
    }

    /// Lends the board anew, with another count held and another log. The room decides whether the ticks are taken;
    /// nothing of either is seen in what they do. Of more than one tick, the log must have room for all.
    fn lend(&self, board: &B, held: u64, log: &[u8], place: &str) -> Reply {
        let records = (self.records.len() / RECORD) as u64;
        let reply = match (capacity(log) as u64).checked_sub(held) {
            None => Refused(refusal::CAPACITY),
            Some(room) if room < records => LogFull(0),
            Some(_) => self.reply,
        };
        let (mut left, mut left_log) = (holding(board, held), log.to_vec());
        let (mut after, mut after_log) = (left.clone(), log.to_vec());
        if reply == self.reply {
            left = holding(&self.board, held + records);
            left_log[held as usize * RECORD..][..self.records.len()].copy_from_slice(&self.records);
        }
        let lent = || format!("{place}: {held} held, a log of {}", log.len());
        assert_eq!(after.advance(self.ticks, &mut after_log), reply, "{}", lent());
        assert!(after.equals(&left) && after_log == left_log, "{}", lent());
        reply
    }
}

/// Lists of this module begin at this seed, so that they are no other's.
const SEED: u64 = 8_000_000;
const LISTS: u64 = 1000;

/// A list's boards before each fifth of its advances, and the number of that call.
fn reached<B: Held>(case: &Case) -> Vec<(usize, B)> {
    let Case { clock, log, calls } = case;
    let (mut board, mut log, mut next) = (B::begun(*clock), log.clone(), 0);
    let mut boards = Vec::new();
    for nth in (0..calls.len()).filter(|&nth| matches!(calls[nth], Advance(_))).step_by(5) {
        for &call in &calls[next..nth] {
            board.apply(call, &mut log);
        }
        next = nth;
        boards.push((nth, board.clone()));
    }
    boards
}

/// The board of 64 records, and those that lists of all profiles reach: beside each its place and some numbers.
fn boards<B: Held>() -> impl Iterator<Item = (String, B, Rng)> {
    let full = ("64 records".to_string(), begun(0).board, Rng(SEED));
    let lists = (SEED..SEED + LISTS).zip(PROFILES.into_iter().cycle());
    let reached = lists.flat_map(|(seed, profile)| {
        let place = move |nth| format!("{profile:?} list {seed}, before call {nth}");
        let boards = reached(&case(profile, seed)).into_iter();
        boards.map(move |(nth, board)| (place(nth), board, Rng(seed << 16 | nth as u64)))
    });
    iter::once(full).chain(reached)
}

/// Counts held: none, some, many.
fn counts(rng: &mut Rng) -> [i64; 3] {
    [0, rng.between(1, 20), rng.between(100, 300)]
}

/// A log so much longer, in bytes, than so many records.
fn log_of(held: i64, more: i64, rng: &mut Rng) -> Vec<u8> {
    rng.bytes((held * RECORD as i64 + more).max(0))
}

/// Pairs of a count held and a log. Behind the held records the log has room for just the tick's bytes; these and a tail;
/// a byte less; fewer than 64 records; 64; more; any number of bytes up to the tick's; or it is too short for what is held.
fn lendings(bytes: i64, rng: &mut Rng) -> Vec<(u64, Vec<u8>)> {
    let (record, full) = (RECORD as i64, FULL as i64);
    let mut pairs = vec![(u64::MAX, rng.bytes(full))];
    for held in counts(rng) {
        let near = [bytes, bytes + rng.between(1, record - 1), bytes - 1, rng.between(bytes, full - 1)];
        let far = [full, full + rng.between(1, 8 * full), rng.between(0, bytes), -rng.between(1, held * record)];
        pairs.extend([near, far].as_flattened().iter().map(|&more| (held as u64, log_of(held, more, rng))));
    }
    pairs
}

/// How often each answer came.
#[derive(Debug, Default)]
struct Came {
    with_records: u32,
    without: u32,
    log_full: u32,
    clock_end: u32,
    refused: u32,
}

impl Came {
    fn note(&mut self, reply: Reply, records: usize) {
        *match reply {
            Done(_) if records > 0 => &mut self.with_records,
            Done(_) => &mut self.without,
            LogFull(_) => &mut self.log_full,
            ClockEnd(_) => &mut self.clock_end,
            _ => &mut self.refused,
        } += 1;
    }

    /// Each more often than this.
    fn assert_often(&self, least: u32) {
        let Came { with_records, without, log_full, clock_end, refused } = *self;
        let seldom = [with_records, without, log_full, clock_end, refused].into_iter().min();
        assert!(seldom > Some(least), "an answer came too seldom: {self:?}");
    }
}

/// One tick of a board under many logs and counts held.
pub fn alike<B: Held>() {
    let (mut came, mut lent) = (Came::default(), 0);
    for (place, board, mut rng) in boards::<B>() {
        let tick = Stretch::of(&board, 1, &place);
        for (held, log) in lendings(tick.records.len() as i64, &mut rng) {
            came.note(tick.lend(&board, held, &log, &place), tick.writing);
        }
        lent += 1;
    }
    println!("alike: {lent} boards, {came:?}");
    came.assert_often(2000);
}

/// Many ticks at once, which peer and library leap where they can: the same on all logs that have room for them.
pub fn stretches<B: Held>() {
    let (mut came, mut ticks, mut writing) = (Came::default(), 0, 0);
    for (place, board, mut rng) in boards::<B>() {
        let stretch = Stretch::of(&board, rng.between(2, 200), &place);
        for held in counts(&mut rng) {
            let spare = if rng.chance(50) { 0 } else { rng.between(1, 8 * FULL as i64) };
            let log = log_of(held, stretch.records.len() as i64 + spare, &mut rng);
            came.note(stretch.lend(&board, held as u64, &log, &place), stretch.writing);
        }
        (ticks, writing) = (ticks + taken(stretch.reply).0, writing + stretch.writing);
    }
    println!("stretches: of {ticks} ticks {writing} write, {came:?}");
    assert!(came.with_records > 2000 && came.without > 2000);
}

/// Logs with room for fewer records than a tick may have, over many ticks: a board against the model.
pub fn narrow_logs<B: Held + Alike>() {
    let mut came = Came::default();
    for ((_, board, mut rng), (_, model, _)) in boards::<B>().zip(boards::<Model>()) {
        for held in counts(&mut rng) {
            let (mut board, mut model) = (holding(&board, held as u64), holding(&model, held as u64));
            let (ticks, more) = (rng.between(1, 200), rng.between(-(RECORD as i64), FULL as i64 - 1));
            let log = log_of(held, more, &mut rng);
            let reply = agree(&mut board, &mut model, Advance(ticks), &log);
            came.note(reply, (model.held - held as u64) as usize);
        }
    }
    println!("narrow logs: {came:?}");
    came.assert_often(50);
}
