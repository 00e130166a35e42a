//! The calls of 01 and of 02's followers and rates as values, their answers, and both as rows of numbers.

use crate::model::Point;
use crate::track::{THRESHOLDS, Track};

/// Numbers of an encoded call: its code and thirteen, of which all calls but master use six at most.
pub const CALL_WIDTH: usize = 14;
/// Numbers of an encoded reply.
pub const REPLY_WIDTH: usize = 48;
/// Numbers that tell a track: eleven fields, sixteen actions, master, band, thresholds and events, rate and remainder.
pub const TRACK_WIDTH: usize = 11 + 16 + 2 + 2 * THRESHOLDS + 3;
/// Pairs of threshold and event that an encoded call has room for: one more than are allowed.
pub const PAIRS_MOST: usize = THRESHOLDS + 1;

/// 01, "Turned down".
pub mod refusal {
    pub const ABSENT: u8 = 1;
    pub const MODE: u8 = 2;
    pub const VALUE: u8 = 3;
    pub const NO_POINT: u8 = 4;
    pub const POINTS_FULL: u8 = 5;
    pub const PRESENT: u8 = 6;
    pub const CAPACITY: u8 = 7;
    pub const NO_ROOM: u8 = 8;
    pub const GRAMMAR: u8 = 9;
    /// 02, 2.1: thresholds not rising, or over four
    pub const THRESHOLDS: u8 = 10;
    /// 02, 2.4: a rate out of its range
    pub const RATE: u8 = 11;
}

/// The pairs of an encoded master call, threshold and event in turn. Five stand for five or more: over four.
#[derive(Clone, Copy, Debug, PartialEq, Eq)]
pub struct Pairs {
    count: usize,
    /// zeros past the count
    numbers: [i64; 2 * PAIRS_MOST],
}

impl Pairs {
    pub const NONE: Pairs = Pairs { count: 0, numbers: [0; 2 * PAIRS_MOST] };

    /// Of those given, five at most.
    pub fn new(pairs: &[[i64; 2]]) -> Pairs {
        let count = pairs.len().min(PAIRS_MOST);
        let mut numbers = [0; 2 * PAIRS_MOST];
        numbers[..2 * count].copy_from_slice(pairs[..count].as_flattened());
        Pairs { count, numbers }
    }

    /// By the number of pairs and the numbers behind it; a negative number of pairs is no call's.
    fn decode(count: i64, numbers: &[i64; 2 * PAIRS_MOST]) -> Option<Pairs> {
        let count = usize::try_from(count).ok()?.min(PAIRS_MOST);
        Some(Pairs::new(&numbers.as_chunks().0[..count]))
    }

    pub fn numbers(&self) -> &[i64] {
        &self.numbers[..2 * self.count]
    }
}

/// One variant for each call; the first number is the track's where a track is named.
#[derive(Clone, Copy, Debug, PartialEq, Eq)]
pub enum Call {
    /// track, min, max
    Track(i64, i64, i64),
    Start(i64, i64),
    End(i64, i64),
    Loops(i64, i64),
    Repeat(i64, i64),
    Direction(i64, i64),
    /// track, position, event, wait, command, target
    Point(i64, i64, i64, i64, i64, i64),
    Drop(i64, i64),
    /// track, from, to, event
    Action(i64, i64, i64, i64),
    Jump(i64, i64),
    Play(i64),
    Pause(i64),
    Resume(i64),
    Stop(i64),
    Advance(i64),
    Clear,
    /// queries: clock and held; a track; the point at a position; the number of points from a to b
    Clock,
    ShowTrack(i64),
    ShowPoint(i64, i64),
    Count(i64, i64, i64),
    /// track, master, and the follower's pairs
    Master(i64, i64, Pairs),
    /// track, steps, ticks
    Rate(i64, i64, i64),
}

/// A row of so many numbers, zeros after.
fn row(numbers: &[i64]) -> [i64; CALL_WIDTH] {
    let mut row = [0; CALL_WIDTH];
    row[..numbers.len()].copy_from_slice(numbers);
    row
}

impl Call {
    /// Code and arguments, 0 where unused.
    pub fn encode(&self) -> [i64; CALL_WIDTH] {
        match *self {
            Call::Track(t, min, max) => row(&[1, t, min, max]),
            Call::Start(t, p) => row(&[2, t, p]),
            Call::End(t, p) => row(&[3, t, p]),
            Call::Loops(t, n) => row(&[4, t, n]),
            Call::Repeat(t, f) => row(&[5, t, f]),
            Call::Direction(t, d) => row(&[6, t, d]),
            Call::Point(t, p, event, wait, command, target) => row(&[7, t, p, event, wait, command, target]),
            Call::Drop(t, p) => row(&[8, t, p]),
            Call::Action(t, from, to, event) => row(&[9, t, from, to, event]),
            Call::Jump(t, p) => row(&[10, t, p]),
            Call::Play(t) => row(&[11, t]),
            Call::Pause(t) => row(&[12, t]),
            Call::Resume(t) => row(&[13, t]),
            Call::Stop(t) => row(&[14, t]),
            Call::Advance(n) => row(&[15, n]),
            Call::Clear => row(&[16]),
            Call::Clock => row(&[17]),
            Call::ShowTrack(t) => row(&[18, t]),
            Call::ShowPoint(t, p) => row(&[19, t, p]),
            Call::Count(t, a, b) => row(&[20, t, a, b]),
            Call::Master(t, m, pairs) => {
                let mut row = row(&[21, t, m, pairs.count as i64]);
                row[4..].copy_from_slice(&pairs.numbers);
                row
            }
            Call::Rate(t, p, q) => row(&[22, t, p, q]),
        }
    }

    /// The call of a code; any other code is no call. Unused arguments are not read.
    pub fn decode(row: &[i64; CALL_WIDTH]) -> Option<Call> {
        let [code, a, b, c, d, e, f, ..] = *row;
        Some(match code {
            1 => Call::Track(a, b, c),
            2 => Call::Start(a, b),
            3 => Call::End(a, b),
            4 => Call::Loops(a, b),
            5 => Call::Repeat(a, b),
            6 => Call::Direction(a, b),
            7 => Call::Point(a, b, c, d, e, f),
            8 => Call::Drop(a, b),
            9 => Call::Action(a, b, c, d),
            10 => Call::Jump(a, b),
            11 => Call::Play(a),
            12 => Call::Pause(a),
            13 => Call::Resume(a),
            14 => Call::Stop(a),
            15 => Call::Advance(a),
            16 => Call::Clear,
            17 => Call::Clock,
            18 => Call::ShowTrack(a),
            19 => Call::ShowPoint(a, b),
            20 => Call::Count(a, b, c),
            21 => Call::Master(a, b, Pairs::decode(c, row[4..].as_array()?)?),
            22 => Call::Rate(a, b, c),
            _ => return None,
        })
    }
}

/// What a call answers. LogFull and ClockEnd are no refusals: they carry the ticks taken, as Done does.
#[derive(Clone, Copy, Debug, PartialEq, Eq)]
pub enum Reply {
    Accepted,
    Refused(u8),
    Done(u32),
    LogFull(u32),
    ClockEnd(u32),
    Clock {
        clock: u32,
        held: u64,
    },
    Track(Track),
    /// its track, its position, and the rest of it
    Point(i64, i64, Point),
    Count(u64),
}

/// In a row of numbers a position stands as position + 1,000,000.
pub const BIAS: i64 = 1_000_000;

impl Reply {
    /// Kind, then its values, zeros after.
    pub fn encode(&self) -> [u64; REPLY_WIDTH] {
        let mut row = [0; REPLY_WIDTH];
        let (kind, values) = self.values();
        row[0] = kind;
        row[1..=values.len()].copy_from_slice(&values);
        row
    }

    /// The reply of a row; none unless that very row is its encoding.
    pub fn decode(row: &[u64; REPLY_WIDTH]) -> Option<Reply> {
        let [kind, a, b, ..] = *row;
        let reply = match kind {
            0 => Reply::Accepted,
            1 => Reply::Refused(a as u8),
            2 => Reply::Done(a as u32),
            3 => Reply::LogFull(a as u32),
            4 => Reply::ClockEnd(a as u32),
            5 => Reply::Clock { clock: a as u32, held: b },
            6 => Reply::Track(track_of(row[1..=TRACK_WIDTH].as_array()?)),
            7 => Reply::Point(a as i64, b as i64 - BIAS, point_of(row[3..7].as_array()?)),
            8 => Reply::Count(a),
            _ => return None,
        };
        (reply.encode() == *row).then_some(reply)
    }

    fn values(&self) -> (u64, Vec<u64>) {
        match *self {
            Reply::Accepted => (0, vec![]),
            Reply::Refused(number) => (1, vec![number as u64]),
            Reply::Done(taken) => (2, vec![taken as u64]),
            Reply::LogFull(taken) => (3, vec![taken as u64]),
            Reply::ClockEnd(taken) => (4, vec![taken as u64]),
            Reply::Clock { clock, held } => (5, vec![clock as u64, held]),
            Reply::Track(track) => (6, track_values(&track)),
            Reply::Point(track, position, point) => (7, point_values(track, position, &point)),
            Reply::Count(number) => (8, vec![number]),
        }
    }
}

fn track_values(track: &Track) -> Vec<u64> {
    let positions = [track.min, track.max, track.start, track.end, track.position].map(|p| p + BIAS);
    let others = [track.passes, track.loops, track.mode, track.direction, track.repeat, track.due];
    let cells = track.actions.as_flattened();
    let followed = [&[track.master, track.band], &track.thresholds[..], &track.events].concat();
    let rate = [track.steps, track.ticks, track.remainder];
    positions.iter().chain(&others).chain(cells).chain(&followed).chain(&rate).map(|&n| n as u64).collect()
}

/// A track by the numbers that its reply has.
pub fn track_of(numbers: &[u64; TRACK_WIDTH]) -> Track {
    let numbers = numbers.map(|n| n as i64);
    let [min, max, start, end, position] = std::array::from_fn(|at| numbers[at] - BIAS);
    let [passes, loops, mode, direction, repeat, due] = std::array::from_fn(|at| numbers[5 + at]);
    let actions = std::array::from_fn(|from| std::array::from_fn(|to| numbers[11 + from * 4 + to]));
    let [master, band] = std::array::from_fn(|at| numbers[27 + at]);
    let [thresholds, events] = [29, 29 + THRESHOLDS].map(|from| std::array::from_fn(|at| numbers[from + at]));
    let [steps, ticks, remainder] = std::array::from_fn(|at| numbers[29 + 2 * THRESHOLDS + at]);
    let walk = Track { start, end, position, passes, loops, mode, direction, repeat, due, ..Track::new(min, max) };
    Track { actions, master, band, thresholds, events, steps, ticks, remainder, ..walk }
}

fn point_values(track: i64, position: i64, point: &Point) -> Vec<u64> {
    [track, position + BIAS, point.event, point.wait, point.command, point.target].map(|n| n as u64).to_vec()
}

fn point_of(numbers: &[u64; 4]) -> Point {
    let [event, wait, command, target] = numbers.map(|n| n as i64);
    Point { event, wait, command, target }
}

/// A board that takes the calls of 01: the model, the peer and the library. Mode calls are numbered as commands are.
pub trait Board: Sized {
    fn fresh() -> Self;
    fn add_track(&mut self, t: i64, min: i64, max: i64) -> Reply;
    fn start(&mut self, t: i64, p: i64) -> Reply;
    fn end(&mut self, t: i64, p: i64) -> Reply;
    fn loops(&mut self, t: i64, n: i64) -> Reply;
    fn repeat(&mut self, t: i64, flag: i64) -> Reply;
    fn direction(&mut self, t: i64, d: i64) -> Reply;
    fn point(&mut self, t: i64, p: i64, point: Point) -> Reply;
    fn drop_point(&mut self, t: i64, p: i64) -> Reply;
    fn action(&mut self, t: i64, from: i64, to: i64, event: i64) -> Reply;
    fn jump(&mut self, t: i64, p: i64) -> Reply;
    /// `numbers` are pairs of threshold and event, any number of them.
    fn master(&mut self, t: i64, m: i64, numbers: &[i64]) -> Reply;
    /// p steps in q ticks.
    fn rate(&mut self, t: i64, p: i64, q: i64) -> Reply;
    fn mode_call(&mut self, command: i64, t: i64, log: &mut [u8]) -> Reply;
    fn advance(&mut self, count: i64, log: &mut [u8]) -> Reply;
    fn clear(&mut self) -> Reply;
    fn show_clock(&self) -> Reply;
    fn show_track(&self, t: i64) -> Reply;
    fn show_point(&self, t: i64, p: i64) -> Reply;
    fn count(&self, t: i64, a: i64, b: i64) -> Reply;

    fn apply(&mut self, call: Call, log: &mut [u8]) -> Reply {
        match call {
            Call::Track(t, min, max) => self.add_track(t, min, max),
            Call::Start(t, p) => self.start(t, p),
            Call::End(t, p) => self.end(t, p),
            Call::Loops(t, n) => self.loops(t, n),
            Call::Repeat(t, flag) => self.repeat(t, flag),
            Call::Direction(t, d) => self.direction(t, d),
            Call::Point(t, p, event, wait, command, target) => self.point(t, p, Point { event, wait, command, target }),
            Call::Drop(t, p) => self.drop_point(t, p),
            Call::Action(t, from, to, event) => self.action(t, from, to, event),
            Call::Jump(t, p) => self.jump(t, p),
            Call::Play(t) => self.mode_call(1, t, log),
            Call::Pause(t) => self.mode_call(2, t, log),
            Call::Resume(t) => self.mode_call(3, t, log),
            Call::Stop(t) => self.mode_call(4, t, log),
            Call::Advance(count) => self.advance(count, log),
            Call::Clear => self.clear(),
            Call::Clock => self.show_clock(),
            Call::ShowTrack(t) => self.show_track(t),
            Call::ShowPoint(t, p) => self.show_point(t, p),
            Call::Count(t, a, b) => self.count(t, a, b),
            Call::Master(t, m, pairs) => self.master(t, m, pairs.numbers()),
            Call::Rate(t, p, q) => self.rate(t, p, q),
        }
    }

    /// An encoded call; one that is no call is refused 9, ahead of everything.
    fn apply_encoded(&mut self, row: &[i64; CALL_WIDTH], log: &mut [u8]) -> Reply {
        match Call::decode(row) {
            Some(call) => self.apply(call, log),
            None => Reply::Refused(refusal::GRAMMAR),
        }
    }
}
