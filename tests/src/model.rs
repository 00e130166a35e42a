//! The board of 01 with 02's followers (2.1), turns (2.3) and rates (2.4) in plain Rust: single ticks, nothing leapt,
//! every number an i64.
//! "Decision n" is an entry of docs/DECISIONS.md, where 01 leaves a point open.

mod stage;

use crate::call::{Board, Reply, refusal};
use crate::record::{RECORD, capacity};
use crate::track::{
    BOUND, DRIFT_MOST, LOOPS_MOST, PAUSED, PLAYING, STOPPED, THRESHOLDS, Track, WAITING, flag, grid, rate,
};
use stage::Stage;
use std::collections::BTreeMap;

pub const TRACKS: usize = 16;
pub const POINTS: usize = 256;
pub const CLOCK_END: i64 = 1_000_000_000;
pub const COUNT_MOST: i64 = 4_294_967_295;

/// The modes in which set-up calls are allowed, start and end apart.
const STANDING: &[i64] = &[STOPPED, PAUSED];

/// A point, but for its track and position.
#[derive(Clone, Copy, Debug, PartialEq, Eq)]
pub struct Point {
    pub event: i64,
    pub wait: i64,
    pub command: i64,
    pub target: i64,
}

/// The numbers of a master call as pairs of threshold and event: 3 if a number is out of its range or an event is
/// missing, then 10 if the thresholds aren't strictly rising or are over four.
fn pairs_of(numbers: &[i64]) -> Result<&[[i64; 2]], u8> {
    let (pairs, rest) = numbers.as_chunks();
    let ranged = |&[threshold, event]: &[i64; 2]| (1..=DRIFT_MOST).contains(&threshold) && (1..=255).contains(&event);
    if !rest.is_empty() || !pairs.iter().all(ranged) {
        return Err(refusal::VALUE);
    }
    let rising = pairs.windows(2).all(|two| two[0][0] < two[1][0]);
    if rising && pairs.len() <= THRESHOLDS { Ok(pairs) } else { Err(refusal::THRESHOLDS) }
}

#[derive(Clone, Debug, PartialEq, Eq)]
pub struct Model {
    pub tracks: [Option<Track>; TRACKS],
    /// by track and position
    pub points: BTreeMap<(i64, i64), Point>,
    pub clock: i64,
    /// the number of records held in the log; without a rule but refusal 7 (decision 1)
    pub held: u64,
}

impl Model {
    /// The tracks PLAYING, as a 16-bit word.
    pub fn playing(&self) -> u16 {
        let bit = |number: &usize| self.tracks[*number].is_some_and(|track| track.mode == PLAYING);
        (0..TRACKS).filter(bit).map(|number| 1 << number).sum()
    }

    pub fn track(&self, t: i64) -> Option<&Track> {
        usize::try_from(t).ok().and_then(|number| self.tracks.get(number)?.as_ref())
    }

    pub fn unbroken(&self) -> bool {
        (0..=CLOCK_END).contains(&self.clock)
            && self.tracks.iter().flatten().all(|track| track.unbroken(self.clock))
            && (0..TRACKS as i64).all(|t| self.track(t).is_none_or(|track| self.led(t, track)))
            && self.points.len() <= POINTS
            && self.points.iter().all(|(&(t, p), point)| self.sound(t, p, point))
    }

    /// A follower's master is another track that is present; where there are no thresholds it is the number 0.
    fn led(&self, t: i64, track: &Track) -> bool {
        if track.follows() { track.master != t && self.track(track.master).is_some() } else { track.master == 0 }
    }

    /// The ranges and rules of a point; one of a track that is absent has no bounds to be in.
    fn sound(&self, t: i64, p: i64, point: &Point) -> bool {
        let place = self.track(t).is_some_and(|track| track.min <= p && p <= track.max);
        let target = if point.command == 0 { point.target == 0 } else { self.track(point.target).is_some() };
        place && (1..=255).contains(&point.event) && flag(point.wait) && (0..=4).contains(&point.command) && target
    }

    /// The guards that set-up calls, drop and queries share: broken 3, then 1.
    fn asked(&self, t: i64) -> Result<&Track, u8> {
        if !self.unbroken() {
            return Err(refusal::VALUE);
        }
        self.track(t).ok_or(refusal::ABSENT)
    }

    /// The same, then 2.
    fn allowed(&self, t: i64, modes: &[i64]) -> Result<&Track, u8> {
        let track = self.asked(t)?;
        if modes.contains(&track.mode) { Ok(track) } else { Err(refusal::MODE) }
    }

    /// A set-up call on one track: broken 3, 1, 2, then 3 unless the values are in their ranges.
    fn change(&mut self, t: i64, modes: &[i64], fits: impl Fn(&Track) -> bool, set: impl Fn(&mut Track)) -> Reply {
        self.change_or(refusal::VALUE, t, modes, fits, set)
    }

    /// The same with another refusal in the place of that last 3.
    fn change_or(
        &mut self,
        else_refused: u8,
        t: i64,
        modes: &[i64],
        fits: impl Fn(&Track) -> bool,
        set: impl Fn(&mut Track),
    ) -> Reply {
        let mut track = match self.allowed(t, modes) {
            Err(number) => return Reply::Refused(number),
            Ok(track) => *track,
        };
        if !fits(&track) {
            return Reply::Refused(else_refused);
        }
        set(&mut track);
        self.tracks[t as usize] = Some(track);
        Reply::Accepted
    }

    fn stage(&self, clock: i64) -> Stage {
        Stage { tracks: self.tracks, clock, records: Vec::new() }
    }

    /// Keeps a stage, its records written behind the held ones; or, if they don't fit, nothing of it.
    fn keep(&mut self, stage: Stage, log: &mut [u8]) -> bool {
        if !stage.records.is_empty() && self.held + stage.records.len() as u64 > capacity(log) as u64 {
            return false;
        }
        for record in &stage.records {
            let at = self.held as usize * RECORD;
            log[at..at + RECORD].copy_from_slice(&record.pack().expect("kinds 1 to 4"));
            self.held += 1;
        }
        self.tracks = stage.tracks;
        self.clock = stage.clock;
        true
    }

    /// One tick of the board, or nothing if its records don't fit.
    fn tick(&mut self, log: &mut [u8]) -> bool {
        let mut stage = self.stage(self.clock + 1);
        let mut reached = Vec::new();
        let word = self.playing();
        for number in (0..TRACKS).filter(|number| word >> number & 1 == 1) {
            reached.extend(stage.step(number, &self.points));
        }
        for point in reached.into_iter().filter(|point| point.command != 0) {
            stage.command(point);
        }
        let follows = |number: &usize| self.tracks[*number].is_some_and(|track| track.follows());
        (0..TRACKS).filter(follows).for_each(|number| stage.judge(number));
        self.keep(stage, log)
    }

    /// Broken 3, 1 for the track, 1 for the master, 2, 3, 10; then the track with its new pairs.
    fn following(&self, t: i64, m: i64, numbers: &[i64]) -> Result<Track, u8> {
        let track = *self.asked(t)?;
        self.track(m).ok_or(refusal::ABSENT)?;
        if track.mode != STOPPED {
            return Err(refusal::MODE);
        }
        if t == m {
            return Err(refusal::VALUE);
        }
        let pairs = pairs_of(numbers)?;
        let cell = |at: usize, which: usize| pairs.get(at).map_or(0, |pair| pair[which]);
        let (thresholds, events) = (std::array::from_fn(|at| cell(at, 0)), std::array::from_fn(|at| cell(at, 1)));
        let master = if pairs.is_empty() { 0 } else { m };
        Ok(Track { master, band: 0, thresholds, events, ..track })
    }
}

impl Board for Model {
    fn fresh() -> Model {
        Model { tracks: [None; TRACKS], points: BTreeMap::new(), clock: 0, held: 0 }
    }

    fn add_track(&mut self, t: i64, min: i64, max: i64) -> Reply {
        if !self.unbroken() {
            return Reply::Refused(refusal::VALUE);
        }
        if !(0..TRACKS as i64).contains(&t) {
            return Reply::Refused(refusal::ABSENT);
        }
        if self.track(t).is_some() {
            return Reply::Refused(refusal::PRESENT);
        }
        if !(-BOUND <= min && min < max && max <= BOUND) {
            return Reply::Refused(refusal::VALUE);
        }
        self.tracks[t as usize] = Some(Track::new(min, max));
        Reply::Accepted
    }

    fn start(&mut self, t: i64, p: i64) -> Reply {
        let fits = |track: &Track| track.min <= p && p < track.end;
        self.change(t, &[STOPPED], fits, |track| {
            track.start = p;
            track.rewind();
        })
    }

    fn end(&mut self, t: i64, p: i64) -> Reply {
        let fits = |track: &Track| track.start < p && p <= track.max;
        self.change(t, &[STOPPED], fits, |track| {
            track.end = p;
            track.rewind();
        })
    }

    fn loops(&mut self, t: i64, n: i64) -> Reply {
        self.change(t, STANDING, |_| (1..=LOOPS_MOST).contains(&n), |track| track.loops = n)
    }

    fn repeat(&mut self, t: i64, f: i64) -> Reply {
        self.change(t, STANDING, |_| flag(f), |track| track.repeat = f)
    }

    fn direction(&mut self, t: i64, d: i64) -> Reply {
        self.change(
            t,
            STANDING,
            |_| flag(d),
            |track| {
                let flips = track.direction != d;
                track.direction = d;
                // Decision 6: rewinds even with the same value.
                if track.mode == STOPPED {
                    track.rewind();
                }
                // 2.3: "flips a PAUSED, visited track standing on its new far position".
                if flips && track.mode == PAUSED && track.due == 0 && track.position == track.far() {
                    track.due = 1;
                }
            },
        )
    }

    fn action(&mut self, t: i64, from: i64, to: i64, event: i64) -> Reply {
        // Decision 8: equal modes are 3 even with event 0; event 0 clears a cell.
        let mode = |n: i64| (STOPPED..=WAITING).contains(&n);
        let fits = mode(from) && mode(to) && from != to && (0..=255).contains(&event);
        self.change(t, STANDING, |_| fits, |track| track.actions[from as usize][to as usize] = event)
    }

    fn jump(&mut self, t: i64, p: i64) -> Reply {
        self.change(
            t,
            STANDING,
            |track| track.start <= p && p <= track.end,
            |track| {
                track.position = p;
                track.due = 1;
            },
        )
    }

    fn point(&mut self, t: i64, p: i64, point: Point) -> Reply {
        if let Err(number) = self.allowed(t, STANDING) {
            return Reply::Refused(number);
        }
        if !self.sound(t, p, &point) {
            return Reply::Refused(refusal::VALUE);
        }
        if self.points.len() == POINTS && !self.points.contains_key(&(t, p)) {
            return Reply::Refused(refusal::POINTS_FULL);
        }
        self.points.insert((t, p), point);
        Reply::Accepted
    }

    fn drop_point(&mut self, t: i64, p: i64) -> Reply {
        if let Err(number) = self.allowed(t, STANDING) {
            return Reply::Refused(number);
        }
        match self.points.remove(&(t, p)) {
            Some(_) => Reply::Accepted,
            None => Reply::Refused(refusal::NO_POINT),
        }
    }

    fn master(&mut self, t: i64, m: i64, numbers: &[i64]) -> Reply {
        match self.following(t, m, numbers) {
            Err(number) => Reply::Refused(number),
            Ok(track) => {
                self.tracks[t as usize] = Some(track);
                Reply::Accepted
            }
        }
    }

    fn rate(&mut self, t: i64, p: i64, q: i64) -> Reply {
        // It does not rewind; the remainder of a STOPPED track is 0 as it is.
        self.change_or(refusal::RATE, t, &[STOPPED], |_| rate(p, q), |track| (track.steps, track.ticks) = (p, q))
    }

    fn mode_call(&mut self, command: i64, t: i64, log: &mut [u8]) -> Reply {
        if !self.unbroken() {
            return Reply::Refused(refusal::VALUE);
        }
        if (capacity(log) as u64) < self.held {
            return Reply::Refused(refusal::CAPACITY);
        }
        let Some(track) = self.track(t) else { return Reply::Refused(refusal::ABSENT) };
        let Some(new) = grid(track.mode, command) else { return Reply::Refused(refusal::MODE) };
        let mut stage = self.stage(self.clock);
        stage.enter(t as usize, new);
        if self.keep(stage, log) { Reply::Accepted } else { Reply::Refused(refusal::NO_ROOM) }
    }

    fn advance(&mut self, count: i64, log: &mut [u8]) -> Reply {
        if !self.unbroken() {
            return Reply::Refused(refusal::VALUE);
        }
        if (capacity(log) as u64) < self.held {
            return Reply::Refused(refusal::CAPACITY);
        }
        if !(0..=COUNT_MOST).contains(&count) {
            return Reply::Refused(refusal::VALUE);
        }
        for taken in 0..count as u32 {
            if self.clock == CLOCK_END {
                return Reply::ClockEnd(taken);
            }
            if !self.tick(log) {
                return Reply::LogFull(taken);
            }
        }
        Reply::Done(count as u32)
    }

    fn clear(&mut self) -> Reply {
        if !self.unbroken() {
            return Reply::Refused(refusal::VALUE);
        }
        self.held = 0;
        Reply::Accepted
    }

    fn show_clock(&self) -> Reply {
        if !self.unbroken() {
            return Reply::Refused(refusal::VALUE);
        }
        Reply::Clock { clock: self.clock as u32, held: self.held }
    }

    fn show_track(&self, t: i64) -> Reply {
        self.asked(t).map_or_else(Reply::Refused, |track| Reply::Track(*track))
    }

    fn show_point(&self, t: i64, p: i64) -> Reply {
        if let Err(number) = self.asked(t) {
            return Reply::Refused(number);
        }
        match self.points.get(&(t, p)) {
            Some(point) => Reply::Point(t, p, *point),
            None => Reply::Refused(refusal::NO_POINT),
        }
    }

    fn count(&self, t: i64, a: i64, b: i64) -> Reply {
        if let Err(number) = self.asked(t) {
            return Reply::Refused(number);
        }
        let within = |&&(track, p): &&(i64, i64)| track == t && a <= p && p <= b;
        Reply::Count(self.points.keys().filter(within).count() as u64)
    }
}
