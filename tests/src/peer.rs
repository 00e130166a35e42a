//! The peer: the board of 01, with 02's followers, turns and rates, in fixed-size arrays and sorted point keys, whose
//! advance leaps (`run`).
//! It behaves as the model does and is what speed is measured against.

mod drift;
mod pair;
mod run;
mod track;

use crate::call::{Board, Reply, refusal};
use crate::model::{self, COUNT_MOST, Model, POINTS, TRACKS};
use crate::record::capacity;
use crate::track::RATE_MOST;
use run::Out;
pub use track::Track;

/// A coordinate is position + 1,000,000; a point's key is track × 2,097,152 + coordinate.
pub const BIAS: i64 = 1_000_000;
const WIDTH: u32 = 21;
const COORDINATES: u32 = 2_000_000;
const CLOCK_END: u32 = 1_000_000_000;

const STOPPED: u8 = 0;
const PLAYING: u8 = 1;
const PAUSED: u8 = 2;
const WAITING: u8 = 3;
/// Says that the grid refuses the pair.
const NONE: u8 = 4;
/// The mode grid by call (play, pause, resume, stop), then mode.
const GRID: [[u8; 4]; 4] = [
    [PLAYING, NONE, NONE, NONE],
    [NONE, PAUSED, NONE, PAUSED],
    [NONE, NONE, PLAYING, PLAYING],
    [STOPPED, STOPPED, STOPPED, STOPPED],
];
/// Words of modes: a bit for each.
const ONLY_STOPPED: u8 = 0b0001;
const STANDING: u8 = 0b0101;

#[derive(Clone, Copy, Debug, Default, PartialEq, Eq)]
pub struct Info {
    pub event: u8,
    pub wait: bool,
    pub command: u8,
    pub target: u8,
}

#[derive(Clone, Debug)]
pub struct Peer {
    pub tracks: [Track; TRACKS],
    pub present: u16,
    /// strictly ascending, so that a track and position have at most one; slots past the count are never read
    pub keys: [u32; POINTS],
    pub infos: [Info; POINTS],
    pub count: usize,
    pub clock: u32,
    pub held: u64,
}

/// A number from low to high, in 32 bits.
fn between(n: i64, low: i64, high: i64) -> Option<u32> {
    (low <= n && n <= high).then_some(n as u32)
}

fn coordinate(p: i64) -> Option<u32> {
    (-BIAS..=BIAS).contains(&p).then(|| (p + BIAS) as u32)
}

fn accepted(result: Result<(), u8>) -> Reply {
    result.map_or_else(Reply::Refused, |()| Reply::Accepted)
}

impl Info {
    /// Command 0 has target 0; any other has a target that is present.
    fn sound(&self, present: u16) -> bool {
        let target = if self.command == 0 {
            self.target == 0
        } else {
            self.command <= 4 && self.target < 16 && present >> self.target & 1 == 1
        };
        self.event != 0 && target
    }

    fn by(point: model::Point) -> Option<Info> {
        let event = between(point.event, 1, 255)? as u8;
        let wait = between(point.wait, 0, 1)? == 1;
        let command = between(point.command, 0, 4)? as u8;
        let target = between(point.target, 0, 15)? as u8;
        Some(Info { event, wait, command, target })
    }

    fn point(&self) -> model::Point {
        let Info { event, wait, command, target } = *self;
        model::Point { event: event.into(), wait: wait.into(), command: command.into(), target: target.into() }
    }
}

impl Peer {
    pub fn unbroken(&self) -> bool {
        self.clock <= CLOCK_END && self.tracks_sound() && self.points_sound()
    }

    fn tracks_sound(&self) -> bool {
        let mut word = self.present;
        while word != 0 {
            let number = word.trailing_zeros() as usize;
            let track = &self.tracks[number];
            if !track.sound(self.clock) || !(track.free() || self.led_sound(number)) {
                return false;
            }
            word &= word - 1;
        }
        true
    }

    /// One pass over the points: ascending keys, each of a track that is present and within its bounds.
    fn points_sound(&self) -> bool {
        if self.count > POINTS {
            return false;
        }
        let mut least = 0;
        for (&key, info) in self.keys[..self.count].iter().zip(&self.infos) {
            let number = key >> WIDTH;
            if key < least || number > 15 || self.present >> number & 1 == 0 || !info.sound(self.present) {
                return false;
            }
            let track = &self.tracks[number as usize];
            let place = key & ((1 << WIDTH) - 1);
            if place < track.min || place > track.max {
                return false;
            }
            least = key + 1;
        }
        true
    }

    /// Broken 3, then 1: the track's number.
    fn asked(&self, t: i64) -> Result<usize, u8> {
        if !self.unbroken() {
            return Err(refusal::VALUE);
        }
        self.number(t).ok_or(refusal::ABSENT)
    }

    fn number(&self, t: i64) -> Option<usize> {
        ((0..16).contains(&t) && self.present >> t & 1 == 1).then_some(t as usize)
    }

    /// The same, then 2.
    fn allowed(&self, t: i64, modes: u8) -> Result<usize, u8> {
        let number = self.asked(t)?;
        if modes >> self.tracks[number].mode & 1 == 1 { Ok(number) } else { Err(refusal::MODE) }
    }

    /// A set-up call on one track; `set` answers none for a value outside its range: 3.
    fn change(&mut self, t: i64, modes: u8, set: impl FnOnce(Track) -> Option<Track>) -> Reply {
        self.change_or(refusal::VALUE, t, modes, set)
    }

    /// The same with another refusal in the place of that 3.
    fn change_or(&mut self, wrong: u8, t: i64, modes: u8, set: impl FnOnce(Track) -> Option<Track>) -> Reply {
        let changed = self.allowed(t, modes).and_then(|number| {
            self.tracks[number] = set(self.tracks[number]).ok_or(wrong)?;
            Ok(())
        });
        accepted(changed)
    }

    /// Broken 3, then 7 (advance and the mode calls).
    fn lent(&self, log: &[u8]) -> Result<(), u8> {
        if !self.unbroken() {
            return Err(refusal::VALUE);
        }
        if (capacity(log) as u64) < self.held { Err(refusal::CAPACITY) } else { Ok(()) }
    }

    fn rank(&self, key: u32) -> usize {
        self.keys[..self.count].partition_point(|&k| k < key)
    }

    /// The slot of a point that is there.
    fn slot(&self, number: usize, p: i64) -> Option<usize> {
        let key = (number as u32) << WIDTH | coordinate(p)?;
        let slot = self.rank(key);
        (slot < self.count && self.keys[slot] == key).then_some(slot)
    }

    fn set_point(&mut self, t: i64, p: i64, point: model::Point) -> Result<(), u8> {
        let number = self.allowed(t, STANDING)?;
        let place = coordinate(p).filter(|&p| self.tracks[number].min <= p && p <= self.tracks[number].max);
        let info = Info::by(point).filter(|info| info.sound(self.present));
        let (Some(place), Some(info)) = (place, info) else { return Err(refusal::VALUE) };
        let key = (number as u32) << WIDTH | place;
        let slot = self.rank(key);
        if slot == self.count || self.keys[slot] != key {
            if self.count == POINTS {
                return Err(refusal::POINTS_FULL);
            }
            self.keys.copy_within(slot..self.count, slot + 1);
            self.infos.copy_within(slot..self.count, slot + 1);
            self.keys[slot] = key;
            self.count += 1;
        }
        self.infos[slot] = info;
        Ok(())
    }

    fn remove_point(&mut self, t: i64, p: i64) -> Result<(), u8> {
        let number = self.allowed(t, STANDING)?;
        let slot = self.slot(number, p).ok_or(refusal::NO_POINT)?;
        self.keys.copy_within(slot + 1..self.count, slot);
        self.infos.copy_within(slot + 1..self.count, slot);
        self.count -= 1;
        Ok(())
    }

    fn make_mode_call(&mut self, command: i64, t: i64, log: &mut [u8]) -> Result<(), u8> {
        self.lent(log)?;
        let number = self.number(t).ok_or(refusal::ABSENT)?;
        let track = &mut self.tracks[number];
        let new = GRID[command as usize - 1][usize::from(track.mode)];
        if new == NONE {
            return Err(refusal::MODE);
        }
        if track.action(new) != 0 && self.held == capacity(log) as u64 {
            return Err(refusal::NO_ROOM);
        }
        let mut out = Out::new(self.clock, &mut log[self.held as usize * 16..]);
        out.enter(number, track, new);
        self.held += out.records as u64;
        Ok(())
    }

    fn insert_track(&mut self, t: i64, min: i64, max: i64) -> Result<(), u8> {
        if !self.unbroken() {
            return Err(refusal::VALUE);
        }
        let number = between(t, 0, 15).ok_or(refusal::ABSENT)?;
        if self.present >> number & 1 == 1 {
            return Err(refusal::PRESENT);
        }
        let bounds = coordinate(min).zip(coordinate(max)).filter(|(min, max)| min < max);
        let (min, max) = bounds.ok_or(refusal::VALUE)?;
        self.tracks[number as usize] = Track::new(min, max);
        self.present |= 1 << number;
        Ok(())
    }

    pub fn track(&self, number: usize) -> Option<crate::track::Track> {
        (self.present >> number & 1 == 1).then(|| self.tracks[number].plain())
    }

    /// The points in the model's words, by key.
    pub fn points(&self) -> impl Iterator<Item = ((i64, i64), model::Point)> + '_ {
        let place = |key: u32| ((key >> WIDTH) as i64, (key & ((1 << WIDTH) - 1)) as i64 - BIAS);
        self.keys.iter().zip(&self.infos).take(self.count).map(move |(&key, info)| (place(key), info.point()))
    }

    /// The board in the model's words.
    pub fn picture(&self) -> Model {
        let tracks = std::array::from_fn(|number| self.track(number));
        Model { tracks, points: self.points().collect(), clock: self.clock.into(), held: self.held }
    }

    /// Whether the board is the model's, whole.
    pub fn same(&self, model: &Model) -> bool {
        let points = model.points.iter().map(|(&place, &point)| (place, point));
        i64::from(self.clock) == model.clock
            && self.held == model.held
            && (0..TRACKS).all(|number| self.track(number) == model.tracks[number])
            && self.points().eq(points)
    }
}

impl Board for Peer {
    fn fresh() -> Peer {
        let (keys, infos) = ([0; POINTS], [Info::default(); POINTS]);
        Peer { tracks: [Track::default(); TRACKS], present: 0, keys, infos, count: 0, clock: 0, held: 0 }
    }

    fn add_track(&mut self, t: i64, min: i64, max: i64) -> Reply {
        accepted(self.insert_track(t, min, max))
    }

    fn start(&mut self, t: i64, p: i64) -> Reply {
        self.change(t, ONLY_STOPPED, |track| {
            let start = coordinate(p).filter(|&p| track.min <= p && p < track.end)?;
            Some(Track { start, ..track }.rewound())
        })
    }

    fn end(&mut self, t: i64, p: i64) -> Reply {
        self.change(t, ONLY_STOPPED, |track| {
            let end = coordinate(p).filter(|&p| track.start < p && p <= track.max)?;
            Some(Track { end, ..track }.rewound())
        })
    }

    fn loops(&mut self, t: i64, n: i64) -> Reply {
        self.change(t, STANDING, |track| Some(Track { loops: between(n, 1, 65_535)? as u16, ..track }))
    }

    fn repeat(&mut self, t: i64, flag: i64) -> Reply {
        self.change(t, STANDING, |track| Some(Track { repeat: between(flag, 0, 1)? == 1, ..track }))
    }

    fn direction(&mut self, t: i64, d: i64) -> Reply {
        self.change(t, STANDING, |track| {
            let backward = between(d, 0, 1)? == 1;
            let turned = Track { backward, due: track.due || track.closes(backward), ..track };
            Some(if track.mode == STOPPED { turned.rewound() } else { turned })
        })
    }

    fn action(&mut self, t: i64, from: i64, to: i64, event: i64) -> Reply {
        self.change(t, STANDING, |mut track| {
            let (from, to, event) = (between(from, 0, 3)?, between(to, 0, 3)?, between(event, 0, 255)?);
            track.actions[(from * 4 + to) as usize] = event as u8;
            (from != to).then_some(track)
        })
    }

    fn jump(&mut self, t: i64, p: i64) -> Reply {
        self.change(t, STANDING, |track| {
            let position = coordinate(p).filter(|&p| track.start <= p && p <= track.end)?;
            Some(Track { position, due: true, ..track })
        })
    }

    fn point(&mut self, t: i64, p: i64, point: model::Point) -> Reply {
        accepted(self.set_point(t, p, point))
    }

    fn drop_point(&mut self, t: i64, p: i64) -> Reply {
        accepted(self.remove_point(t, p))
    }

    fn master(&mut self, t: i64, m: i64, numbers: &[i64]) -> Reply {
        accepted(self.set_master(t, m, numbers))
    }

    fn rate(&mut self, t: i64, p: i64, q: i64) -> Reply {
        self.change_or(refusal::RATE, t, ONLY_STOPPED, |track| {
            let ticks = between(q, 1, RATE_MOST)?;
            Some(Track { steps: between(p, 1, ticks.into())? as u16, ticks: ticks as u16, ..track })
        })
    }

    fn mode_call(&mut self, command: i64, t: i64, log: &mut [u8]) -> Reply {
        accepted(self.make_mode_call(command, t, log))
    }

    fn advance(&mut self, count: i64, log: &mut [u8]) -> Reply {
        if let Err(number) = self.lent(log) {
            return Reply::Refused(number);
        }
        match between(count, 0, COUNT_MOST) {
            Some(count) => self.run(count, log),
            None => Reply::Refused(refusal::VALUE),
        }
    }

    fn clear(&mut self) -> Reply {
        if !self.unbroken() {
            return Reply::Refused(refusal::VALUE);
        }
        self.held = 0;
        Reply::Accepted
    }

    fn show_clock(&self) -> Reply {
        if !self.unbroken() {
            return Reply::Refused(refusal::VALUE);
        }
        Reply::Clock { clock: self.clock, held: self.held }
    }

    fn show_track(&self, t: i64) -> Reply {
        self.asked(t).map_or_else(Reply::Refused, |number| Reply::Track(self.tracks[number].plain()))
    }

    fn show_point(&self, t: i64, p: i64) -> Reply {
        let found = self.asked(t).and_then(|number| self.slot(number, p).ok_or(refusal::NO_POINT));
        found.map_or_else(Reply::Refused, |slot| Reply::Point(t, p, self.infos[slot].point()))
    }

    fn count(&self, t: i64, a: i64, b: i64) -> Reply {
        let number = match self.asked(t) {
            Err(number) => return Reply::Refused(number),
            Ok(number) => number as u32,
        };
        if a > b || a > BIAS || b < -BIAS {
            return Reply::Count(0);
        }
        let key = |p: i64| number << WIDTH | (p.clamp(-BIAS, BIAS) + BIAS) as u32;
        Reply::Count((self.rank(key(b) + 1) - self.rank(key(a))) as u64)
    }
}
