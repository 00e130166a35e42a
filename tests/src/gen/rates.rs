//! What rates add to lists: rate calls, good and bad; ticks up to a step; tracks that rest, so that tracks of one rate have
//! different remainders.

use super::plan::Rated;
use super::{Call, Maker};
use crate::track::{PLAYING, RATE_MOST, STOPPED, Track, WAITING};

/// Rates that break their range: steps or ticks below 1, above 1,000 or beside what fewer bits hold; more steps than ticks.
const WRONG: [[i64; 2]; 22] = [
    [0, 1],
    [0, 0],
    [1, 0],
    [0, 5],
    [-1, 5],
    [5, -1],
    [-3, -2],
    [2, 1],
    [6, 5],
    [1_000, 999],
    [1, 1_001],
    [1_001, 1_001],
    [1_000, 1_001],
    [i64::MIN, 5],
    [1, i64::MIN],
    [1, i64::MAX],
    [i64::MAX, i64::MAX],
    [1 << 32 | 1, 1 << 32 | 2],
    [1, 1 << 32 | 2],
    [1 << 32 | 1, 2],
    [1 << 16 | 1, 1 << 16 | 2],
    [1, 1 << 16 | 2],
];

/// A pair that drifts apart by one location in 999,000 ticks.
const CLOSE: [[i64; 2]; 2] = [[999, 1_000], [998, 999]];

/// The ticks before a track's next step.
fn before_step(track: &Track) -> i64 {
    (track.ticks - track.remainder - 1) / track.steps
}

impl Maker {
    /// With the chance that lists with many rates give; never in others.
    fn by_rate(&mut self, percent: fn(&Rated) -> i64) -> bool {
        let percent = self.plan.rated.as_ref().map(percent);
        percent.is_some_and(|percent| self.rng.chance(percent))
    }

    /// A rate of its range.
    pub(super) fn some_rate(&mut self) -> [i64; 2] {
        let (few, many, any) =
            (self.rng.between(2, 7), self.rng.between(997, RATE_MOST), self.rng.between(1, RATE_MOST));
        match self.rng.between(0, 19) {
            0..=9 => [self.rng.between(1, few), few],
            10..=12 => [1, few],
            13 => [1, 1],
            14..=15 => [many - self.rng.between(0, 3), many],
            16 => [self.rng.pick(&[1, 2, many / 2]), many],
            17..=18 => self.rng.pick(&CLOSE),
            _ => [self.rng.between(1, any), any],
        }
    }

    /// The list's one rate, or another.
    fn drawn_rate(&mut self) -> [i64; 2] {
        if self.by_rate(|rated| rated.alike) { self.one_rate } else { self.some_rate() }
    }

    /// A rate for many tracks of such a list.
    pub(super) fn set_rates(&mut self) {
        for t in 0..16 {
            if self.board.track(t).is_some() && self.by_rate(|rated| rated.slow) {
                let rates = if self.rng.chance(15) { vec![self.rng.pick(&WRONG)] } else { vec![] };
                let rates = [rates, vec![self.drawn_rate()]].concat();
                rates.into_iter().for_each(|[p, q]| self.push(Call::Rate(t, p, q)));
            }
        }
    }

    /// A rate call, mostly of a STOPPED track and mostly good.
    pub(super) fn rate(&mut self) -> Call {
        let mut t = self.track();
        for _ in 0..2 {
            if self.board.track(t).is_some_and(|track| track.mode == STOPPED) {
                break;
            }
            t = self.track();
        }
        let [p, q] = match self.rng.between(0, 19) {
            0..=5 => self.rng.pick(&WRONG),
            6 => [self.number(1, RATE_MOST), self.number(1, RATE_MOST)],
            _ => self.drawn_rate(),
        };
        Call::Rate(t, p, q)
    }

    /// In such a list now and then a count that ends around a track's next step, or some steps later.
    pub(super) fn till_a_step(&mut self) -> Option<i64> {
        if !self.by_rate(|rated| rated.till_steps) {
            return None;
        }
        let t = self.track();
        let track = *self.board.track(t).filter(|track| track.mode == PLAYING)?;
        let later = if self.rng.chance(70) { 0 } else { self.rng.between(1, 4) * track.ticks / track.steps };
        Some((before_step(&track) + later + self.rng.between(-1, 2)).max(0))
    }

    /// In such a list now and then those that wait are resumed, and a track is paused for some ticks, or stopped and played
    /// before: whether this is done.
    pub(super) fn rests(&mut self) -> bool {
        if !self.by_rate(|rated| rated.rests) {
            return false;
        }
        let waits = |t: &i64| self.board.track(*t).is_some_and(|track| track.mode == WAITING);
        let waiting: Vec<i64> = (0..16).filter(waits).collect();
        waiting.into_iter().for_each(|t| self.push(Call::Resume(t)));
        let t = self.track();
        let ticks = self.board.track(t).map_or(1, |track| track.ticks);
        if self.rng.chance(30) {
            self.push(Call::Stop(t));
            self.push(Call::Play(t));
        }
        let count = self.rng.between(1, ticks + 1);
        self.push(Call::Advance(count));
        self.push(Call::Pause(t));
        let count = self.rng.between(0, ticks.min(20));
        self.push(Call::Advance(count));
        self.push(Call::Resume(t));
        true
    }
}
