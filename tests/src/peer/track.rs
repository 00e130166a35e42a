//! A track of the peer: its walk counted in phases (distance from home), which are free of direction.

use super::{BIAS, COORDINATES, STOPPED, WAITING, WIDTH};
use crate::track::{self, DRIFT_MOST, RATE_MOST, THRESHOLDS};

#[derive(Clone, Copy, Debug, Default, PartialEq, Eq)]
pub struct Track {
    pub min: u32,
    pub max: u32,
    pub start: u32,
    pub end: u32,
    pub position: u32,
    pub passes: u32,
    pub loops: u16,
    pub mode: u8,
    pub backward: bool,
    pub repeat: bool,
    pub due: bool,
    /// old mode × 4 + new mode
    pub actions: [u8; 16],
    pub master: u8,
    pub band: u8,
    /// strictly rising, then zeros
    pub thresholds: [u32; THRESHOLDS],
    pub events: [u8; THRESHOLDS],
    /// the rate: so many steps in so many ticks
    pub steps: u16,
    pub ticks: u16,
    pub remainder: u16,
}

impl Track {
    pub fn new(min: u32, max: u32) -> Track {
        let rest = Track { loops: 1, due: true, steps: 1, ticks: 1, ..Track::default() };
        Track { min, max, start: min, end: max, position: min, ..rest }
    }

    pub fn home(&self) -> u32 {
        if self.backward { self.end } else { self.start }
    }

    pub fn far(&self) -> u32 {
        if self.backward { self.start } else { self.end }
    }

    pub fn rewound(self) -> Track {
        Track { position: self.home(), due: true, passes: 0, remainder: 0, ..self }
    }

    /// Whether a turn takes it from the first phase to the last: from home, and "that location is then its far end".
    pub fn closes(&self, backward: bool) -> bool {
        backward != self.backward && self.position == self.home()
    }

    /// The event of a change to a mode.
    pub fn action(&self, new: u8) -> u8 {
        self.actions[(self.mode * 4 + new) as usize & 15]
    }

    pub fn arrival(&self) -> u32 {
        if self.due {
            self.position
        } else if self.position == self.far() {
            self.home()
        } else if self.backward {
            self.position - 1
        } else {
            self.position + 1
        }
    }

    /// Counts an arrival at far: whether the track stops there.
    pub fn pass(&mut self) -> bool {
        self.passes += 1;
        !self.repeat && self.passes >= u32::from(self.loops)
    }

    /// Inlined, as `steps_now` is: every call asks it of every track.
    #[inline]
    pub fn sound(&self, clock: u32) -> bool {
        self.min <= self.start
            && self.start < self.end
            && self.end <= self.max
            && self.max <= COORDINATES
            && self.start <= self.position
            && self.position <= self.end
            && self.loops >= 1
            && self.passes <= clock
            && self.mode <= WAITING
            && self.actions[0] | self.actions[5] | self.actions[10] | self.actions[15] == 0
            && (self.new_rate() || self.rate_sound())
    }

    /// Whether its rate is 1 in 1 and nothing remains, as most tracks have it: asked at one go.
    fn new_rate(&self) -> bool {
        (self.steps ^ 1) | (self.ticks ^ 1) | self.remainder == 0
    }

    /// Whether its rate is 1 in 1: all below is asked of others only.
    pub fn every_tick(&self) -> bool {
        self.ticks == 1
    }

    #[cold]
    fn rate_sound(&self) -> bool {
        let rate = 1 <= self.steps && self.steps <= self.ticks && i64::from(self.ticks) <= RATE_MOST;
        rate && self.remainder < self.ticks && (self.mode != STOPPED || self.remainder == 0)
    }

    /// A tick that it plays: whether it makes a step.
    #[inline]
    pub fn steps_now(&mut self) -> bool {
        if self.every_tick() {
            return true;
        }
        let sum = self.remainder + self.steps;
        let steps = sum >= self.ticks;
        self.remainder = if steps { sum - self.ticks } else { sum };
        steps
    }

    /// The ticks that it plays before the one in which it makes its next step but so many: after n ticks it has made
    /// (remainder + n × steps) / ticks.
    pub fn ticks_before(&self, steps: u64) -> u64 {
        if self.every_tick() || steps > u64::from(u32::MAX) << 8 {
            return steps;
        }
        ((steps + 1) * u64::from(self.ticks) - u64::from(self.remainder) - 1) / u64::from(self.steps)
    }

    /// So many ticks at once (1 or more), in none of which it reaches a point or stops.
    pub fn play(&mut self, ticks: u32) {
        if self.every_tick() {
            return self.leap(ticks);
        }
        let sum = u64::from(self.remainder) + u64::from(ticks) * u64::from(self.steps);
        let round = u64::from(self.ticks);
        self.remainder = (sum % round) as u16;
        if sum >= round {
            self.leap((sum / round) as u32);
        }
    }

    /// Whether it follows none, and says so in every field: what most tracks do is asked at one go.
    pub fn free(&self) -> bool {
        let [a, b, c, d] = self.thresholds;
        let events = u32::from_ne_bytes(self.events);
        a | b | c | d | events | u32::from(self.master) | u32::from(self.band) == 0
    }

    pub fn follows(&self) -> bool {
        self.thresholds[0] != 0
    }

    /// The thresholds that it has.
    pub fn bands(&self) -> usize {
        self.thresholds.iter().position(|&threshold| threshold == 0).unwrap_or(THRESHOLDS)
    }

    /// One pass over the pairs: each rises above the one before, or is 0 like all behind it. Then the band.
    pub fn pairs_sound(&self, clock: u32) -> bool {
        let (mut before, mut ended) = (0, false);
        for (&threshold, &event) in self.thresholds.iter().zip(&self.events) {
            ended |= threshold == 0;
            let rises = before < threshold && i64::from(threshold) <= DRIFT_MOST && event != 0;
            if if ended { threshold != 0 || event != 0 } else { !rises } {
                return false;
            }
            before = threshold;
        }
        usize::from(self.band) <= if clock == 0 { 0 } else { self.bands() }
    }

    /// The number of locations in the span.
    pub fn span(&self) -> u32 {
        self.end - self.start + 1
    }

    /// The phase of the next arrival.
    pub fn phase(&self) -> u32 {
        let next = self.arrival();
        if self.backward { self.end - next } else { next - self.start }
    }

    /// The fewest steps before one that reaches a point or stops the track.
    pub fn quiet(&self, number: usize, keys: &[u32]) -> u64 {
        self.before_stop().min(self.before_point((number as u32) << WIDTH, keys))
    }

    fn before_stop(&self) -> u64 {
        if self.repeat {
            return u64::MAX;
        }
        let arrivals = u32::from(self.loops).saturating_sub(self.passes).max(1);
        u64::from(arrivals) * u64::from(self.span()) - u64::from(self.phase()) - 1
    }

    /// Further on in this pass, else from home in the next.
    fn before_point(&self, base: u32, keys: &[u32]) -> u64 {
        let rest = self.span() - self.phase();
        let steps = match self.ahead(base, self.arrival(), keys) {
            Some(steps) => Some(steps),
            None => self.ahead(base, self.home(), keys).map(|steps| rest + steps),
        };
        steps.map_or(u64::MAX, u64::from)
    }

    /// The distance from a location to the nearest point at it or further on within the span.
    fn ahead(&self, base: u32, from: u32, keys: &[u32]) -> Option<u32> {
        let here = base + from;
        if self.backward {
            let slot = keys.partition_point(|&key| key <= here).checked_sub(1)?;
            (keys[slot] >= base + self.start).then(|| here - keys[slot])
        } else {
            let key = *keys.get(keys.partition_point(|&key| key < here))?;
            (key <= base + self.end).then(|| key - here)
        }
    }

    /// So many steps at once (1 or more), over any number of passes; none of them reaches a point or stops.
    fn leap(&mut self, steps: u32) {
        let (span, reached) = (self.span(), self.phase() + steps);
        self.passes += reached / span;
        let phase = (reached - 1) % span;
        self.position = if self.backward { self.end - phase } else { self.start + phase };
        self.due = false;
    }

    pub fn enter(&mut self, new: u8) {
        self.mode = new;
        if new == STOPPED {
            *self = self.rewound();
        }
    }

    /// The track in the model's words.
    pub fn plain(&self) -> track::Track {
        let place = |coordinate: u32| i64::from(coordinate) - BIAS;
        let cell = |from: usize, to: usize| i64::from(self.actions[from * 4 + to]);
        track::Track {
            min: place(self.min),
            max: place(self.max),
            start: place(self.start),
            end: place(self.end),
            position: place(self.position),
            passes: self.passes.into(),
            loops: self.loops.into(),
            mode: self.mode.into(),
            direction: self.backward.into(),
            repeat: self.repeat.into(),
            due: self.due.into(),
            actions: std::array::from_fn(|from| std::array::from_fn(|to| cell(from, to))),
            master: self.master.into(),
            band: self.band.into(),
            thresholds: self.thresholds.map(i64::from),
            events: self.events.map(i64::from),
            steps: self.steps.into(),
            ticks: self.ticks.into(),
            remainder: self.remainder.into(),
        }
    }
}
