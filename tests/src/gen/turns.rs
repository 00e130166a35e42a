//! Turns of a track right behind an arrival on home or far.

use super::{Call, Maker};
use crate::call::Board;
use crate::track::{PLAYING, STOPPED, Track};

/// Ticks, at most, that an arrival is waited for.
const SOON: i64 = 12;

/// Its home position, or its far one.
fn end_of(track: &Track, home: bool) -> i64 {
    if home { track.home() } else { track.far() }
}

impl Maker {
    /// A track set going till it stands on home or far, mostly on home, which a turn makes far; paused, turned and
    /// resumed there; then some ticks.
    pub(super) fn turn_on_an_end(&mut self) {
        let t = self.track();
        let Some(&track) = self.board.track(t) else { return };
        match track.mode {
            STOPPED => self.push(Call::Play(t)),
            PLAYING => {}
            _ => self.push(Call::Resume(t)),
        }
        let home = self.rng.chance(75);
        self.arrive(t, home);
        if self.rng.chance(95) {
            self.push(Call::Pause(t));
        }
        self.turn(t);
        if self.rng.chance(90) {
            self.push(Call::Resume(t));
        }
        for _ in 0..self.rng.between(1, 3) {
            let count = self.rng.between(0, 4);
            self.push(Call::Advance(count));
        }
    }

    /// Ticks until a track arrives on an end; where that isn't soon, by a jump.
    fn arrive(&mut self, t: i64, home: bool) {
        if let Some(ticks) = self.ticks_till(t, home) {
            return self.push(Call::Advance(ticks));
        }
        if let Some(end) = self.board.track(t).map(|track| end_of(track, home)) {
            let calls = [Call::Pause(t), Call::Jump(t, end), Call::Resume(t), Call::Advance(1)];
            calls.into_iter().for_each(|call| self.push(call));
        }
    }

    /// Asked of a copy of the model: the ticks after which the track stands on that end, visited and not STOPPED.
    fn ticks_till(&self, t: i64, home: bool) -> Option<i64> {
        let (mut board, mut log) = (self.board.clone(), self.log.clone());
        (1..=SOON).find(|_| {
            board.advance(1, &mut log);
            let arrived =
                |track: &Track| track.due == 0 && track.mode != STOPPED && track.position == end_of(track, home);
            board.track(t).is_some_and(arrived)
        })
    }

    /// Mostly one flip; now and then the same value, there and back, or any value.
    fn turn(&mut self, t: i64) {
        let direction = self.board.track(t).map_or(0, |track| track.direction);
        let flipped = 1 - direction;
        let values = match self.rng.between(0, 19) {
            0..=1 => vec![direction],
            2..=3 => vec![flipped, direction],
            4 => vec![flipped, direction, flipped],
            5 => vec![self.number(0, 1)],
            _ => vec![flipped],
        };
        for value in values {
            self.meanwhile(t, 10);
            self.push(Call::Direction(t, value));
            self.meanwhile(t, 25);
        }
    }

    /// With that chance something else while the track stands: a query, idle ticks, a jump, other loops.
    fn meanwhile(&mut self, t: i64, percent: i64) {
        if !self.rng.chance(percent) {
            return;
        }
        let call = match self.rng.between(0, 5) {
            0..=1 => Call::ShowTrack(t),
            2..=3 => Call::Advance(self.rng.between(0, 3)),
            4 => Call::Jump(t, self.position(t)),
            _ => Call::Loops(t, self.number(1, 3)),
        };
        self.push(call);
    }
}
