//! A tick or a mode call of the model, worked out apart from board and log.

use super::{Point, TRACKS};
use crate::record::{self, Record};
use crate::track::{STOPPED, Track, WAITING, grid};
use std::collections::BTreeMap;

/// A tick or a mode call worked out apart from board and log, with the clock that its records carry.
pub struct Stage {
    pub tracks: [Option<Track>; TRACKS],
    pub clock: i64,
    pub records: Vec<Record>,
}

impl Stage {
    fn track(&mut self, number: usize) -> &mut Track {
        self.tracks[number].as_mut().expect("a track that is present")
    }

    /// A record of a track as it stands at this moment.
    fn report(&mut self, number: usize, kind: u8, event: i64, detail: i64) {
        let Track { position, passes, .. } = *self.track(number);
        let (clock, track, position, passes) = (self.clock as u32, number as u8, position as i32, passes as u32);
        self.records.push(Record { clock, track, kind, event: event as u8, detail: detail as u8, position, passes });
    }

    /// Takes a track to a mode: its record, if its action cell is not 0, then the rewinding of a stop.
    /// Stop from STOPPED is no change: its cell is on the diagonal, 0.
    pub fn enter(&mut self, number: usize, new: i64) {
        let old = self.track(number).mode;
        let event = self.track(number).actions[old as usize][new as usize];
        if event != 0 {
            self.report(number, record::MODE_CHANGE, event, old * 16 + new);
        }
        self.track(number).mode = new;
        if new == STOPPED {
            self.track(number).rewind();
        }
    }

    /// A tick of a PLAYING track. By its rate one step is made, and this is the point that it reaches; or none is, and the
    /// remainder alone changes.
    pub fn step(&mut self, number: usize, points: &BTreeMap<(i64, i64), Point>) -> Option<Point> {
        let track = self.track(number);
        if !track.steps_now() {
            return None;
        }
        track.position = track.arrival();
        track.due = 0;
        let point = points.get(&(number as i64, track.position)).copied();
        if let Some(point) = point {
            self.report(number, record::POINT, point.event, point.command * 16 + point.target);
        }
        let track = self.track(number);
        if track.position == track.far() {
            track.passes += 1;
            if track.repeat == 0 && track.passes >= track.loops {
                // Decision 7: the point is reported and its command runs; only its wait counts for nothing.
                self.enter(number, STOPPED);
                return point;
            }
        }
        if point.is_some_and(|point| point.wait == 1) {
            self.enter(number, WAITING);
        }
        point
    }

    /// A point's command on its target, which may be the point's own track.
    pub fn command(&mut self, point: Point) {
        let target = point.target as usize;
        let mode = self.track(target).mode;
        match grid(mode, point.command) {
            Some(new) => self.enter(target, new),
            None => self.report(target, record::REFUSED_COMMAND, point.event, point.command * 16 + mode),
        }
    }

    /// After a tick's commands: the band of a follower, and its record where it enters another one that is not none.
    pub fn judge(&mut self, number: usize) {
        let follower = *self.track(number);
        let band = follower.judged(self.track(follower.master as usize));
        if band != follower.band && band != 0 {
            self.report(number, record::BAND, follower.events[band as usize - 1], follower.master);
        }
        self.track(number).band = band;
    }
}
