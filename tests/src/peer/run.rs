//! The peer's advance: single ticks where something is written or stops, one leap over what lies between.

use super::{BIAS, CLOCK_END, GRID, Info, NONE, PLAYING, Peer, STOPPED, Track, WAITING, WIDTH, pair};
use crate::call::Reply;
use crate::model::TRACKS;
use crate::record::{BAND, MODE_CHANGE, POINT, RECORD, REFUSED_COMMAND};

/// The most records of a tick: 16 points, 16 mode changes, 16 commands, 16 bands.
const TICK_MOST: usize = 64;

/// Where records are written, and the clock that they carry.
pub struct Out<'a> {
    clock: u32,
    bytes: &'a mut [u8],
    pub records: usize,
}

impl<'a> Out<'a> {
    pub fn new(clock: u32, bytes: &'a mut [u8]) -> Out<'a> {
        Out { clock, bytes, records: 0 }
    }

    /// A record of a track as it stands at this moment.
    fn put(&mut self, number: usize, track: &Track, kind: u8, event: u8, detail: u8) {
        let tags = u32::from_le_bytes([number as u8, kind, event, detail]);
        let position = track.position.wrapping_sub(BIAS as u32);
        let at = self.records * RECORD;
        let bytes = &mut self.bytes[at..at + RECORD];
        bytes[..8].copy_from_slice(&(u64::from(self.clock) | u64::from(tags) << 32).to_le_bytes());
        bytes[8..].copy_from_slice(&(u64::from(position) | u64::from(track.passes) << 32).to_le_bytes());
        self.records += 1;
    }

    /// Takes a track to a mode: its record, if its action cell is not 0, then the rewinding of a stop.
    pub fn enter(&mut self, number: usize, track: &mut Track, new: u8) {
        let event = track.action(new);
        if event != 0 {
            self.put(number, track, MODE_CHANGE, event, track.mode * 16 + new);
        }
        track.enter(new);
    }

    /// The rest of a step on an arrival: rules 2 to 4.
    fn arrive(&mut self, number: usize, track: &mut Track, info: Info) {
        if info.event != 0 {
            self.put(number, track, POINT, info.event, info.command * 16 + info.target);
        }
        if track.position == track.far() && track.pass() {
            self.enter(number, track, STOPPED);
        } else if info.wait {
            self.enter(number, track, WAITING);
        }
    }

    fn command(&mut self, tracks: &mut [Track; TRACKS], info: Info) {
        let target = usize::from(info.target & 15);
        let track = &mut tracks[target];
        match GRID[usize::from(info.command) - 1][usize::from(track.mode)] {
            NONE => self.put(target, track, REFUSED_COMMAND, info.event, info.command * 16 + track.mode),
            new => self.enter(target, track, new),
        }
    }

    /// A follower after the commands: its record, if it enters another band than the one held that is not none.
    fn judge(&mut self, tracks: &mut [Track; TRACKS], number: usize) {
        let master = tracks[usize::from(tracks[number].master & 15)];
        let track = &mut tracks[number];
        let band = pair::band(track, &master);
        if band != track.band && band != 0 {
            self.put(number, track, BAND, track.events[usize::from(band) - 1], track.master);
        }
        track.band = band;
    }
}

impl Peer {
    fn playing(&self) -> u16 {
        let mut word = 0;
        for (number, track) in self.tracks.iter().enumerate() {
            word |= u16::from(track.mode == PLAYING) << number;
        }
        word & self.present
    }

    /// The followers: no tick changes who they are.
    fn led(&self) -> u16 {
        let (mut word, mut led) = (self.present, 0);
        while word != 0 {
            led |= u16::from(self.tracks[word.trailing_zeros() as usize].follows()) << word.trailing_zeros();
            word &= word - 1;
        }
        led
    }

    /// The point at a key; event 0 says that there is none.
    fn info(&self, key: u32) -> Info {
        let slot = self.rank(key);
        if slot < self.count && self.keys[slot] == key { self.infos[slot] } else { Info::default() }
    }

    /// One tick of the tracks, its records put into `bytes`: their number.
    fn tick(&mut self, led: u16, bytes: &mut [u8]) -> usize {
        let mut out = Out::new(self.clock + 1, bytes);
        let mut reached = [Info::default(); TRACKS];
        let mut commands = 0;
        let mut word = self.playing();
        while word != 0 {
            let number = word.trailing_zeros() as usize;
            word &= word - 1;
            if !self.tracks[number].steps_now() {
                continue;
            }
            let position = self.tracks[number].arrival();
            let info = self.info((number as u32) << WIDTH | position);
            let track = &mut self.tracks[number];
            (track.position, track.due) = (position, false);
            out.arrive(number, track, info);
            if info.command != 0 {
                reached[commands] = info;
                commands += 1;
            }
        }
        for info in &reached[..commands] {
            out.command(&mut self.tracks, *info);
        }
        let mut word = led;
        while word != 0 {
            out.judge(&mut self.tracks, word.trailing_zeros() as usize);
            word &= word - 1;
        }
        out.records
    }

    /// A tick whose records fit, written behind the held ones: their number; else nothing changes.
    fn take(&mut self, led: u16, log: &mut [u8]) -> Option<usize> {
        let held = self.held as usize;
        let room = log.len() / RECORD - held;
        let free = &mut log[held * RECORD..];
        let records =
            if room >= TICK_MOST { self.tick(led, free) } else { self.take_narrow(led, &mut free[..room * RECORD])? };
        self.held += records as u64;
        self.clock += 1;
        Some(records)
    }

    /// The same where a tick's most might not fit: staged apart from the log.
    #[cold]
    fn take_narrow(&mut self, led: u16, free: &mut [u8]) -> Option<usize> {
        let before = self.tracks;
        let mut stage = [0; TICK_MOST * RECORD];
        let records = self.tick(led, &mut stage);
        let length = records * RECORD;
        if length > free.len() {
            self.tracks = before;
            return None;
        }
        free[..length].copy_from_slice(&stage[..length]);
        Some(records)
    }

    /// The ticks, at most so many, in which no PLAYING track reaches a point or stops and no band changes; they are leapt.
    fn leap(&mut self, led: u16, most: u32) -> u32 {
        let playing = self.playing();
        let keys = &self.keys[..self.count];
        let mut ticks = u64::from(most);
        for number in members(playing) {
            let track = &self.tracks[number];
            ticks = ticks.min(track.ticks_before(track.quiet(number, keys)));
        }
        let mut word = led;
        while word != 0 {
            let track = &self.tracks[word.trailing_zeros() as usize];
            ticks = ticks.min(pair::steady(track, &self.tracks[usize::from(track.master & 15)]));
            word &= word - 1;
        }
        let ticks = ticks as u32;
        if ticks > 0 {
            members(playing).for_each(|number| self.tracks[number].play(ticks));
            self.clock += ticks;
        }
        ticks
    }

    /// A leap is looked for only after a tick without records, so that one tick costs no search.
    pub fn run(&mut self, count: u32, log: &mut [u8]) -> Reply {
        let led = self.led();
        let mut taken = 0;
        let mut still = false;
        while taken < count {
            if self.clock == CLOCK_END {
                return Reply::ClockEnd(taken);
            }
            if still {
                taken += self.leap(led, (count - taken).min(CLOCK_END - self.clock));
                still = false;
                continue;
            }
            match self.take(led, log) {
                Some(records) => still = records == 0,
                None => return Reply::LogFull(taken),
            }
            taken += 1;
        }
        Reply::Done(taken)
    }
}

/// The members of a word, lowest first.
fn members(word: u16) -> impl Iterator<Item = usize> {
    (0..TRACKS).filter(move |number| word >> number & 1 == 1)
}
