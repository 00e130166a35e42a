//! The structs and functions that libfirmware.a exports; include/gridstep.h explains every field.

use crate::call::{BIAS, REPLY_WIDTH, TRACK_WIDTH, track_of};
use crate::model::Point;
use crate::track;

#[repr(C)]
#[derive(Clone, Copy, Debug, PartialEq, Eq)]
pub struct Track {
    pub min: u32,
    pub max: u32,
    pub start: u32,
    pub end: u32,
    pub position: u32,
    pub passes: u32,
    pub loops: u16,
    pub mode: u8,
    pub direction: u8,
    pub repeat: u8,
    pub due: u8,
    pub actions: [u8; 16],
    pub master: u8,
    pub band: u8,
    pub thresholds: [u32; 4],
    pub events: [u16; 4],
    pub steps: u16,
    pub ticks: u16,
    pub remainder: u32,
}

#[repr(C)]
#[derive(Clone, Copy, Debug, PartialEq, Eq)]
pub struct Points {
    pub keys: [u32; 256],
    pub infos: [u32; 256],
    pub count: usize,
}

#[repr(C)]
#[derive(Clone, Copy, Debug, PartialEq, Eq)]
pub struct Board {
    pub tracks: [Track; 16],
    pub present: u16,
    pub points: Points,
    pub clock: u32,
    pub held: u64,
}

#[repr(C)]
#[derive(Clone, Copy, Debug, PartialEq, Eq)]
pub struct Ending {
    pub reason: u32,
    pub number: u32,
}

#[repr(C)]
#[derive(Clone, Copy)]
pub struct Replied {
    pub board: Board,
    pub reply: [u64; REPLY_WIDTH],
}

/// A mode call: board, track, log and its length.
pub type ModeCall = unsafe extern "C" fn(&mut Board, i64, *mut u8, usize) -> u32;

unsafe extern "C" {
    pub fn gridstep_new() -> Board;
    pub fn gridstep_play(board: &mut Board, track: i64, log: *mut u8, length: usize) -> u32;
    pub fn gridstep_pause(board: &mut Board, track: i64, log: *mut u8, length: usize) -> u32;
    pub fn gridstep_resume(board: &mut Board, track: i64, log: *mut u8, length: usize) -> u32;
    pub fn gridstep_stop(board: &mut Board, track: i64, log: *mut u8, length: usize) -> u32;
    pub fn gridstep_advance(board: &mut Board, count: i64, log: *mut u8, length: usize) -> Ending;
    pub fn gridstep_call(
        board: Board,
        code: i64,
        x1: i64,
        x2: i64,
        x3: i64,
        x4: i64,
        x5: i64,
        x6: i64,
        log: *mut u8,
        length: usize,
    ) -> Replied;
    pub fn gridstep_master(board: Board, track: i64, master: i64, pairs: *const i64, pairs_length: usize) -> Replied;
    pub fn gridstep_run(
        calls: *const i64,
        calls_length: usize,
        log: *mut u8,
        log_length: usize,
        replies: *mut u64,
        replies_length: usize,
    ) -> Board;
}

impl Track {
    /// The track's numbers in the order of its reply.
    pub fn numbers(&self) -> [u64; TRACK_WIDTH] {
        let mut numbers = [0; TRACK_WIDTH];
        let words = [self.min, self.max, self.start, self.end, self.position, self.passes];
        let bytes = [self.mode, self.direction, self.repeat, self.due];
        numbers[..6].copy_from_slice(&words.map(u64::from));
        numbers[6] = self.loops.into();
        numbers[7..11].copy_from_slice(&bytes.map(u64::from));
        numbers[11..27].copy_from_slice(&self.actions.map(u64::from));
        numbers[27..29].copy_from_slice(&[self.master, self.band].map(u64::from));
        numbers[29..33].copy_from_slice(&self.thresholds.map(u64::from));
        numbers[33..37].copy_from_slice(&self.events.map(u64::from));
        numbers[37..39].copy_from_slice(&[self.steps, self.ticks].map(u64::from));
        numbers[39] = u64::from(self.remainder);
        numbers
    }

    /// The track in the model's words.
    pub fn plain(&self) -> track::Track {
        track_of(&self.numbers())
    }
}

impl Points {
    /// The points in the model's words, by key.
    pub fn plain(&self) -> impl Iterator<Item = ((i64, i64), Point)> + '_ {
        self.keys.iter().zip(&self.infos).take(self.count).map(|(&key, &info)| (place(key), point(info)))
    }
}

/// Track and position of a key.
fn place(key: u32) -> (i64, i64) {
    ((key / 2_097_152).into(), i64::from(key % 2_097_152) - BIAS)
}

fn point(info: u32) -> Point {
    let [event, wait, command, target] = [info % 65_536, info / 65_536 % 2, info / 131_072 % 8, info / 1_048_576];
    Point { event: event.into(), wait: wait.into(), command: command.into(), target: target.into() }
}
