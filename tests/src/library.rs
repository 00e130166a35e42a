//! The proved library behind its C interface: mode calls and advance over a lent board, every call by the door,
//! and encoded lists.

pub mod raw;

use crate::call::{Board, CALL_WIDTH, Call, REPLY_WIDTH, Reply};
use crate::model::{self, Model, TRACKS};

// SAFETY, for every call below: the structs have the layout of the library's (tests/layout.rs), each pointer comes
// with the length of its slice, and by its contract the library touches nothing but what it is lent.

#[derive(Clone, Copy, Debug, PartialEq, Eq)]
pub struct Library {
    pub board: raw::Board,
}

/// Numbers that gridstep_call takes: code and six.
pub const DOOR_WIDTH: usize = 7;

impl Library {
    /// Any call but master by its code and six numbers: the row of its reply.
    pub fn door(&mut self, row: &[i64; DOOR_WIDTH], log: &mut [u8]) -> [u64; REPLY_WIDTH] {
        let raw::Replied { board, reply } = enter(self.board, row, log);
        self.board = board;
        reply
    }

    /// The master call with any number of numbers: the row of its reply.
    pub fn master_door(&mut self, t: i64, m: i64, numbers: &[i64]) -> [u64; REPLY_WIDTH] {
        let replied = unsafe { raw::gridstep_master(self.board, t, m, numbers.as_ptr(), numbers.len()) };
        self.board = replied.board;
        replied.reply
    }

    /// A row of a list by the function that takes its call: master's own, else the door.
    pub fn by_row(&mut self, row: &[i64; CALL_WIDTH], log: &mut [u8]) -> [u64; REPLY_WIDTH] {
        match Call::decode(row) {
            Some(Call::Master(t, m, pairs)) => self.master_door(t, m, pairs.numbers()),
            _ => self.door(first(row), log),
        }
    }

    /// An encoded list from a fresh board: the board that it ends with.
    pub fn run(calls: &[i64], log: &mut [u8], replies: &mut [u64]) -> Library {
        let (rows, room) = (calls.len(), replies.len());
        let (log, length) = (log.as_mut_ptr(), log.len());
        let board = unsafe { raw::gridstep_run(calls.as_ptr(), rows, log, length, replies.as_mut_ptr(), room) };
        Library { board }
    }

    /// A call that takes no log.
    fn change(&mut self, call: Call) -> Reply {
        told(&self.door(first(&call.encode()), &mut []))
    }

    /// A query: it leaves the board as it is.
    fn ask(&self, call: Call) -> Reply {
        let raw::Replied { board, reply } = enter(self.board, first(&call.encode()), &mut []);
        assert!(board == self.board, "{call:?} changed the board");
        told(&reply)
    }

    pub fn track(&self, number: usize) -> Option<crate::track::Track> {
        (self.board.present >> number & 1 == 1).then(|| self.board.tracks[number].plain())
    }

    /// The board in the model's words.
    pub fn picture(&self) -> Model {
        let raw::Board { points, clock, held, .. } = &self.board;
        let tracks = std::array::from_fn(|number| self.track(number));
        Model { tracks, points: points.plain().collect(), clock: (*clock).into(), held: *held }
    }

    /// Whether the board is the model's, whole.
    pub fn same(&self, model: &Model) -> bool {
        let points = model.points.iter().map(|(&place, &point)| (place, point));
        i64::from(self.board.clock) == model.clock
            && self.board.held == model.held
            && (0..TRACKS).all(|number| self.track(number) == model.tracks[number])
            && self.board.points.plain().eq(points)
    }
}

/// The numbers of a row that the door takes.
fn first(row: &[i64; CALL_WIDTH]) -> &[i64; DOOR_WIDTH] {
    row[..DOOR_WIDTH].as_array().expect("a row is wider")
}

fn enter(board: raw::Board, row: &[i64; DOOR_WIDTH], log: &mut [u8]) -> raw::Replied {
    let [code, x1, x2, x3, x4, x5, x6] = *row;
    unsafe { raw::gridstep_call(board, code, x1, x2, x3, x4, x5, x6, log.as_mut_ptr(), log.len()) }
}

fn told(row: &[u64; REPLY_WIDTH]) -> Reply {
    Reply::decode(row).unwrap_or_else(|| panic!("no reply: {row:?}"))
}

/// A refusal's number.
fn refused(number: u32) -> Reply {
    Reply::Refused(number.try_into().expect("a refusal's number"))
}

impl Board for Library {
    fn fresh() -> Library {
        Library { board: unsafe { raw::gridstep_new() } }
    }

    fn add_track(&mut self, t: i64, min: i64, max: i64) -> Reply {
        self.change(Call::Track(t, min, max))
    }

    fn start(&mut self, t: i64, p: i64) -> Reply {
        self.change(Call::Start(t, p))
    }

    fn end(&mut self, t: i64, p: i64) -> Reply {
        self.change(Call::End(t, p))
    }

    fn loops(&mut self, t: i64, n: i64) -> Reply {
        self.change(Call::Loops(t, n))
    }

    fn repeat(&mut self, t: i64, flag: i64) -> Reply {
        self.change(Call::Repeat(t, flag))
    }

    fn direction(&mut self, t: i64, d: i64) -> Reply {
        self.change(Call::Direction(t, d))
    }

    fn point(&mut self, t: i64, p: i64, point: model::Point) -> Reply {
        let model::Point { event, wait, command, target } = point;
        self.change(Call::Point(t, p, event, wait, command, target))
    }

    fn drop_point(&mut self, t: i64, p: i64) -> Reply {
        self.change(Call::Drop(t, p))
    }

    fn action(&mut self, t: i64, from: i64, to: i64, event: i64) -> Reply {
        self.change(Call::Action(t, from, to, event))
    }

    fn jump(&mut self, t: i64, p: i64) -> Reply {
        self.change(Call::Jump(t, p))
    }

    fn master(&mut self, t: i64, m: i64, numbers: &[i64]) -> Reply {
        told(&self.master_door(t, m, numbers))
    }

    fn rate(&mut self, t: i64, p: i64, q: i64) -> Reply {
        self.change(Call::Rate(t, p, q))
    }

    fn mode_call(&mut self, command: i64, t: i64, log: &mut [u8]) -> Reply {
        let call: raw::ModeCall = match command {
            1 => raw::gridstep_play,
            2 => raw::gridstep_pause,
            3 => raw::gridstep_resume,
            _ => raw::gridstep_stop,
        };
        match unsafe { call(&mut self.board, t, log.as_mut_ptr(), log.len()) } {
            0 => Reply::Accepted,
            number => refused(number),
        }
    }

    fn advance(&mut self, count: i64, log: &mut [u8]) -> Reply {
        let ending = unsafe { raw::gridstep_advance(&mut self.board, count, log.as_mut_ptr(), log.len()) };
        match ending.reason {
            0 => Reply::Done(ending.number),
            1 => Reply::LogFull(ending.number),
            2 => Reply::ClockEnd(ending.number),
            3 => refused(ending.number),
            other => panic!("no reason: {other}"),
        }
    }

    fn clear(&mut self) -> Reply {
        self.change(Call::Clear)
    }

    fn show_clock(&self) -> Reply {
        self.ask(Call::Clock)
    }

    fn show_track(&self, t: i64) -> Reply {
        self.ask(Call::ShowTrack(t))
    }

    fn show_point(&self, t: i64, p: i64) -> Reply {
        self.ask(Call::ShowPoint(t, p))
    }

    fn count(&self, t: i64, a: i64, b: i64) -> Reply {
        self.ask(Call::Count(t, a, b))
    }
}
