//! A board on the bench, for the model, the peer and the library alike.

use crate::call::{Board, Call, Call::*, Reply, Reply::Accepted};
use crate::library::Library;
use crate::lists::written;
use crate::model::Model;
use crate::peer::Peer;
use crate::record::{RECORD, Record};

/// A fresh board but for its clock.
pub trait Begun: Board {
    fn begun(clock: i64) -> Self;
}

impl Begun for Model {
    fn begun(clock: i64) -> Model {
        Model { clock, ..Model::fresh() }
    }
}

impl Begun for Peer {
    fn begun(clock: i64) -> Peer {
        Peer { clock: clock as u32, ..Peer::fresh() }
    }
}

impl Begun for Library {
    fn begun(clock: i64) -> Library {
        let mut library = Library::fresh();
        library.board.clock = clock as u32;
        library
    }
}

/// A board that can be held against the model's, whole.
pub trait Alike: Begun {
    fn like(&self, model: &Model) -> bool;

    /// The board as a model.
    fn picture(&self) -> Model;
}

impl Alike for Peer {
    fn like(&self, model: &Model) -> bool {
        self.same(model)
    }

    fn picture(&self) -> Model {
        Peer::picture(self)
    }
}

impl Alike for Library {
    fn like(&self, model: &Model) -> bool {
        self.same(model)
    }

    fn picture(&self) -> Model {
        Library::picture(self)
    }
}

/// A board whose number of records held can be set at will, and that can be compared whole with another.
pub trait Held: Begun + Clone {
    fn held(&mut self) -> &mut u64;
    fn equals(&self, other: &Self) -> bool;
}

impl Held for Model {
    fn held(&mut self) -> &mut u64 {
        &mut self.held
    }

    fn equals(&self, other: &Model) -> bool {
        self == other
    }
}

impl Held for Peer {
    fn held(&mut self) -> &mut u64 {
        &mut self.held
    }

    fn equals(&self, other: &Peer) -> bool {
        self.picture() == other.picture()
    }
}

impl Held for Library {
    fn held(&mut self) -> &mut u64 {
        &mut self.board.held
    }

    fn equals(&self, other: &Library) -> bool {
        self == other
    }
}

/// A board with its log.
pub struct Bench<B> {
    pub board: B,
    pub log: Vec<u8>,
}

pub const FILL: u8 = 0xA5;

impl<B: Begun> Bench<B> {
    pub fn new(bytes: usize) -> Bench<B> {
        Bench { board: B::begun(0), log: vec![FILL; bytes] }
    }

    pub fn call(&mut self, call: Call) -> Reply {
        self.board.apply(call, &mut self.log)
    }

    pub fn accept(&mut self, calls: &[Call]) {
        calls.iter().for_each(|&call| assert_eq!(self.call(call), Accepted, "{call:?}"));
    }

    /// Case A up to its play.
    pub fn case_a(bytes: usize) -> Bench<B> {
        let mut bench = Bench::new(bytes);
        bench.accept(&[Track(0, 0, 10), Start(0, 2), End(0, 5), Loops(0, 2)]);
        bench.accept(&[Point(0, 2, 7, 0, 0, 0), Point(0, 5, 9, 1, 0, 0)]);
        bench.accept(&[Action(0, 1, 3, 20), Action(0, 1, 0, 21)]);
        bench
    }

    pub fn clock_and_held(&mut self) -> (u32, u64) {
        match self.call(Clock) {
            Reply::Clock { clock, held } => (clock, held),
            other => panic!("{other:?}"),
        }
    }

    /// The held records as the runner prints them; the bytes past them are as they were.
    pub fn lines(&mut self) -> Vec<[i64; 7]> {
        let held = self.clock_and_held().1 as usize;
        assert!(self.log[held * RECORD..].iter().all(|&byte| byte == FILL));
        let line = |bytes: &[u8; RECORD]| {
            let r = Record::unpack(bytes).expect("a record");
            assert_eq!(r.pack().as_ref(), Ok(bytes));
            let few = [r.track, r.kind, r.event, r.detail].map(i64::from);
            [r.clock.into(), few[0], few[1], few[2], few[3], r.position.into(), r.passes.into()]
        };
        written(&self.log, 0, held).iter().map(line).collect()
    }
}
