//! Lists of calls from fixed seeds. The maker keeps a model beside the list, so that most calls do something
//! and no advance asks the model for too many single ticks.

mod cut;
mod pairs;
mod plan;
mod rates;
mod turns;

use crate::call::{Board, Call, Reply};
use crate::model::{CLOCK_END, COUNT_MOST, Model};
use crate::track::{BOUND, LOOPS_MOST, PAUSED, STOPPED, Track, grid};
pub use cut::recut;
use plan::{LARGE, Plan, plan};
pub use plan::{PROFILES, Profile};

/// splitmix64.
pub struct Rng(pub u64);

impl Rng {
    pub fn bits(&mut self) -> u64 {
        self.0 = self.0.wrapping_add(0x9E37_79B9_7F4A_7C15);
        let z = (self.0 ^ self.0 >> 30).wrapping_mul(0xBF58_476D_1CE4_E5B9);
        let z = (z ^ z >> 27).wrapping_mul(0x94D0_49BB_1331_11EB);
        z ^ z >> 31
    }

    /// From low to high, both included; low if high is below it.
    pub fn between(&mut self, low: i64, high: i64) -> i64 {
        let width = (high - low).max(0) as u64 + 1;
        low + (self.bits() % width) as i64
    }

    pub fn chance(&mut self, percent: i64) -> bool {
        self.between(0, 99) < percent
    }

    pub fn pick<T: Copy>(&mut self, from: &[T]) -> T {
        from[self.between(0, from.len() as i64 - 1) as usize]
    }

    pub fn bytes(&mut self, length: i64) -> Vec<u8> {
        (0..length).map(|_| self.bits() as u8).collect()
    }
}

/// A list for a board that is fresh but for `clock` idle ticks, and for a log of any content.
/// A board that cannot be begun at a clock takes `Advance(clock)` first.
#[derive(Clone, Debug)]
pub struct Case {
    pub clock: i64,
    pub log: Vec<u8>,
    pub calls: Vec<Call>,
}

struct Maker {
    rng: Rng,
    plan: Plan,
    board: Model,
    log: Vec<u8>,
    calls: Vec<Call>,
    /// the reach that tracks of one length have
    alike: i64,
    /// the rate that tracks of one rate have
    one_rate: [i64; 2],
}

pub fn case(profile: Profile, seed: u64) -> Case {
    let mut rng = Rng(seed.wrapping_mul(0x1_0001).wrapping_add(profile as u64));
    let clock = if rng.chance(12) { CLOCK_END - rng.between(0, 300) } else { 0 };
    let length = match profile {
        Profile::SmallLog if rng.chance(60) => rng.between(0, 80),
        Profile::Followers if rng.chance(25) => rng.between(0, 80),
        Profile::Followers if rng.chance(60) => rng.between(5, 30) * 16 + rng.between(0, 15),
        Profile::Turns | Profile::Rates if rng.chance(15) => rng.between(0, 80),
        Profile::Turns | Profile::Rates if rng.chance(25) => rng.between(5, 14) * 16 + rng.between(0, 15),
        Profile::SmallLog => rng.between(5, 14) * 16 + rng.between(0, 15),
        _ => rng.between(20, 400) * 16 + rng.between(0, 15),
    };
    let log = rng.bytes(length);
    let board = Model { clock, ..Model::fresh() };
    let calls = made(rng, plan(profile), board, log.clone());
    Case { clock, log, calls }
}

/// A list of so many calls after the set-up, for a fresh board and a log of so many bytes; no master and no rate call is
/// among them, since scripts have no lines for these.
pub fn long(profile: Profile, seed: u64, calls: i64, bytes: usize) -> Vec<Call> {
    let plan = Plan { calls, masters: 0, followers: None, rates: 0, rated: None, large: LARGE, ..plan(profile) };
    made(Rng(seed), plan, Model::fresh(), vec![0; bytes])
}

fn made(mut rng: Rng, plan: Plan, board: Model, log: Vec<u8>) -> Vec<Call> {
    let alike = rng.between(1, plan.reach);
    let mut maker = Maker { rng, plan, board, log, calls: Vec::new(), alike, one_rate: [1, 1] };
    maker.one_rate = maker.some_rate();
    maker.fill();
    maker.calls
}

impl Maker {
    fn fill(&mut self) {
        for _ in 0..self.rng.between(self.plan.tracks / 3, self.plan.tracks) {
            let call = self.new_track();
            self.push(call);
        }
        (0..16).for_each(|t| self.prepare(t));
        self.name_masters();
        self.set_rates();
        for _ in 0..self.rng.between(self.plan.points / 2, self.plan.points) {
            let call = if self.rng.chance(85) { self.new_point() } else { self.set_up() };
            self.push(call);
        }
        for t in 0..16 {
            if self.board.track(t).is_some() && self.rng.chance(60) {
                self.push(Call::Play(t));
            }
        }
        for _ in 0..self.plan.calls {
            if self.by_chance(|followers| followers.moves) {
                self.move_at_one_go();
                continue;
            }
            if self.rng.chance(self.plan.turns) {
                self.turn_on_an_end();
                continue;
            }
            if self.rests() {
                continue;
            }
            let call = self.draw();
            self.push(call);
        }
    }

    /// Loops, repeat, direction and some actions of a track that is present.
    fn prepare(&mut self, t: i64) {
        if self.board.track(t).is_none() {
            return;
        }
        let most = self.rng.pick(&[3, 3, 3, 400]);
        let (loops, repeat, direction) = (self.number(1, most), self.number(0, 1), self.number(0, 1));
        let repeat = if self.by_chance(|followers| followers.repeats) { 1 } else { repeat };
        self.push(Call::Loops(t, loops));
        self.push(Call::Repeat(t, repeat));
        self.push(Call::Direction(t, direction));
        for _ in 0..self.rng.between(0, self.plan.actions) {
            let call = Call::Action(t, self.number(0, 3), self.number(0, 3), self.number(0, 255));
            self.push(call);
        }
    }

    fn push(&mut self, call: Call) {
        let reply = self.board.apply(call, &mut self.log);
        self.calls.push(call);
        if matches!(reply, Reply::LogFull(_)) && self.by_chance(|followers| followers.clears) {
            self.push(Call::Clear);
        }
    }

    fn draw(&mut self) -> Call {
        let mut at = self.rng.between(1, self.plan.weights.iter().sum());
        let kind = self.plan.weights.iter().position(|&weight| {
            at -= weight;
            at <= 0
        });
        match kind {
            Some(0) => self.set_up(),
            Some(1) => self.mode_call(),
            Some(2) => self.advance(),
            Some(3) => Call::Clear,
            _ => self.query(),
        }
    }

    /// A number of a range; now and then one at or beyond its edges.
    fn number(&mut self, low: i64, high: i64) -> i64 {
        if !self.rng.chance(self.plan.wild) {
            return self.rng.between(low, high);
        }
        let edges = [low - 1, low, low + 1, high - 1, high, high + 1];
        let beyond = [i64::MIN, i64::MIN + 1, i64::MAX, i64::MAX - 1, -1 << 32, 1 << 32, -1 << 31, 1 << 31];
        let bits = self.rng.pick(&[8, 16, 21, 31, 32, 63]);
        let wrapped = self.rng.between(low, high).wrapping_add(1 << bits);
        match self.rng.between(0, 2) {
            1 if self.plan.extremes => self.rng.pick(&beyond),
            2 if self.plan.extremes => wrapped,
            _ => self.rng.pick(&edges),
        }
    }

    /// A track's number, mostly of one that is present.
    fn track(&mut self) -> i64 {
        let present: Vec<i64> = (0..16).filter(|&t| self.board.track(t).is_some()).collect();
        if present.is_empty() || self.rng.chance(self.plan.wild) {
            return self.number(0, 15);
        }
        self.rng.pick(&present)
    }

    /// The same, mostly STOPPED or PAUSED.
    fn standing(&mut self) -> i64 {
        let t = self.track();
        let stands = self.board.track(t).is_some_and(|track| track.mode == STOPPED || track.mode == PAUSED);
        if stands || self.rng.chance(30) { t } else { self.track() }
    }

    /// A position: mostly in the track's span, on home and far more often.
    fn position(&mut self, t: i64) -> i64 {
        let Track { min, max, start, end, position, .. } =
            self.board.track(t).copied().unwrap_or(Track::new(-BOUND, BOUND));
        if self.rng.chance(self.plan.ends) {
            return self.rng.pick(&[start, end]);
        }
        match self.rng.between(0, 9) {
            0 => self.rng.pick(&[start, end]),
            1 => position + self.rng.between(-1, 1),
            2 => self.number(min, max),
            3 => self.rng.between(start - 1, end + 1),
            4..=6 => self.number(start, end.min(start + self.plan.reach)),
            _ => self.number(start, end),
        }
    }

    fn new_track(&mut self) -> Call {
        let t = self.number(0, 15);
        if self.rng.chance(self.plan.wild) {
            return Call::Track(t, self.number(-BOUND, BOUND - 1), self.number(1 - BOUND, BOUND));
        }
        let reach = self.rng.between(1, self.plan.reach);
        let reach = if self.by_chance(|followers| followers.alike) { self.alike } else { reach };
        let min = match self.rng.between(0, 5) {
            0 => -BOUND,
            1 => BOUND - reach,
            2 => self.rng.between(-BOUND, BOUND - reach),
            _ => self.rng.between(-20, 20),
        };
        Call::Track(t, min, min + reach)
    }

    fn new_point(&mut self) -> Call {
        let t = self.standing();
        let (p, event, wait) = (self.position(t), self.number(1, 255), i64::from(self.rng.chance(30)));
        if self.rng.chance(45) {
            return Call::Point(t, p, event, self.number(0, wait), 0, self.number(0, 0));
        }
        let target = if self.rng.chance(10) { self.number(0, 15) } else { self.track() };
        Call::Point(t, p, event, wait, self.number(1, 4), target)
    }

    /// A point that is there, mostly.
    fn place(&mut self) -> (i64, i64) {
        let points = self.board.points.len() as i64;
        if points > 0 && self.rng.chance(75) {
            let nth = self.rng.between(0, points - 1) as usize;
            return *self.board.points.keys().nth(nth).expect("a point");
        }
        let t = self.standing();
        (t, self.position(t))
    }

    fn set_up(&mut self) -> Call {
        if self.rng.chance(self.plan.masters) {
            return self.master();
        }
        if self.rng.chance(self.plan.rates) {
            return self.rate();
        }
        let t = self.standing();
        match self.rng.between(0, 22) {
            0 => self.new_track(),
            1 => Call::Start(t, self.position(t)),
            2 => Call::End(t, self.position(t)),
            3..=4 if self.rng.chance(15) => Call::Loops(t, self.number(1, LOOPS_MOST)),
            3..=4 => Call::Loops(t, self.number(1, 4)),
            5..=6 => Call::Repeat(t, self.number(0, 1)),
            7..=8 => Call::Direction(t, self.number(0, 1)),
            9..=11 => Call::Jump(t, self.position(t)),
            12..=16 => Call::Action(t, self.number(0, 3), self.number(0, 3), self.number(0, 255)),
            17..=18 => {
                let (t, p) = self.place();
                Call::Drop(t, p)
            }
            _ => self.new_point(),
        }
    }

    /// A mode call, mostly one that the grid allows.
    fn mode_call(&mut self) -> Call {
        let t = self.track();
        let mut command = self.rng.between(1, 4);
        if let Some(track) = self.board.track(t) {
            while grid(track.mode, command).is_none() && self.rng.chance(90) {
                command = self.rng.between(1, 4);
            }
            if command == 4 && self.rng.chance(50) {
                command = self.rng.between(1, 3);
            }
        }
        match command {
            1 => Call::Play(t),
            2 => Call::Pause(t),
            3 => Call::Resume(t),
            _ => Call::Stop(t),
        }
    }

    fn query(&mut self) -> Call {
        let t = self.track();
        match self.rng.between(0, 6) {
            0 => Call::Clock,
            1..=2 => Call::ShowTrack(t),
            3..=4 => {
                let (t, p) = self.place();
                Call::ShowPoint(t, p)
            }
            _ => Call::Count(t, self.position(t), self.position(t)),
        }
    }

    fn advance(&mut self) -> Call {
        if let Some(count) = self.till_a_step() {
            return Call::Advance(count);
        }
        let count = match self.rng.between(0, 39) {
            0..=1 => 0,
            2..=14 => 1,
            15..=27 => self.rng.between(2, 12),
            28..=37 => self.rng.between(13, 200),
            38 => self.rng.between(201, self.plan.large),
            _ => self.rng.pick(&[COUNT_MOST, COUNT_MOST - 1, CLOCK_END, CLOCK_END + 1, 1 << 31]),
        };
        let wild = self.plan.wild > 10 && self.rng.chance(10);
        let count = if wild { self.number(0, COUNT_MOST) } else { count };
        Call::Advance(self.bounded(count))
    }

    /// A count that the model can tick through: small, refused, or stopped soon by the log or the clock.
    fn bounded(&mut self, count: i64) -> i64 {
        if count <= self.plan.large || count > COUNT_MOST {
            return count;
        }
        match self.board.clone().advance(LARGE, &mut self.log.clone()) {
            Reply::Done(_) => self.rng.between(0, 200),
            _ => count,
        }
    }
}
