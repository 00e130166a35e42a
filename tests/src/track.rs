//! A track by 01 and 02, in plain Rust: its fields, the mode grid, when a step is made, and where it leads.

pub const BOUND: i64 = 1_000_000;
pub const LOOPS_MOST: i64 = 65_535;
/// Thresholds of a follower, at most, and the largest of them.
pub const THRESHOLDS: usize = 4;
pub const DRIFT_MOST: i64 = 1_000_000;
/// The largest number of a rate.
pub const RATE_MOST: i64 = 1_000;

pub const STOPPED: i64 = 0;
pub const PLAYING: i64 = 1;
pub const PAUSED: i64 = 2;
pub const WAITING: i64 = 3;

#[derive(Clone, Copy, Debug, PartialEq, Eq)]
pub struct Track {
    pub min: i64,
    pub max: i64,
    pub start: i64,
    pub end: i64,
    pub position: i64,
    pub passes: i64,
    pub loops: i64,
    pub mode: i64,
    /// 0 forward, 1 backward
    pub direction: i64,
    pub repeat: i64,
    /// 1: position not yet visited
    pub due: i64,
    /// the event of a change, by old mode, then new mode
    pub actions: [[i64; 4]; 4],
    /// the track that it follows; 0 where it follows none
    pub master: i64,
    /// the band held: 0 none, k the k-th threshold
    pub band: i64,
    /// strictly rising, then zeros
    pub thresholds: [i64; THRESHOLDS],
    /// beside each threshold its event, 0 beside none
    pub events: [i64; THRESHOLDS],
    /// the rate: so many steps in so many ticks
    pub steps: i64,
    pub ticks: i64,
    /// grows by the steps in each tick played, and a step takes the ticks off
    pub remainder: i64,
}

/// The mode grid: the new mode, or none where the pair of mode and call is refused.
pub fn grid(mode: i64, command: i64) -> Option<i64> {
    match (command, mode) {
        (1, STOPPED) => Some(PLAYING),
        (2, PLAYING | WAITING) => Some(PAUSED),
        (3, PAUSED | WAITING) => Some(PLAYING),
        (4, STOPPED | PLAYING | PAUSED | WAITING) => Some(STOPPED),
        _ => None,
    }
}

/// The range of a rate, p steps in q ticks.
pub fn rate(p: i64, q: i64) -> bool {
    1 <= p && p <= q && q <= RATE_MOST
}

/// A value of a flag or a direction.
pub fn flag(n: i64) -> bool {
    n == 0 || n == 1
}

impl Track {
    pub fn new(min: i64, max: i64) -> Track {
        Track {
            min,
            max,
            start: min,
            end: max,
            position: min,
            passes: 0,
            loops: 1,
            mode: STOPPED,
            direction: 0,
            repeat: 0,
            due: 1,
            actions: [[0; 4]; 4],
            master: 0,
            band: 0,
            thresholds: [0; THRESHOLDS],
            events: [0; THRESHOLDS],
            steps: 1,
            ticks: 1,
            remainder: 0,
        }
    }

    pub fn home(&self) -> i64 {
        if self.direction == 0 { self.start } else { self.end }
    }

    pub fn far(&self) -> i64 {
        if self.direction == 0 { self.end } else { self.start }
    }

    pub fn rewind(&mut self) {
        self.position = self.home();
        self.due = 1;
        self.passes = 0;
        self.remainder = 0;
    }

    /// A tick that it plays, by its rate: whether a step is made in it.
    pub fn steps_now(&mut self) -> bool {
        self.remainder += self.steps;
        if self.remainder < self.ticks {
            return false;
        }
        self.remainder -= self.ticks;
        true
    }

    /// Rule 1 of a step: the location that it reaches.
    pub fn arrival(&self) -> i64 {
        if self.due == 1 {
            self.position
        } else if self.position == self.far() {
            self.home()
        } else if self.direction == 0 {
            self.position + 1
        } else {
            self.position - 1
        }
    }

    /// How far it is from home; home goes by the direction at this moment.
    pub fn distance(&self) -> i64 {
        (self.position - self.home()).abs()
    }

    /// Whether it names a master: no thresholds means no master.
    pub fn follows(&self) -> bool {
        self.thresholds[0] != 0
    }

    /// The highest threshold exceeded by a drift: its number, counted from 1; 0 if there is none.
    pub fn band_at(&self, drift: i64) -> i64 {
        let exceeded = |&at: &usize| self.thresholds[at] != 0 && drift > self.thresholds[at];
        (0..THRESHOLDS).rev().find(exceeded).map_or(0, |at| at as i64 + 1)
    }

    /// The band that it has beside its master: none if either is STOPPED, else by the drift.
    pub fn judged(&self, master: &Track) -> i64 {
        if self.mode == STOPPED || master.mode == STOPPED {
            return 0;
        }
        self.band_at((self.distance() - master.distance()).abs())
    }

    /// Thresholds in their range and strictly rising, then zeros; events in theirs, beside thresholds only; a band that
    /// is one of them, and none at clock 0. That the master is another present track is the board's affair.
    fn pairs_unbroken(&self, clock: i64) -> bool {
        let given = self.thresholds.iter().take_while(|&&threshold| threshold != 0).count();
        let rising = self.thresholds[..given].windows(2).all(|two| two[0] < two[1]);
        let ranged = self.thresholds[..given].iter().all(|threshold| (1..=DRIFT_MOST).contains(threshold));
        let events = self.events[..given].iter().all(|event| (1..=255).contains(event));
        let unused = self.thresholds[given..].iter().chain(&self.events[given..]).all(|&number| number == 0);
        let band = (0..=given as i64).contains(&self.band) && (clock != 0 || self.band == 0);
        rising && ranged && events && unused && band
    }

    /// A rate in its range; a remainder below its ticks, and 0 when STOPPED.
    fn rate_unbroken(&self) -> bool {
        let below = (0..self.ticks).contains(&self.remainder);
        rate(self.steps, self.ticks) && below && (self.mode != STOPPED || self.remainder == 0)
    }

    /// The ranges and rules of a track, no more (docs/DECISIONS.md, 1): a STOPPED track off home is not broken.
    pub fn unbroken(&self, clock: i64) -> bool {
        let bounds = -BOUND <= self.min && self.min < self.max && self.max <= BOUND;
        let span = self.min <= self.start && self.start < self.end && self.end <= self.max;
        let place = self.start <= self.position && self.position <= self.end;
        let flags = flag(self.direction) && flag(self.repeat) && flag(self.due);
        let counts = (1..=LOOPS_MOST).contains(&self.loops) && (0..=clock).contains(&self.passes);
        let cells = self.actions.iter().flatten().all(|event| (0..=255).contains(event));
        let diagonal = (0..4).all(|mode| self.actions[mode][mode] == 0);
        let mode = (STOPPED..=WAITING).contains(&self.mode);
        let added = self.pairs_unbroken(clock) && self.rate_unbroken();
        bounds && span && place && flags && counts && cells && diagonal && mode && added
    }
}
