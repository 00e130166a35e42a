//! The profiles of lists, and how each draws.

#[derive(Clone, Copy, Debug, PartialEq, Eq)]
pub enum Profile {
    Typical,
    /// short spans, points nearly everywhere, commands at each other
    Dense,
    /// arguments at the edges of their ranges
    Edges,
    /// logs of 0 to 80 bytes or a few records
    SmallLog,
    /// arguments at the ends of i64 and beside what fewer bits hold
    Extremes,
    Queries,
    /// few tracks of short spans that follow each other, often in step
    Followers,
    /// few tracks of two to five locations, turned right behind an arrival on home or far
    Turns,
    /// few tracks of short spans at rates of their own, some in pairs of one rate, resting now and then
    Rates,
    /// about 256 points
    Full,
}

impl Profile {
    /// Whether its lists have master calls.
    pub fn has_masters(self) -> bool {
        plan(self).masters > 0
    }
}

/// Full, whose lists are long, is the last.
pub const PROFILES: [Profile; 10] = [
    Profile::Typical,
    Profile::Dense,
    Profile::Edges,
    Profile::SmallLog,
    Profile::Extremes,
    Profile::Queries,
    Profile::Followers,
    Profile::Turns,
    Profile::Rates,
    Profile::Full,
];

/// How a profile draws.
pub struct Plan {
    /// tracks and points of the set-up, at most
    pub tracks: i64,
    pub points: i64,
    /// locations of a track beyond its min, at most
    pub reach: i64,
    /// actions of a track in the set-up, at most
    pub actions: i64,
    /// calls after the set-up
    pub calls: i64,
    /// arguments in a hundred from an edge, and whether from the ends of i64 too
    pub wild: i64,
    pub extremes: bool,
    /// set-up calls, mode calls, advances, clears and queries in the draw
    pub weights: [i64; 5],
    /// master calls in a hundred set-up calls
    pub masters: i64,
    pub followers: Option<Followers>,
    /// draws in a hundred that are a track's way to home or far and its turn there
    pub turns: i64,
    /// positions in a hundred that are home or far, whatever else is drawn
    pub ends: i64,
    /// rate calls in a hundred set-up calls
    pub rates: i64,
    pub rated: Option<Rated>,
    /// the most ticks of an advance that nothing stops
    pub large: i64,
}

/// What only lists with many followers have; in a hundred, but for near.
pub struct Followers {
    /// most thresholds are from 1 to this
    pub near: i64,
    /// tracks whose span has the list's one length
    pub alike: i64,
    /// tracks that name a master, and that repeat, in the set-up
    pub led: i64,
    pub repeats: i64,
    /// draws that are a track's pause, move and resume, or its stop and play
    pub moves: i64,
    /// clears after an advance that the log stopped
    pub clears: i64,
}

/// What only lists with many rates have; in a hundred.
pub struct Rated {
    /// tracks with a rate in the set-up
    pub slow: i64,
    /// rates that are the list's one
    pub alike: i64,
    /// draws that are a track's rest
    pub rests: i64,
    /// advances whose count goes by a track's next step
    pub till_steps: i64,
}

/// More ticks than these are asked only of a board that stops before.
pub const LARGE: i64 = 2_000;
/// Of thresholds, where the plan says nothing else; no drift of short spans exceeds it.
pub const NEAR: i64 = 12;

const USUAL: Plan = Plan {
    tracks: 5,
    points: 16,
    reach: 12,
    actions: 4,
    calls: 50,
    wild: 2,
    extremes: false,
    weights: [20, 25, 40, 2, 5],
    masters: 0,
    followers: None,
    turns: 2,
    ends: 0,
    rates: 4,
    rated: None,
    large: LARGE,
};

const FOLLOWERS: Plan = Plan {
    tracks: 6,
    points: 4,
    reach: 11,
    actions: 2,
    wild: 3,
    weights: [18, 25, 48, 3, 3],
    masters: 30,
    followers: Some(Followers { near: NEAR, alike: 50, led: 85, repeats: 60, moves: 12, clears: 40 }),
    large: 5_000,
    ..USUAL
};

const TURNS: Plan = Plan {
    points: 12,
    reach: 4,
    actions: 6,
    calls: 32,
    masters: 20,
    followers: Some(Followers { near: 3, alike: 30, led: 50, repeats: 20, moves: 4, clears: 60 }),
    turns: 40,
    ends: 50,
    ..USUAL
};

const RATES: Plan = Plan {
    tracks: 6,
    points: 8,
    reach: 9,
    wild: 3,
    weights: [20, 25, 48, 3, 4],
    masters: 15,
    followers: Some(Followers { near: 5, alike: 50, led: 60, repeats: 60, moves: 6, clears: 60 }),
    turns: 4,
    rates: 40,
    rated: Some(Rated { slow: 85, alike: 40, rests: 12, till_steps: 35 }),
    large: 20_000,
    ..USUAL
};

pub fn plan(profile: Profile) -> Plan {
    match profile {
        Profile::Typical => USUAL,
        Profile::Dense => {
            Plan { tracks: 22, points: 90, reach: 4, actions: 12, weights: [8, 30, 50, 4, 2], masters: 25, ..USUAL }
        }
        Profile::Edges => Plan { wild: 35, masters: 10, ..USUAL },
        Profile::SmallLog => Plan { reach: 5, actions: 8, weights: [8, 40, 45, 10, 4], ..USUAL },
        Profile::Extremes => Plan { wild: 25, extremes: true, weights: [40, 15, 25, 2, 20], masters: 10, ..USUAL },
        Profile::Queries => Plan { calls: 80, wild: 4, weights: [15, 15, 25, 2, 60], ..USUAL },
        Profile::Followers => FOLLOWERS,
        Profile::Turns => TURNS,
        Profile::Rates => RATES,
        // Spans so long that 700 points come to more than 256 places, so that refusal 5 comes often.
        Profile::Full => Plan { tracks: 16, points: 700, reach: 150, weights: [50, 15, 20, 2, 20], ..USUAL },
    }
}
