//! A follower beside its master where one of the two has a rate of its own: how long the band held stays while both walk
//! on. Distances are told on a scale of the rate's ticks, on which a track moves by its steps in every tick.

use super::pair::{ALWAYS, band, distance, drifts, in_steps};
use super::{PLAYING, Track};

/// More than any drift, and few enough to be told on the scales of two tracks at once.
const FAR: i64 = 10_000_000;

/// A track over so many ticks: after n of them, from the first on, its distance is (from + n × pace) / scale, rounded down.
struct Line {
    from: i64,
    pace: i64,
    scale: i64,
    ticks: i64,
}

/// What a track does next, in the numbers of lines: its distance, the one before its next arrival, its span and its rate.
struct Walk {
    now: i64,
    before: i64,
    span: i64,
    steps: i64,
    ticks: i64,
    remainder: i64,
    /// ticks before the first step, and before one that goes from far to home
    still: i64,
    round: i64,
}

fn walk(track: &Track) -> Walk {
    let (next, span) = (track.phase(), track.span());
    Walk {
        now: distance(track).into(),
        before: i64::from(next) - 1,
        span: span.into(),
        steps: track.steps.into(),
        ticks: track.ticks.into(),
        remainder: track.remainder.into(),
        still: track.ticks_before(0) as i64,
        round: track.ticks_before(u64::from(span - next)) as i64,
    }
}

impl Walk {
    fn stands(&self) -> Line {
        Line { from: self.now, pace: 0, scale: 1, ticks: self.still }
    }

    /// Whether its distance is `before`, and one more with each step, from the next tick on.
    fn is_fine(&self) -> bool {
        self.now == self.before || self.still == 0
    }

    /// On the scale of its rate until it goes home; or, where that isn't told yet, until its first step.
    fn fine(&self) -> Line {
        if !self.is_fine() {
            return self.stands();
        }
        Line { from: self.on_scale(), pace: self.steps, scale: self.ticks, ticks: self.round }
    }

    /// As long as it makes a step in every tick, or in none.
    fn even(&self) -> Line {
        if self.still > 0 {
            return self.stands();
        }
        let spare = self.ticks - self.steps;
        let run = if spare == 0 { ALWAYS } else { self.remainder / spare };
        Line { from: self.before, pace: 1, scale: 1, ticks: run.min(self.round) }
    }

    fn on_scale(&self) -> i64 {
        self.before * self.ticks + self.remainder
    }
}

impl Line {
    /// Ticks in which the line, by its scale, is from least to most.
    fn within(&self, least: i64, most: i64) -> i64 {
        let first = self.from + self.pace;
        let inside = match self.pace.signum() {
            _ if first < least || first > most => 0,
            0 => ALWAYS,
            1 => (most - first) / self.pace + 1,
            _ => (first - least) / -self.pace + 1,
        };
        inside.min(self.ticks)
    }

    /// By how much one is ahead of another, on the scale of both. Each is rounded down for itself, so the difference is
    /// the line rounded down or up.
    fn ahead_of(&self, other: &Line) -> Line {
        Line {
            from: self.from * other.scale - other.from * self.scale,
            pace: self.pace * other.scale - other.pace * self.scale,
            scale: self.scale * other.scale,
            ticks: self.ticks.min(other.ticks),
        }
    }
}

/// By how much the follower may be ahead: the sides on which the drift is in the band held; they may be one.
fn sides(follower: &Track) -> [(i64, i64); 2] {
    let (low, high) = drifts(follower);
    let high = high.min(FAR);
    if low == 0 { [(-high, high); 2] } else { [(low, high), (-high, -low)] }
}

/// Of two that play by different rates or remainders, the longest that can be told of one side.
fn apart(f: &Walk, m: &Walk, (least, most): (i64, i64)) -> i64 {
    let lines = [f.even().ahead_of(&m.even()), f.fine().ahead_of(&m.fine())];
    let lines = lines.map(|line| line.within(least * line.scale, most * line.scale));
    // One on its line, the other anywhere in its span.
    let (line_f, line_m, width_f, width_m) = (f.fine(), m.fine(), f.span - 1, m.span - 1);
    let of_f = line_f.within((least + width_m) * line_f.scale, (most + 1) * line_f.scale - 1);
    let of_m = line_m.within((width_f - most) * line_m.scale, (1 - least) * line_m.scale - 1);
    let anywhere = if least <= -width_m && width_f <= most { ALWAYS } else { 0 };
    lines[0].max(lines[1]).max(of_f).max(of_m).max(anywhere)
}

/// One rate and spans of one length: for good they are as far apart as now on the scale, or the other way round; told in
/// distances, that rounded down or up.
fn ring(f: &Walk, m: &Walk, sides: [(i64, i64); 2]) -> bool {
    let alike = (f.steps, f.ticks, f.span) == (m.steps, m.ticks, m.span);
    if !alike || !f.is_fine() || !m.is_fine() {
        return false;
    }
    let whole = f.span * f.ticks;
    let ahead = (f.on_scale() - m.on_scale()).rem_euclid(whole);
    let stays = |ahead: i64| {
        let (down, up) = (ahead.div_euclid(f.ticks), (ahead + f.ticks - 1).div_euclid(f.ticks));
        [down, up].iter().all(|&by| sides.iter().any(|&(least, most)| least <= by && by <= most))
    };
    stays(ahead) && (ahead == 0 || stays(ahead - whole))
}

/// Ticks over which the band held stays, as far as the walks are known: neither is STOPPED, none stops, no mode changes.
#[cold]
pub fn steady(follower: &Track, master: &Track) -> u64 {
    if band(follower, master) != follower.band {
        return 0;
    }
    let rate = |track: &Track| (track.steps, track.ticks, track.remainder);
    let mover = match (follower.mode == PLAYING, master.mode == PLAYING) {
        (false, false) => return ALWAYS as u64,
        (true, false) => follower,
        (false, true) => master,
        (true, true) if rate(follower) == rate(master) => follower,
        (true, true) => return both(follower, master) as u64,
    };
    // All moves are in the mover's ticks with a step: as at 1 in 1, counted in these.
    mover.ticks_before(in_steps(follower, master) as u64)
}

fn both(follower: &Track, master: &Track) -> i64 {
    let (f, m, sides) = (walk(follower), walk(master), sides(follower));
    if ring(&f, &m, sides) {
        return ALWAYS;
    }
    let [one, other] = sides.map(|side| apart(&f, &m, side));
    one.max(other)
}
