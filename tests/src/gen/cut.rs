//! Lists that differ only in the cut.

use super::Rng;
use crate::call::Call;
use crate::lists::in_run;
use crate::model::COUNT_MOST;

/// The list with each run whose sum is within 32 bits cut anew.
pub fn recut(calls: &[Call], seed: u64) -> Vec<Call> {
    let mut rng = Rng(seed);
    let mut list = Vec::new();
    for run in calls.chunk_by(|a, b| in_run(a).is_some() && in_run(b).is_some()) {
        match run.iter().map(in_run).sum::<Option<i64>>() {
            Some(sum) if sum <= COUNT_MOST => list.extend(pieces(sum, &mut rng).into_iter().map(Call::Advance)),
            _ => list.extend_from_slice(run),
        }
    }
    list
}

/// Counts that add up to a sum: one, a few with many among the first ticks, or single ticks.
fn pieces(sum: i64, rng: &mut Rng) -> Vec<i64> {
    if sum <= 60 && rng.chance(30) {
        let mut ticks = vec![1; sum as usize];
        ticks.insert(rng.between(0, sum) as usize, 0);
        return ticks;
    }
    let first = if rng.chance(50) { sum.min(40) } else { sum };
    let mut cuts: Vec<i64> = (0..rng.between(0, 5)).map(|_| rng.between(0, first)).collect();
    cuts.extend([0, sum]);
    cuts.sort_unstable();
    cuts.windows(2).map(|cut| cut[1] - cut[0]).collect()
}
