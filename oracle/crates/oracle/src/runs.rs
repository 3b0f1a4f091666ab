//! What a job's run gives: the original's, or, where a variable has a follower (request 9), the second reading's, since the original knows none.
use crate::doc01::Lean;
use crate::job::*;
use crate::orig;

/// A job of kinds 1 to 4. With `trail`, also every surface list whose merit was worked out, in order.
pub fn run(j: &Job, trail: bool) -> (Outcome, Vec<Vec<Surf>>) {
    if j.has_followers() { second(j, trail) } else { orig::run(j, trail) }
}

/// The second reading of any job.
pub fn second(j: &Job, trail: bool) -> (Outcome, Vec<Vec<Surf>>) {
    let mut lean = Lean::new(j);
    lean.trail = trail.then(Vec::new);
    let outcome = lean.run();
    (outcome, lean.trail.take().unwrap_or_default().into_iter().map(|(surfaces, _)| surfaces).collect())
}
