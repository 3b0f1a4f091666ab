//! What is said of a job that has ended, for the table and for JSON alike.
use super::out::say;
use super::source::Source;
use lensbench::causes::{causes, Cause, Part};
use lensbench::jobfile::{Entry, Lines};
use lensbench::{Job, Outcome, Refusal, Surface};

/// A result with what belongs beside it.
pub struct Found<'a> {
    pub source: &'a Source,
    pub outcome: &'a Outcome,
    pub turns: u64,
    /// the merit of the lens as it was given
    pub given_merit: f64,
}

impl<'a> Found<'a> {
    pub fn of(source: &'a Source, outcome: &'a Outcome, turns: u64) -> Result<Found<'a>, String> {
        let job = &source.entry.job;
        let given = job.evaluate().map_err(|refusal| format!("{}: {refusal}", source.at(source.entry.lines.job)))?;
        beside(job, outcome)?;
        Ok(Found { source, outcome, turns, given_merit: given.merit })
    }

    pub fn entry(&self) -> &Entry {
        &self.source.entry
    }
}

/// The part of the merit that a residual has, or none where the merit is 0 or no part can be told.
pub fn share(residual: f64, merit: f64) -> Option<f64> {
    Some(residual * residual / merit).filter(|part| part.is_finite() && merit > 0.0)
}

/// What is shown beside a merit has that merit: the surfaces are evaluated once more by themselves.
fn beside(job: &Job, outcome: &Outcome) -> Result<(), String> {
    let again = job.with_surfaces(&outcome.surfaces).evaluate().map_err(|refusal| format!("the surfaces found are {refusal}"))?;
    let same = |a: f64, b: f64| a.to_bits() == b.to_bits() || (a.is_nan() && b.is_nan());
    let values = again.values.iter().zip(&outcome.values).all(|(a, b)| same(*a, *b));
    if same(again.merit, outcome.final_merit) && values {
        return Ok(());
    }
    Err("the merit found is not that of the surfaces found".to_string())
}

/// Which of a surface's columns a run has changed, in the order of a job file.
pub fn changed(before: &Surface, after: &Surface) -> [bool; 4] {
    let (before, after) = (before.columns(), after.columns());
    std::array::from_fn(|i| before[i].to_bits() != after[i].to_bits())
}

/// The line behind a cause.
pub fn line_of(lines: &Lines, part: Part) -> usize {
    let found = match part {
        Part::Job => None,
        Part::Slots => lines.slots,
        Part::Pupil => lines.pupil,
        Part::Surface(i) => lines.surfaces.get(i).copied(),
        Part::Variable(i) => lines.variables.get(i).copied(),
        Part::Operand(i) => lines.operands.get(i).copied(),
        Part::Run => lines.run,
    };
    found.unwrap_or(lines.job)
}

/// Every cause of a refusal on standard error, with its line.
pub fn refused(source: &Source, refusal: Refusal) {
    let found = causes(&source.entry.job);
    print_causes(source, &found);
    if found.first().map(|cause| cause.refusal) != Some(refusal) {
        say(&format!("{}: {refusal}", source.at(source.entry.lines.job)));
    }
}

pub fn print_causes(source: &Source, found: &[Cause]) {
    for cause in found {
        let at = source.at(line_of(&source.entry.lines, cause.part));
        say(&format!("{at}: refused with {}: {}", cause.refusal.number(), cause.what));
    }
}
