//! What the calls answer, and the calls that need no bench.
use crate::ffi::{self, EvaluationRecord, Interval, ResultRecord, ThicknessLimitsRecord, TraceLimitsRecord};
use crate::job::Job;
use crate::lens::{Lens, Operand, Ray, Surface};
use crate::record::lens_record;
use crate::refusal::Refusal;

/// The result of a finished job. Values, residuals and the final merit are those of exactly these surfaces.
#[derive(Clone, Debug, PartialEq)]
pub struct Outcome {
    /// The surfaces found.
    pub surfaces: Vec<Surface>,
    /// Each operand's value at these surfaces.
    pub values: Vec<f64>,
    /// Each operand's residual there: the root of its weight times what its value is away from its target.
    pub residuals: Vec<f64>,
    /// The merit at which the run began; of a multi-start, the run that won.
    pub first_merit: f64,
    /// The merit of the surfaces.
    pub final_merit: f64,
    /// Iterations of the run, or of the one that won.
    pub iterations: u64,
    /// Whether it ended by its tolerances.
    pub converged: bool,
}

/// The merit of a lens as it stands.
#[derive(Clone, Debug, PartialEq)]
pub struct Evaluation {
    /// Each operand's value.
    pub values: Vec<f64>,
    /// Each operand's residual.
    pub residuals: Vec<f64>,
    /// The merit; 0 without operands.
    pub merit: f64,
}

/// The ends that every trace with thicknesses inside their limits lies between, and its track.
#[derive(Clone, Debug, PartialEq)]
pub struct TraceLimits {
    /// The sum of the thicknesses.
    pub track_mm: Interval,
    /// The height at each surface.
    pub heights_mm: Vec<Interval>,
    /// The slope behind each surface.
    pub slopes: Vec<Interval>,
}

impl Outcome {
    /// The record holds no counts: they come from the job.
    pub(crate) fn of(record: &ResultRecord, surfaces: usize, operands: usize) -> Outcome {
        Outcome {
            surfaces: record.surfaces.iter().take(surfaces).copied().collect(),
            values: record.values.iter().take(operands).copied().collect(),
            residuals: record.residuals.iter().take(operands).copied().collect(),
            first_merit: record.initial_merit,
            final_merit: record.final_merit,
            iterations: record.iterations,
            converged: record.converged == 1,
        }
    }
}

impl Lens {
    /// Each operand's value and residual, and the merit, of the lens as it stands. Refuses with 1, 3 and 5.
    pub fn evaluate(&self, operands: &[Operand]) -> Result<Evaluation, Refusal> {
        let record = lens_record(self, operands)?;
        let mut to = EvaluationRecord::default();
        Refusal::answer(ffi::evaluate(&record, &mut to))?;
        let first = |of: &[f64]| of.iter().take(operands.len()).copied().collect();
        Ok(Evaluation { values: first(&to.values), residuals: first(&to.residuals), merit: to.total_merit })
    }

    /// The paraxial ray from the edge of the pupil in a slot, at each surface; `None` for fewer than two surfaces, which have no trace.
    /// Refuses with 1, 3 and, for the slot, 5.
    pub fn trace(&self, slot: usize) -> Result<Option<Vec<Ray>>, Refusal> {
        let mut rays = vec![Ray::default(); self.surfaces.len()];
        let traced = self.trace_into(slot, &mut rays)?;
        Ok(traced.then_some(rays))
    }

    /// The same into a row of the caller's, one ray for each surface; a row of another length is refused with 1.
    /// Answers whether there is a trace; where there is none the row stays as it was.
    pub fn trace_into(&self, slot: usize, rays: &mut [Ray]) -> Result<bool, Refusal> {
        let record = lens_record(self, &[])?;
        match ffi::trace(&record, slot, rays) {
            ffi::NOT_TRACED => Ok(false),
            number => Refusal::answer(number).map(|()| true),
        }
    }
}

impl Lens {
    /// The paraxial trace with each thickness known only within limits, one pair for each surface. The lens's own thicknesses are checked and else not looked at.
    /// Refuses with 1, 3, for the slot 5, and 19.
    pub fn trace_limits(&self, thicknesses: &[Interval], slot: usize) -> Result<TraceLimits, Refusal> {
        let record = lens_record(self, &[])?;
        if thicknesses.len() != self.surfaces.len() {
            return Err(Refusal::Counts);
        }
        let mut limits = ThicknessLimitsRecord::default();
        limits.thicknesses.iter_mut().zip(thicknesses).for_each(|(to, from)| *to = *from);
        let mut traced = TraceLimitsRecord::default();
        Refusal::answer(ffi::trace_limits(&record, &limits, slot, &mut traced))?;
        let first = |of: &[Interval]| of.iter().take(self.surfaces.len()).copied().collect();
        Ok(TraceLimits { track_mm: traced.track, heights_mm: first(&traced.heights), slopes: first(&traced.slopes) })
    }
}

impl Job {
    /// The merit of the job's lens as it stands. Variables and run are not looked at.
    pub fn evaluate(&self) -> Result<Evaluation, Refusal> {
        self.lens.evaluate(&self.operands)
    }
}
