//! Jobs as the records that the calls take.
use crate::ffi::{JobRecord, OperandRecord, RequestRecord, SettingsRecord, VariableRecord, OPERANDS, SLOTS, SURFACES, VARIABLES};
use crate::job::{Annealing, Damped, Job, MultiStart, Run};
use crate::lens::{Aim, Follower, Lens, Operand, Quantity, Variable};
use crate::refusal::Refusal;

/// The request of a job. Counts past the limits go to the call as they are, for it to refuse; what does not fit is not looked at.
/// Only lists of indices of another length than the slots have no record: they are refused here, with 1, as the document has it.
pub fn request(job: &Job) -> Result<Box<RequestRecord>, Refusal> {
    let mut request = Box::new(RequestRecord::default());
    put_lens(&mut request.job, &job.lens)?;
    put_variables(&mut request.job, &job.variables);
    put_operands(&mut request.job, &job.operands);
    (request.kind, request.given) = put_run(&mut request.job.settings, &job.run);
    Ok(request)
}

/// A lens and operands, for the calls that need no run.
pub fn lens_record(lens: &Lens, operands: &[Operand]) -> Result<Box<JobRecord>, Refusal> {
    let mut record = Box::new(JobRecord::default());
    put_lens(&mut record, lens)?;
    put_operands(&mut record, operands);
    Ok(record)
}

fn put_lens(record: &mut JobRecord, lens: &Lens) -> Result<(), Refusal> {
    if lens.indices.len() != lens.surfaces.len() || lens.indices.iter().any(|of| of.len() != lens.slots) {
        return Err(Refusal::Counts);
    }
    record.surface_count = lens.surfaces.len() as u64;
    record.slot_count = lens.slots as u64;
    record.entrance_pupil_diameter_mm = lens.pupil_mm;
    for (to, from) in record.surfaces.iter_mut().zip(&lens.surfaces) {
        *to = *from;
    }
    for (to, from) in record.indices.chunks_mut(SLOTS).zip(&lens.indices) {
        for (to, from) in to.iter_mut().zip(from) {
            *to = *from;
        }
    }
    debug_assert!(record.indices.len() == SURFACES * SLOTS);
    Ok(())
}

fn put_variables(record: &mut JobRecord, variables: &[Variable]) {
    record.variable_count = variables.len() as u64;
    for (to, from) in record.variables.iter_mut().zip(variables) {
        *to = variable(from);
    }
    debug_assert!(record.variables.len() == VARIABLES);
}

fn put_operands(record: &mut JobRecord, operands: &[Operand]) {
    record.operand_count = operands.len() as u64;
    for (to, from) in record.operands.iter_mut().zip(operands) {
        *to = operand(from);
    }
    debug_assert!(record.operands.len() == OPERANDS);
}

/// The number of a quantity, as the header and job lines have it.
pub fn quantity_number(quantity: Quantity) -> u64 {
    match quantity {
        Quantity::Curvature => 0,
        Quantity::Thickness => 1,
        Quantity::Conic => 2,
        Quantity::SemiDiameter => 3,
    }
}

/// The sign of a follower and its surface, as the header and job lines have them; 0 and 0 where there is none.
pub fn follower_numbers(follower: Option<Follower>) -> (u64, u64) {
    match follower {
        None => (0, 0),
        Some(Follower::Plus(surface)) => (1, surface as u64),
        Some(Follower::Minus(surface)) => (2, surface as u64),
    }
}

fn variable(v: &Variable) -> VariableRecord {
    let (follows, follower) = follower_numbers(v.follower);
    VariableRecord {
        kind: quantity_number(v.quantity),
        surface_index: v.surface as u64,
        enabled: v.enabled as u64,
        min_value: v.least,
        max_value: v.greatest,
        step_size: v.step,
        follows,
        follower,
    }
}

/// Kind, slot or surface, and limit, as the header and job lines have them.
pub fn aim_numbers(aim: &Aim) -> (u64, u64, f64) {
    match *aim {
        Aim::FocalLength { slot } => (0, slot as u64, 0.0),
        Aim::FNumber { slot } => (1, slot as u64, 0.0),
        Aim::Track => (2, 0, 0.0),
        Aim::BackFocus { slot } => (3, slot as u64, 0.0),
        Aim::Magnification { slot } => (4, slot as u64, 0.0),
        Aim::LeastCentreThickness { surface, limit_mm } => (5, surface as u64, limit_mm),
        Aim::GreatestCentreThickness { surface, limit_mm } => (6, surface as u64, limit_mm),
        Aim::LeastEdgeThickness { surface, limit_mm } => (7, surface as u64, limit_mm),
    }
}

fn operand(o: &Operand) -> OperandRecord {
    let (kind, at, limit_mm) = aim_numbers(&o.aim);
    OperandRecord { kind, at, limit_mm, target: o.target, weight: o.weight }
}

/// The kind of a run, and the bits of the settings that it gives.
fn put_run(to: &mut SettingsRecord, run: &Run) -> (u64, u64) {
    match run {
        Run::Damped(d) => (1, put_damped(to, d)),
        Run::MultiStart(m) => (2, put_multi_start(to, m)),
        Run::Annealing(a) => (3, put_annealing(to, a)),
    }
}

/// Stores a setting that is given, and answers its bit.
fn put<T: Copy>(to: &mut T, bit: u32, given: Option<T>) -> u64 {
    given.map_or(0, |value| {
        *to = value;
        1 << bit
    })
}

fn put_damped(to: &mut SettingsRecord, d: &Damped) -> u64 {
    put(&mut to.max_iterations, 0, d.max_iterations)
        | put(&mut to.initial_damping, 1, d.initial_damping)
        | put(&mut to.relative_merit_tolerance, 2, d.merit_tolerance)
        | put(&mut to.gradient_tolerance, 3, d.gradient_tolerance)
        | put(&mut to.finite_difference_relative_step, 4, d.relative_step)
}

fn put_multi_start(to: &mut SettingsRecord, m: &MultiStart) -> u64 {
    put_damped(to, &m.local) | put(&mut to.num_trials, 5, m.trials) | put(&mut to.seed, 10, m.seed)
}

fn put_annealing(to: &mut SettingsRecord, a: &Annealing) -> u64 {
    put(&mut to.initial_temperature, 6, a.temperature)
        | put(&mut to.cooling_rate, 7, a.cooling_rate)
        | put(&mut to.steps_per_temperature, 8, a.steps)
        | put(&mut to.max_cooling_cycles, 9, a.cycles)
        | put(&mut to.seed, 10, a.seed)
}
