//! What in a job is behind a refusal: every cause, with the part that it is in.
//!
//! The bench answers the first number that applies alone. These are the same tests once more, part by part, for people; the number that counts is the bench's.
use crate::ffi::{OPERANDS, SLOTS, SURFACES, VARIABLES};
use crate::format::{counted, shortest};
use crate::job::{Annealing, Damped, Job, Run};
use crate::jobfile::follower_name;
use crate::lens::{Aim, Follower, Lens, Operand, Quantity, Variable};
use crate::refusal::Refusal;

/// A part of a job. Numbers are from 0.
#[derive(Clone, Copy, Debug, PartialEq, Eq)]
pub enum Part {
    /// The job as a whole.
    Job,
    /// Its slots.
    Slots,
    /// Its pupil.
    Pupil,
    /// A surface, or an index behind it.
    Surface(usize),
    /// A variable.
    Variable(usize),
    /// An operand.
    Operand(usize),
    /// Its run.
    Run,
}

/// One cause of a refusal.
#[derive(Clone, Debug, PartialEq, Eq)]
pub struct Cause {
    /// The refusal that it leads to, if there is none that comes before it.
    pub refusal: Refusal,
    /// The part that it is in.
    pub part: Part,
    /// The field and its value, in words.
    pub what: String,
}

/// What a job is refused with on an empty place, in the order in which the bench looks for it.
const ORDER: [Refusal; 8] = [
    Refusal::Counts,
    Refusal::Lens,
    Refusal::Variable,
    Refusal::Follower,
    Refusal::Operand,
    Refusal::Setting,
    Refusal::NoVariable,
    Refusal::NoOperand,
];

/// Everything for which the job would be refused on an empty place, in the order in which the bench looks for it.
pub fn causes(job: &Job) -> Vec<Cause> {
    let mut found = Found::default();
    counts(&mut found, job);
    lens(&mut found, &job.lens);
    for (i, v) in job.variables.iter().enumerate() {
        variable(&mut found, i, v, job.lens.surfaces.len());
        follower(&mut found, i, v, job.lens.surfaces.len());
    }
    for (i, o) in job.operands.iter().enumerate() {
        operand(&mut found, i, o, job.lens.slots);
    }
    settings(&mut found, &job.run);
    found.test(job.variables.iter().any(|v| v.enabled), Refusal::NoVariable, Part::Job, || "no variable is enabled".to_string());
    found.test(!job.operands.is_empty(), Refusal::NoOperand, Part::Job, || "there is no operand".to_string());
    found.causes.sort_by_key(|cause| ORDER.iter().position(|refusal| *refusal == cause.refusal));
    found.causes
}

/// Those of them for which an evaluation would be refused: 1, 3 and 5, and no count of variables.
pub fn causes_of_evaluation(job: &Job) -> Vec<Cause> {
    let lens_alone = Job { variables: Vec::new(), ..job.clone() };
    let counted = [Refusal::Counts, Refusal::Lens, Refusal::Operand];
    causes(&lens_alone).into_iter().filter(|cause| counted.contains(&cause.refusal)).collect()
}

#[derive(Default)]
struct Found {
    causes: Vec<Cause>,
}

impl Found {
    fn test(&mut self, good: bool, refusal: Refusal, part: Part, what: impl FnOnce() -> String) {
        if !good {
            self.causes.push(Cause { refusal, part, what: what() });
        }
    }

    fn number(&mut self, good: bool, refusal: Refusal, part: Part, field: &str, value: f64, rule: &str) {
        self.test(good, refusal, part, || format!("{field} {} {rule}", shortest(value)));
    }
}

/// Where each number must lie.
const FAR: f64 = 1e9;
const WITHIN: &str = "is not within 1e9 of 0";
const POSITIVE: &str = "is not above 0 and up to 1e9";

fn within(x: f64) -> bool {
    x.abs() <= FAR
}

fn positive(x: f64, most: f64) -> bool {
    x > 0.0 && x <= most
}

fn counts(found: &mut Found, job: &Job) {
    let lens = &job.lens;
    let mut most = |count: usize, limit: usize, part: Part, of: &str| {
        found.test(count <= limit, Refusal::Counts, part, || format!("{count} {of}: a job has at most {limit}"));
    };
    most(lens.surfaces.len(), SURFACES, Part::Surface(SURFACES), "surfaces");
    most(job.variables.len(), VARIABLES, Part::Variable(VARIABLES), "variables");
    most(job.operands.len(), OPERANDS, Part::Operand(OPERANDS), "operands");
    found.test((1..=SLOTS).contains(&lens.slots), Refusal::Counts, Part::Slots, || {
        format!("{}: a job has 1 to {SLOTS}", counted(lens.slots, "slot", "slots"))
    });
    found.test(lens.indices.len() == lens.surfaces.len(), Refusal::Counts, Part::Job, || {
        "the lists of indices are not one for each surface".to_string()
    });
    for (i, indices) in lens.indices.iter().enumerate() {
        found.test(indices.len() == lens.slots, Refusal::Counts, Part::Surface(i), || {
            format!("surface {} has {} for {}", i + 1, counted(indices.len(), "index", "indices"), counted(lens.slots, "slot", "slots"))
        });
    }
}

fn lens(found: &mut Found, lens: &Lens) {
    found.number(positive(lens.pupil_mm, FAR), Refusal::Lens, Part::Pupil, "pupil", lens.pupil_mm, POSITIVE);
    for (i, s) in lens.surfaces.iter().enumerate() {
        let part = Part::Surface(i);
        let of = |rule: &str| format!("of surface {} {rule}", i + 1);
        found.number(!s.radius_mm.is_nan(), Refusal::Lens, part, "radius", s.radius_mm, &of("is no number"));
        found.number(within(s.thickness_mm), Refusal::Lens, part, "thickness", s.thickness_mm, &of(WITHIN));
        found.number(positive(s.semi_diameter_mm, FAR), Refusal::Lens, part, "semi-diameter", s.semi_diameter_mm, &of(POSITIVE));
        found.number(s.conic_constant.is_finite(), Refusal::Lens, part, "conic", s.conic_constant, &of("is not finite"));
    }
    for (i, indices) in lens.indices.iter().enumerate() {
        for (slot, n) in indices.iter().enumerate() {
            let rule = format!("of surface {} in slot {} is not above 0 and up to 10", i + 1, slot + 1);
            found.number(positive(*n, 10.0), Refusal::Lens, Part::Surface(i), "index", *n, &rule);
        }
    }
}

fn variable(found: &mut Found, i: usize, v: &Variable, surfaces: usize) {
    let (part, refusal) = (Part::Variable(i), Refusal::Variable);
    found.test(v.surface < surfaces, refusal, part, || format!("surface {} is not there: the lens has {surfaces}", v.surface as u128 + 1));
    found.number(within(v.least), refusal, part, "from", v.least, WITHIN);
    found.number(within(v.greatest), refusal, part, "to", v.greatest, WITHIN);
    let crossed = v.least > v.greatest;
    found.test(!crossed, refusal, part, || format!("from {} is above to {}", shortest(v.least), shortest(v.greatest)));
    found.number((0.0..=FAR).contains(&v.step), refusal, part, "step", v.step, "is not from 0 to 1e9");
    let room = v.quantity != Quantity::SemiDiameter || v.least > 0.0;
    found.number(room, refusal, part, "from", v.least, "is not above 0, as a semi-diameter must be");
}

fn follower(found: &mut Found, i: usize, v: &Variable, surfaces: usize) {
    let Some(follower) = v.follower else { return };
    let (part, refusal, name) = (Part::Variable(i), Refusal::Follower, follower_name(follower));
    found.test(follower.surface() < surfaces, refusal, part, || format!("{name}: the surface is not there: the lens has {surfaces}"));
    let has_opposite = matches!(v.quantity, Quantity::Curvature | Quantity::Conic);
    let good = has_opposite || matches!(follower, Follower::Plus(_));
    found.test(good, refusal, part, || format!("{name}: only a curvature or a conic has an opposite"));
}

fn operand(found: &mut Found, i: usize, o: &Operand, slots: usize) {
    let (part, refusal) = (Part::Operand(i), Refusal::Operand);
    if let Aim::FocalLength { slot } | Aim::FNumber { slot } | Aim::BackFocus { slot } | Aim::Magnification { slot } = o.aim {
        found.test(slot < slots, refusal, part, || format!("slot {} is not there: the job has {slots}", slot as u128 + 1));
    }
    if let Some((_, limit_mm)) = o.aim.surface_and_limit() {
        found.number(within(limit_mm), refusal, part, "limit", limit_mm, WITHIN);
    }
    found.number(within(o.target), refusal, part, "target", o.target, WITHIN);
    found.number(o.weight >= 0.0 && o.weight.is_finite(), refusal, part, "weight", o.weight, "is negative or not finite");
}

fn settings(found: &mut Found, run: &Run) {
    match run {
        Run::Damped(d) => damped(found, d),
        Run::MultiStart(m) => {
            damped(found, &m.local);
            count(found, "trials", m.trials);
        }
        Run::Annealing(a) => annealing(found, a),
    }
}

fn count(found: &mut Found, name: &str, given: Option<u64>) {
    let n = given.unwrap_or(0);
    found.test(n <= 1000, Refusal::Setting, Part::Run, || format!("{name} {n} is above 1000"));
}

/// A setting that is left out has its default, which is good.
fn setting(found: &mut Found, name: &str, given: Option<f64>, good: impl Fn(f64) -> bool, rule: &str) {
    if let Some(x) = given {
        found.number(good(x), Refusal::Setting, Part::Run, name, x, rule);
    }
}

fn damped(found: &mut Found, d: &Damped) {
    count(found, "iterations", d.max_iterations);
    setting(found, "damping", d.initial_damping, |x| (0.0..=1e8).contains(&x), "is not from 0 to 1e8");
    setting(found, "merit-tolerance", d.merit_tolerance, f64::is_finite, "is not finite");
    setting(found, "gradient-tolerance", d.gradient_tolerance, f64::is_finite, "is not finite");
    setting(found, "relative-step", d.relative_step, |x| (0.0..=1.0).contains(&x), "is not from 0 to 1");
}

fn annealing(found: &mut Found, a: &Annealing) {
    setting(found, "temperature", a.temperature, f64::is_finite, "is not finite");
    setting(found, "cooling", a.cooling_rate, |x| (0.0..=1.0).contains(&x), "is not from 0 to 1");
    count(found, "steps", a.steps);
    count(found, "cycles", a.cycles);
}
