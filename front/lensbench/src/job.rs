//! A job: a lens, its variables, its operands and the run that is asked for.
use crate::lens::{Lens, Operand, Surface, Variable};

/// What is asked of the bench. Any job may be handed in; what is wrong with one is refused on admission.
#[derive(Clone, Debug, PartialEq)]
pub struct Job {
    /// The lens to begin with.
    pub lens: Lens,
    /// What may be changed, at most 8.
    pub variables: Vec<Variable>,
    /// What is wanted, at most 12.
    pub operands: Vec<Operand>,
    /// How it is looked for.
    pub run: Run,
}

/// The three kinds of run, each with its own settings. A setting that is `None` has its default, which naming it gives too.
#[derive(Clone, Copy, Debug, PartialEq)]
pub enum Run {
    /// Damped least squares from the lens as it stands.
    Damped(Damped),
    /// Damped runs from the lens as it stands and from random ones within the bounds; the best is kept.
    MultiStart(MultiStart),
    /// Simulated annealing, then a damped run.
    Annealing(Annealing),
}

/// Settings of a damped run.
#[derive(Clone, Copy, Debug, Default, PartialEq)]
pub struct Damped {
    /// Iterations at most, up to 1000.
    pub max_iterations: Option<u64>,
    /// Damping of the first attempt, 0 to 1e8.
    pub initial_damping: Option<f64>,
    /// The run has converged where an iteration gains less than this part of the merit.
    pub merit_tolerance: Option<f64>,
    /// The run has converged where the gradient is shorter than this.
    pub gradient_tolerance: Option<f64>,
    /// Step of a derivative, as a part of the variable's value, 0 to 1.
    pub relative_step: Option<f64>,
}

/// Settings of a multi-start.
#[derive(Clone, Copy, Debug, Default, PartialEq)]
pub struct MultiStart {
    /// Settings of each of its damped runs.
    pub local: Damped,
    /// Runs from random lenses, up to 1000, beside the one from the lens as it stands.
    pub trials: Option<u64>,
    /// Seed of the random lenses.
    pub seed: Option<u64>,
}

/// Settings of an annealing.
#[derive(Clone, Copy, Debug, Default, PartialEq)]
pub struct Annealing {
    /// Temperature to begin with.
    pub temperature: Option<f64>,
    /// What the temperature is multiplied with after each cycle, 0 to 1.
    pub cooling_rate: Option<f64>,
    /// Steps at each temperature, up to 1000.
    pub steps: Option<u64>,
    /// Cycles at most, up to 1000.
    pub cycles: Option<u64>,
    /// Seed of the steps.
    pub seed: Option<u64>,
}

impl Damped {
    /// What a damped job has where nothing is given.
    pub const DEFAULT: Damped = Damped {
        max_iterations: Some(50),
        initial_damping: Some(0.01),
        merit_tolerance: Some(1e-6),
        gradient_tolerance: Some(1e-7),
        relative_step: Some(1e-5),
    };
}

impl MultiStart {
    /// What a multi-start has where nothing is given.
    pub const DEFAULT: MultiStart =
        MultiStart { local: Damped { max_iterations: Some(20), initial_damping: Some(1.0), ..Damped::DEFAULT }, trials: Some(10), seed: Some(42) };
}

impl Annealing {
    /// What an annealing has where nothing is given.
    pub const DEFAULT: Annealing =
        Annealing { temperature: Some(100.0), cooling_rate: Some(0.9), steps: Some(15), cycles: Some(25), seed: Some(12345) };
    /// Iterations of the damped run at its end.
    const POLISH: u64 = 25;
}

impl Default for Run {
    fn default() -> Run {
        Run::Damped(Damped::default())
    }
}

impl Job {
    /// A damped job with all settings at their defaults, and no variable and no operand yet.
    pub fn new(lens: Lens) -> Job {
        Job { lens, variables: Vec::new(), operands: Vec::new(), run: Run::default() }
    }

    /// The job with one more variable.
    pub fn vary(mut self, variable: Variable) -> Job {
        self.variables.push(variable);
        self
    }

    /// The job with one more operand.
    pub fn want(mut self, operand: Operand) -> Job {
        self.operands.push(operand);
        self
    }

    /// The job with this run.
    pub fn run(self, run: Run) -> Job {
        Job { run, ..self }
    }

    /// The same job of a lens with these surfaces.
    pub fn with_surfaces(&self, surfaces: &[Surface]) -> Job {
        let mut job = self.clone();
        job.lens.surfaces = surfaces.to_vec();
        job
    }

    /// The number of turns within which the job is finished. A job that is refused has none worth looking at.
    pub fn turn_bound(&self) -> u64 {
        let enabled = self.variables.iter().filter(|v| v.enabled).count() as u64;
        let iteration = enabled.saturating_mul(2).saturating_add(10);
        let damped = |given: Option<u64>, default: Option<u64>| 1u64.saturating_add(given.or(default).unwrap_or(0).saturating_mul(iteration));
        match self.run {
            Run::Damped(d) => damped(d.max_iterations, Damped::DEFAULT.max_iterations),
            Run::MultiStart(m) => {
                let trials = m.trials.or(MultiStart::DEFAULT.trials).unwrap_or(0);
                trials.saturating_add(1).saturating_mul(damped(m.local.max_iterations, MultiStart::DEFAULT.local.max_iterations))
            }
            Run::Annealing(a) => {
                let steps = a.steps.or(Annealing::DEFAULT.steps).unwrap_or(0);
                let cycles = a.cycles.or(Annealing::DEFAULT.cycles).unwrap_or(0);
                1u64.saturating_add(cycles.saturating_mul(steps)).saturating_add(damped(Some(Annealing::POLISH), None))
            }
        }
    }
}
