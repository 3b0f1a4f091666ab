//! Four jobs on a bench, a merit a turn: the proved lens optimiser for Rust.
//!
//! A [`Job`] is a lens, what may vary of it, what is wanted of it, and a run: damped least squares, multi-start or simulated annealing. It is admitted to an
//! empty place of a [`Bench`], takes turns until one is refused with [`Refusal::Finished`], is fetched and released. The number of its turns is bounded
//! beforehand ([`Job::turn_bound`]). [`Bench::deal`] hands out turns to all jobs alike. A call that is turned down answers a [`Refusal`], and nothing has
//! changed.
//!
//! ```
//! use lensbench::{Aim, Bench, Job, Lens, Operand, Place, Quantity, Refusal, Surface, Variable};
//!
//! // a plano-convex lens of index 1.5; the curvature of its first surface is free, and a focal length of 100 mm is wanted
//! let lens = Lens::new(1, 10.0).surface(Surface::sphere(60.0, 4.0, 12.0), &[1.5]).surface(Surface::flat(0.0, 12.0), &[1.0]);
//! let job = Job::new(lens)
//!     .vary(Variable::new(Quantity::Curvature, 0).between(0.001, 0.1))
//!     .want(Operand::new(Aim::FocalLength { slot: 0 }, 100.0));
//!
//! let mut bench = Bench::new();
//! let place = Place(0);
//! bench.admit(place, &job)?;
//! let turns = bench.play(place)?;
//! let outcome = bench.fetch(place)?;
//! bench.release(place)?;
//!
//! assert!(turns <= job.turn_bound());
//! assert!((outcome.surfaces[0].radius_mm - 50.0).abs() < 1e-3);
//! // the merit handed back is the merit of the surfaces handed back
//! assert_eq!(job.with_surfaces(&outcome.surfaces).evaluate()?.merit, outcome.final_merit);
//! # Ok::<(), Refusal>(())
//! ```
//!
//! [`jobfile`] reads and writes the job files of the command `lensbench`, [`lines`] the lines of hexadecimal words that the test programs take, and
//! [`causes`] says what in a job is behind a refusal.
#![deny(unsafe_code)]

mod bench;
pub mod causes;
#[allow(unsafe_code, missing_docs)]
mod ffi;
mod format;
mod job;
pub mod jobfile;
mod lens;
pub mod lines;
mod outcome;
mod record;
mod refusal;

pub use bench::{Bench, Place};
pub use ffi::{Interval, ABI};
pub use format::shortest;
pub use job::{Annealing, Damped, Job, MultiStart, Run};
pub use lens::{Aim, Follower, Lens, Operand, Quantity, Ray, Surface, Variable};
pub use outcome::{Evaluation, Outcome, TraceLimits};
pub use refusal::Refusal;

/// The layout of the records in the library that is linked; the same as [`ABI`], or [`Bench::new`] panics.
pub fn linked_abi() -> u32 {
    ffi::abi()
}

/// The limits of a job.
pub mod limits {
    pub use crate::ffi::{OPERANDS, PLACES, SCRATCH, SLOTS, SURFACES, VARIABLES};
}
