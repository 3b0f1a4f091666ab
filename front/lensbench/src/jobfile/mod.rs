//! Job files: one keyword a line, lengths in mm, `#` before a comment. docs/JOBS.md has them in full.
//!
//! ```
//! let text = "
//! job plano-convex
//! pupil 10
//! surface 60   4 12 0 1.5
//! surface flat 0 12 0 air
//! vary curvature 1 from 0.001 to 0.1
//! want focal-length d target 100
//! run damped
//! ";
//! let jobs = lensbench::jobfile::read(text).expect("in form");
//! assert_eq!(jobs[0].name, "plano-convex");
//! assert_eq!(jobs[0].job.lens.surfaces.len(), 2);
//! // what is written reads back to the same bits
//! let again = lensbench::jobfile::read(&lensbench::jobfile::write(&jobs[0])).expect("in form");
//! assert_eq!(again[0].job, jobs[0].job);
//! ```
mod fields;
mod names;
mod read;
mod settings;
mod words;
mod write;

pub use names::{aim_name, follower_name, quantity_name, run_name};
pub use read::read;
pub use write::write;

use crate::job::Job;
use std::fmt;

/// One job of a file.
#[derive(Clone, Debug, PartialEq)]
pub struct Entry {
    /// Its name, to the end of the line.
    pub name: String,
    /// The names of its wavelength slots.
    pub slots: Vec<String>,
    /// The job itself; without a line `run` a damped one.
    pub job: Job,
    /// The lines that its parts stand on.
    pub lines: Lines,
}

/// The lines that a job's parts stand on, from 1. A part that has no line has none here.
#[derive(Clone, Debug, Default, PartialEq)]
pub struct Lines {
    /// `job`
    pub job: usize,
    /// `slots`
    pub slots: Option<usize>,
    /// `pupil`
    pub pupil: Option<usize>,
    /// `surface`, one for each
    pub surfaces: Vec<usize>,
    /// `vary`, one for each
    pub variables: Vec<usize>,
    /// `want`, one for each
    pub operands: Vec<usize>,
    /// `run`
    pub run: Option<usize>,
}

/// What is wrong with a line.
#[derive(Clone, Debug, PartialEq, Eq)]
pub struct Complaint {
    /// The line, from 1.
    pub line: usize,
    /// What is wrong with it.
    pub what: String,
}

impl fmt::Display for Complaint {
    fn fmt(&self, f: &mut fmt::Formatter<'_>) -> fmt::Result {
        write!(f, "{}: {}", self.line, self.what)
    }
}
