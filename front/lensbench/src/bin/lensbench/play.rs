//! Jobs on one bench, up to four at a time.
use super::source::Source;
use lensbench::{Bench, Outcome, Place, Refusal};

/// How a job ended.
pub enum Ended {
    Refused(Refusal),
    Done { outcome: Outcome, turns: u64 },
}

/// A job at a place.
#[derive(Clone, Copy)]
pub struct Playing {
    pub job: usize,
    pub turns: u64,
}

/// Turns that a place takes before the next one has its own.
const STRETCH: usize = 256;

pub struct Player {
    bench: Bench,
    next: usize,
    pub at: [Option<Playing>; 4],
}

impl Player {
    pub fn new() -> Player {
        Player { bench: Bench::new(), next: 0, at: [None; 4] }
    }

    /// Admits what there is room for and takes a stretch of turns at each place; answers the jobs that ended by it.
    pub fn round(&mut self, jobs: &[Source]) -> Result<Vec<(usize, Ended)>, String> {
        let mut ended = Vec::new();
        self.admit(jobs, &mut ended);
        for place in Place::ALL {
            self.stretch(place, &mut ended).map_err(|refusal| format!("{place}: {refusal}"))?;
        }
        Ok(ended)
    }

    /// Whether every job has ended.
    pub fn done(&self, jobs: &[Source]) -> bool {
        self.next == jobs.len() && self.at.iter().all(Option::is_none)
    }

    fn admit(&mut self, jobs: &[Source], ended: &mut Vec<(usize, Ended)>) {
        while let (Some(place), Some(source)) = (self.bench.vacant(), jobs.get(self.next)) {
            match self.bench.admit(place, &source.entry.job) {
                Ok(()) => self.at[place.0] = Some(Playing { job: self.next, turns: 0 }),
                Err(refusal) => ended.push((self.next, Ended::Refused(refusal))),
            }
            self.next += 1;
        }
    }

    fn stretch(&mut self, place: Place, ended: &mut Vec<(usize, Ended)>) -> Result<(), Refusal> {
        let Some(playing) = self.at[place.0].as_mut() else { return Ok(()) };
        for _ in 0..STRETCH {
            match self.bench.turn(place) {
                Ok(()) => playing.turns += 1,
                Err(Refusal::Finished) => {
                    let Playing { job, turns } = *playing;
                    let outcome = self.bench.fetch(place)?;
                    self.bench.release(place)?;
                    self.at[place.0] = None;
                    ended.push((job, Ended::Done { outcome, turns }));
                    return Ok(());
                }
                Err(other) => return Err(other),
            }
        }
        Ok(())
    }
}
