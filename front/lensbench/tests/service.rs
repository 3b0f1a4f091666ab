//! A service: several threads share the four places of one bench behind a mutex; every job is answered once, as it is alone.
//! LENSBENCH_SERVICE_SECONDS says for how long, 3 unless it is set.
#![allow(clippy::unwrap_used)]
mod common;
use common::{job, Dice};
use lensbench::{Bench, Job, Outcome, Place, Refusal};
use std::sync::{Arc, Mutex};
use std::time::{Duration, Instant};

const JOBS: usize = 100;
const THREADS: usize = 6;

struct Service {
    bench: Bench,
    /// which job is at a place
    at: [Option<usize>; 4],
    waiting: Vec<usize>,
    answers: Vec<Vec<Result<Outcome, Refusal>>>,
}

impl Service {
    fn new() -> Service {
        Service { bench: Bench::new(), at: [None; 4], waiting: (0..JOBS).rev().collect(), answers: vec![Vec::new(); JOBS] }
    }

    /// One job that waits comes to a free place, if there are both.
    fn admit(&mut self, jobs: &[Job]) {
        let Some(place) = self.bench.vacant() else { return };
        let Some(id) = self.waiting.pop() else { return };
        match self.bench.admit(place, &jobs[id]) {
            Ok(()) => self.at[place.0] = Some(id),
            Err(refusal) => self.answers[id].push(Err(refusal)),
        }
    }

    fn turn(&mut self, place: Place) {
        let expected = self.at[place.0].map_or(Err(Refusal::Empty), |_| Ok(()));
        match self.bench.turn(place) {
            Err(Refusal::Finished) => self.hand_out(place),
            got => assert_eq!(got, expected),
        }
    }

    /// Turns for all jobs; those that are finished by them are handed out.
    fn deal(&mut self, turns: u16) {
        let jobs = self.at.iter().flatten().count();
        let dealt = self.bench.deal(turns).unwrap();
        assert!(if jobs == 0 { dealt == 0 } else { dealt <= turns.into() });
        for place in self.bench.finished_places() {
            self.hand_out(place);
        }
    }

    fn hand_out(&mut self, place: Place) {
        assert!(self.bench.finished_places().contains(&place));
        let id = self.at[place.0].take().unwrap();
        self.answers[id].push(self.bench.fetch(place));
        self.bench.release(place).unwrap();
    }

    fn done(&self) -> bool {
        self.waiting.is_empty() && self.at.iter().all(Option::is_none)
    }
}

fn alone(job: &Job) -> Result<Outcome, Refusal> {
    let mut bench = Bench::new();
    bench.admit(Place(3), job)?;
    bench.play(Place(3))?;
    bench.fetch(Place(3))
}

fn work(service: &Mutex<Service>, jobs: &[Job], seed: u64) {
    let mut dice = Dice(seed);
    loop {
        let mut service = service.lock().unwrap();
        if service.done() {
            return;
        }
        service.admit(jobs);
        if dice.chance(3) {
            service.deal(dice.below(100) as u16);
            continue;
        }
        for _ in 0..1 + dice.below(50) {
            service.turn(Place(dice.below(4)));
        }
    }
}

/// All jobs once, on one bench.
fn round(jobs: &Arc<Vec<Job>>, expected: &[String], seed: u64) {
    let service = Arc::new(Mutex::new(Service::new()));
    let threads: Vec<_> = (0..THREADS)
        .map(|i| {
            let (service, jobs) = (service.clone(), jobs.clone());
            std::thread::spawn(move || work(&service, &jobs, seed * 31 + i as u64 + 1))
        })
        .collect();
    for thread in threads {
        thread.join().unwrap();
    }
    let service = service.lock().unwrap();
    for (answers, expected) in service.answers.iter().zip(expected) {
        assert_eq!(answers.len(), 1);
        assert_eq!(&format!("{:?}", answers[0]), expected);
    }
}

#[test]
fn a_hundred_jobs_share_four_places() {
    let seconds = std::env::var("LENSBENCH_SERVICE_SECONDS").map_or(3.0, |s| s.parse().unwrap());
    let until = Instant::now() + Duration::from_secs_f64(seconds);
    let mut rounds = 0;
    while rounds == 0 || Instant::now() < until {
        let mut dice = Dice(1000 + rounds);
        let jobs: Arc<Vec<Job>> = Arc::new((0..JOBS).map(|_| job(&mut dice)).collect());
        // by their text: f64's Debug has every digit, and NaN is like NaN
        let expected: Vec<String> = jobs.iter().map(|job| format!("{:?}", alone(job))).collect();
        round(&jobs, &expected, rounds + 1);
        rounds += 1;
    }
    eprintln!("{rounds} rounds of {JOBS} jobs on {THREADS} threads");
}

/// A service that is stopped and started again goes on where it was.
#[test]
fn a_bench_is_stored_and_brought_back() {
    let mut dice = Dice(4711);
    for _ in 0..300 {
        let job = job(&mut dice);
        let mut bench = Bench::new();
        if bench.admit(Place(1), &job).is_err() {
            continue;
        }
        for _ in 0..dice.below(60) {
            let _ = bench.turn(Place(1));
        }
        let mut bench = Bench::restored(&bench.saved()).unwrap();
        assert_eq!(bench.vacant(), Some(Place(0)));
        bench.play(Place(1)).unwrap();
        assert_eq!(format!("{:?}", bench.fetch(Place(1))), format!("{:?}", alone(&job)));
    }
}
