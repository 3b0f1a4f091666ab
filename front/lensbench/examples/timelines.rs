//! Job lines through the crate, timed, as `oracle timelines` times the original: each job is admitted to a place in rotation, played, fetched, released.
//! `timelines ROUNDS < jobs` prints the turns and nanoseconds of all rounds, a digest of the final merits, and the number of jobs.
use lensbench::lines::Line;
use lensbench::{Bench, Job, Place, Refusal};
use std::time::Instant;

fn round(bench: &mut Bench, jobs: &[Job], digest: &mut u64) -> Result<u64, Refusal> {
    let mut turns = 0;
    for (i, job) in jobs.iter().enumerate() {
        let place = Place(i % 4);
        bench.admit(place, job)?;
        turns += bench.play(place)?;
        let outcome = bench.fetch(place)?;
        bench.release(place)?;
        *digest = digest.wrapping_mul(31).wrapping_add(outcome.final_merit.to_bits());
    }
    Ok(turns)
}

fn main() -> Result<(), Box<dyn std::error::Error>> {
    let rounds: u32 = std::env::args().nth(1).map_or(Ok(1), |word| word.parse())?;
    let text = std::io::read_to_string(std::io::stdin())?;
    let jobs = text.lines().map(|line| Line::of_text(line).map(|line| line.job)).collect::<Result<Vec<Job>, String>>()?;
    let (mut bench, mut turns, mut digest) = (Bench::new(), 0, 0);
    let from = Instant::now();
    for _ in 0..rounds {
        turns += round(&mut bench, &jobs, &mut digest)?;
    }
    println!("{turns} {} {digest:016x} {}", from.elapsed().as_nanos(), jobs.len() * rounds as usize);
    Ok(())
}
