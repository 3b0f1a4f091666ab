//! An achromat from admission to release, as a quoting service would take it: `cargo run --example doublet`.
use lensbench::{Aim, Bench, Job, Lens, Operand, Place, Quantity, Refusal, Surface, Variable};

/// N-BK7 and SF5 in the lines F, d and C; the curvatures are free.
fn doublet() -> Job {
    let lens = Lens::new(3, 20.0)
        .surface(Surface::sphere(62.8, 4.0, 12.7), &[1.52238, 1.51680, 1.51432])
        .surface(Surface::sphere(-45.7, 2.5, 12.7), &[1.68750, 1.67270, 1.66661])
        .surface(Surface::sphere(-128.2, 97.1, 12.7), &[1.0; 3])
        .surface(Surface::flat(0.0, 12.7), &[1.0; 3]);
    let job = (0..3).fold(Job::new(lens), |job, i| job.vary(Variable::new(Quantity::Curvature, i).between(-0.05, 0.05)));
    job.want(Operand::new(Aim::FocalLength { slot: 1 }, 100.0))
        .want(Operand::new(Aim::BackFocus { slot: 0 }, 97.1))
        .want(Operand::new(Aim::BackFocus { slot: 2 }, 97.1))
}

fn main() -> Result<(), Refusal> {
    let job = doublet();
    let mut bench = Bench::new();
    let place = Place(0);
    bench.admit(place, &job)?;
    let turns = bench.play(place)?;
    let outcome = bench.fetch(place)?;
    bench.release(place)?;
    println!("merit {:e} at first, {:e} after {turns} of at most {} turns", outcome.first_merit, outcome.final_merit, job.turn_bound());
    for (i, surface) in outcome.surfaces.iter().enumerate() {
        println!("surface {}: radius {} thickness {}", i + 1, surface.radius_mm, surface.thickness_mm);
    }
    Ok(())
}
