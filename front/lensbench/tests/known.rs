//! The specification's known values, through the crate.
#![allow(clippy::unwrap_used)]
mod common;
use common::known_lens;
use lensbench::*;

const AIMS: [Aim; 5] =
    [Aim::FocalLength { slot: 0 }, Aim::BackFocus { slot: 0 }, Aim::FNumber { slot: 0 }, Aim::Track, Aim::Magnification { slot: 0 }];

fn values(lens: &Lens) -> Vec<f64> {
    let operands: Vec<Operand> = AIMS.iter().map(|aim| Operand::new(*aim, 0.0)).collect();
    lens.evaluate(&operands).unwrap().values
}

fn played(job: &Job) -> (Outcome, u64) {
    let mut bench = Bench::new();
    bench.admit(Place(0), job).unwrap();
    let turns = bench.play(Place(0)).unwrap();
    (bench.fetch(Place(0)).unwrap(), turns)
}

#[test]
fn paraxial_values() {
    assert_eq!(values(&known_lens()), [64.0, 56.0, 8.0, 16.0, 0.875]);
}

#[test]
fn merit() {
    let got = known_lens().evaluate(&[Operand::new(Aim::FocalLength { slot: 0 }, 60.0).weight(4.0)]).unwrap();
    assert_eq!((got.residuals[0], got.merit), (8.0, 64.0));
    assert_eq!(known_lens().evaluate(&[]).unwrap().merit.to_bits(), 0);
}

#[test]
fn no_power_and_no_trace() {
    let mut flat = known_lens();
    flat.surfaces[0].radius_mm = f64::INFINITY;
    assert_eq!(values(&flat), [10_000.0, 10_000.0, 100.0, 16.0, 100_000.0]);
    let mut single = known_lens();
    single.surfaces.truncate(1);
    single.indices.truncate(1);
    assert_eq!(values(&single)[4], 0.0);
    assert_eq!(single.trace(0), Ok(None));
}

#[test]
fn rays() {
    // slope 4 / 64 / 2 down inside the glass, and 4 / 64 behind it
    let rays = known_lens().trace(0).unwrap().unwrap();
    assert_eq!(rays, [Ray { height_mm: 4.0, slope: -0.03125 }, Ray { height_mm: 3.5, slope: -0.0625 }]);
}

#[test]
fn centre_thickness() {
    let mut lens = known_lens();
    let least = [Operand::new(Aim::LeastCentreThickness { surface: 0, limit_mm: 3.0 }, 0.0)];
    lens.surfaces[0].thickness_mm = 2.0;
    assert_eq!(lens.evaluate(&least).unwrap().values, [-1.0]);
    lens.surfaces[0].thickness_mm = 3.0;
    assert_eq!(lens.evaluate(&least).unwrap().values, [0.0]);
}

/// Request 3: two surfaces with semi-diameter 8, the first with radius 8, thickness 16, and the second flat.
#[test]
fn edge_thickness() {
    let mut lens = known_lens();
    lens.surfaces[0] = Surface { radius_mm: 8.0, conic_constant: 0.0, thickness_mm: 16.0, semi_diameter_mm: 8.0 };
    lens.surfaces[1].semi_diameter_mm = 8.0;
    let value = |lens: &Lens, surface: usize, limit_mm: f64| {
        lens.evaluate(&[Operand::new(Aim::LeastEdgeThickness { surface, limit_mm }, 0.0)]).unwrap().values[0]
    };
    assert_eq!((value(&lens, 0, 10.0), value(&lens, 0, 8.0)), (-2.0, 0.0));
    // the last surface has no successor, and a number past it none either
    assert_eq!([1, 2, usize::MAX].map(|surface| value(&lens, surface, 10.0)), [100_000.0; 3]);
    lens.surfaces[0].conic_constant = -1.0;
    assert_eq!((value(&lens, 0, 13.0), value(&lens, 0, 12.0)), (-1.0, 0.0));
    lens.surfaces[0].conic_constant = 3.0;
    assert_eq!(value(&lens, 0, 10.0), 100_000.0);
}

#[test]
fn square_root_of_two() {
    // track 16 against 15 with weight 2: the residual is the root times 1
    let got = known_lens().evaluate(&[Operand::new(Aim::Track, 15.0).weight(2.0)]).unwrap();
    assert_eq!(got.residuals[0].to_bits(), 0x3FF6A09E667F3BCD);
}

fn held() -> Job {
    let variable = Variable::new(Quantity::Thickness, 0).between(16.0, 16.0);
    Job::new(known_lens()).vary(variable).want(Operand::new(Aim::FocalLength { slot: 0 }, 60.0).weight(4.0))
}

#[test]
fn held_jobs() {
    let (out, turns) = played(&held());
    assert_eq!((turns, out.iterations, out.converged, out.first_merit, out.final_merit), (3, 1, true, 64.0, 64.0));
    let no_gradient = Damped { gradient_tolerance: Some(0.0), ..Damped::default() };
    let (out, turns) = played(&held().run(Run::Damped(no_gradient)));
    assert_eq!((turns, out.converged), (13, false));
    let (_, turns) = played(&held().run(Run::Damped(Damped { initial_damping: Some(0.0), ..no_gradient })));
    assert_eq!(turns, 3);
    let (out, turns) = played(&held().run(Run::Damped(Damped { max_iterations: Some(0), ..Damped::default() })));
    assert_eq!((turns, out.converged, out.iterations), (1, false, 0));
}

/// A multi-start of one trial without iterations, where the drawn lens is better than the base: its surfaces are the draw.
fn drawn(quantity: Quantity, least: f64, greatest: f64, want: Operand, seed: u64) -> Surface {
    let local = Damped { max_iterations: Some(0), ..Damped::default() };
    let job = Job::new(known_lens()).vary(Variable::new(quantity, 0).between(least, greatest)).want(want);
    let (out, turns) = played(&job.run(Run::MultiStart(MultiStart { local, trials: Some(1), seed: Some(seed) })));
    assert_eq!(turns, 2);
    out.surfaces[0]
}

#[test]
fn first_draw_of_seed_one() {
    let got = drawn(Quantity::Thickness, 0.0, 1.0, Operand::new(Aim::Track, 0.0), 1);
    assert_eq!(got.thickness_mm, (0x40822041u64 >> 11) as f64 / (1u64 << 53) as f64);
}

#[test]
fn small_curvatures() {
    // without power the focal length counts 10,000
    let want = Operand::new(Aim::FocalLength { slot: 0 }, 10_000.0);
    assert_eq!(drawn(Quantity::Curvature, -1e-13, -1e-13, want, 1).radius_mm, f64::INFINITY);
    // with little power the back focus is nearly the focal length
    let want = Operand::new(Aim::Magnification { slot: 0 }, 1.0);
    assert_eq!(drawn(Quantity::Curvature, 1e-12, 1e-12, want, 1).radius_mm, 1e12);
}

/// Request 9: what is drawn for one surface, and what its follower gets.
fn drawn_pair(variable: Variable, want: Operand) -> [Surface; 2] {
    let local = Damped { max_iterations: Some(0), ..Damped::default() };
    let job = Job::new(known_lens()).vary(variable).want(want);
    let (out, turns) = played(&job.run(Run::MultiStart(MultiStart { local, trials: Some(1), seed: Some(1) })));
    assert_eq!((turns, out.surfaces.len()), (2, 2));
    [out.surfaces[0], out.surfaces[1]]
}

#[test]
fn followers() {
    let curvature = |c: f64| Variable::new(Quantity::Curvature, 0).between(c, c);
    let radii = |variable: Variable, want: Operand| drawn_pair(variable, want).map(|s| s.radius_mm);
    // radius 8 and its mirror image have focal length 8, which is nearer to 0 than 64
    let near = Operand::new(Aim::FocalLength { slot: 0 }, 0.0);
    assert_eq!(radii(curvature(0.125).opposite_at(1), near), [8.0, -8.0]);
    let no_power = Operand::new(Aim::FocalLength { slot: 0 }, 10_000.0);
    assert_eq!(radii(curvature(-1e-13).opposite_at(1), no_power), [f64::INFINITY; 2]);
    assert_eq!(radii(curvature(0.0).opposite_at(1), no_power), [f64::INFINITY; 2]);
    // the clamped value, and no other quantity
    let thickness = Variable::new(Quantity::Thickness, 0).between(2.0, 2.0).same_at(1);
    let pair = drawn_pair(thickness, Operand::new(Aim::Track, 0.0));
    assert_eq!(pair.map(|s| (s.thickness_mm, s.semi_diameter_mm)), [(2.0, 10.0); 2]);
    // the surface itself: plus changes nothing, minus leaves the negated value
    assert_eq!(radii(curvature(0.125).same_at(0), near)[0], 8.0);
    assert_eq!(radii(curvature(0.125).opposite_at(0), Operand::new(Aim::FocalLength { slot: 0 }, -8.0))[0], -8.0);
}

/// A lens that is its own mirror image stays so, to the bit, in each of the three runs; and one that is not is handed back as it is where no step is taken.
#[test]
fn a_symmetric_lens_stays_symmetric() {
    let lens = Lens::new(1, 4.0)
        .surface(Surface::sphere(30.0, 4.0, 10.0).conic(-0.5), &[1.6])
        .surface(Surface::sphere(-200.0, 6.0, 10.0), &[1.0])
        .surface(Surface::sphere(200.0, 4.0, 10.0), &[1.6])
        .surface(Surface::sphere(-30.0, 0.0, 10.0).conic(-0.5), &[1.0]);
    let job = Job::new(lens)
        .vary(Variable::new(Quantity::Curvature, 0).between(-0.05, 0.05).opposite_at(3))
        .vary(Variable::new(Quantity::Curvature, 1).between(-0.05, 0.05).opposite_at(2))
        .vary(Variable::new(Quantity::Thickness, 0).between(2.0, 9.0).same_at(2))
        .vary(Variable::new(Quantity::Conic, 0).between(-2.0, 1.0).same_at(3))
        .want(Operand::new(Aim::FocalLength { slot: 0 }, 40.0))
        .want(Operand::new(Aim::BackFocus { slot: 0 }, 31.0))
        .want(Operand::new(Aim::LeastEdgeThickness { surface: 0, limit_mm: 1.5 }, 0.0));
    for run in [Run::Damped(Damped::default()), Run::MultiStart(MultiStart::default()), Run::Annealing(Annealing::default())] {
        let (out, _) = played(&job.clone().run(run));
        let [a, b, c, d] = out.surfaces[..] else { panic!("four surfaces") };
        assert!(out.final_merit < out.first_merit || out.first_merit == 0.0, "{run:?}");
        assert_eq!([a.radius_mm, b.radius_mm].map(f64::to_bits), [-d.radius_mm, -c.radius_mm].map(f64::to_bits), "{run:?}");
        assert_eq!([a.thickness_mm, a.conic_constant].map(f64::to_bits), [c.thickness_mm, d.conic_constant].map(f64::to_bits), "{run:?}");
        assert_eq!((b.thickness_mm, d.thickness_mm, b.conic_constant, c.conic_constant), (6.0, 0.0, 0.0, 0.0));
    }
    let mut apart = job.run(Run::Damped(Damped { max_iterations: Some(0), ..Damped::default() }));
    apart.lens.surfaces[3].radius_mm = -31.0;
    assert_eq!(played(&apart).0.surfaces, apart.lens.surfaces);
}

#[test]
fn naming_a_default_makes_the_same_job() {
    let runs = [
        (Run::Damped(Damped::default()), Run::Damped(Damped::DEFAULT)),
        (Run::MultiStart(MultiStart::default()), Run::MultiStart(MultiStart::DEFAULT)),
        (Run::Annealing(Annealing::default()), Run::Annealing(Annealing::DEFAULT)),
    ];
    for (left_out, named) in runs {
        let bytes = |run: Run| {
            let mut bench = Bench::new();
            bench.admit(Place(0), &held().run(run)).unwrap();
            bench.saved()
        };
        assert_eq!(bytes(left_out), bytes(named), "{left_out:?}");
        assert_eq!(held().run(left_out).turn_bound(), held().run(named).turn_bound());
    }
    assert_eq!(held().turn_bound(), 1 + 50 * 12);
    assert_eq!(held().run(Run::MultiStart(MultiStart::default())).turn_bound(), 11 * (1 + 20 * 12));
    assert_eq!(held().run(Run::Annealing(Annealing::default())).turn_bound(), 1 + 25 * 15 + 1 + 25 * 12);
}

/// Limits equal to the thicknesses give the trace on both ends; wider ones hold every trace between them; crossed ones are refused.
#[test]
fn thickness_within_limits() {
    let lens = known_lens();
    let exact: Vec<Interval> = lens.surfaces.iter().map(|s| Interval { low: s.thickness_mm, high: s.thickness_mm }).collect();
    let rays = lens.trace(0).unwrap().unwrap();
    let nominal = lens.trace_limits(&exact, 0).unwrap();
    assert_eq!(nominal.track_mm, Interval { low: 16.0, high: 16.0 });
    for (k, ray) in rays.iter().enumerate() {
        assert_eq!(nominal.heights_mm[k], Interval { low: ray.height_mm, high: ray.height_mm });
        assert_eq!(nominal.slopes[k], Interval { low: ray.slope, high: ray.slope });
    }
    let mut wide = exact.clone();
    wide[0] = Interval { low: 8.0, high: 24.0 };
    let limits = lens.trace_limits(&wide, 0).unwrap();
    for thickness_mm in [8.0, 11.5, 16.0, 24.0] {
        let mut other = lens.clone();
        other.surfaces[0].thickness_mm = thickness_mm;
        for (k, ray) in other.trace(0).unwrap().unwrap().iter().enumerate() {
            assert!(limits.heights_mm[k].low <= ray.height_mm && ray.height_mm <= limits.heights_mm[k].high);
            assert!(limits.slopes[k].low <= ray.slope && ray.slope <= limits.slopes[k].high);
        }
    }
    assert!(limits.heights_mm[1].low < limits.heights_mm[1].high);
    wide[0] = Interval { low: 24.0, high: 8.0 };
    assert_eq!(lens.trace_limits(&wide, 0), Err(Refusal::ThicknessLimits));
    assert_eq!(lens.trace_limits(&exact[..1], 0), Err(Refusal::Counts));
}

/// Fewest working turns first, equal ones by rising place.
#[test]
fn finished_places_come_by_their_turns() {
    let short = |limit| Job {
        run: Run::Damped(Damped { max_iterations: Some(limit), ..Damped::default() }),
        ..Job::new(known_lens()).vary(Variable::new(Quantity::Curvature, 0)).want(Operand::new(Aim::FocalLength { slot: 0 }, 60.0))
    };
    let mut bench = Bench::new();
    let mut turns = Vec::new();
    for (place, limit) in [(0, 3), (1, 0), (2, 1), (3, 0)] {
        bench.admit(Place(place), &short(limit)).unwrap();
        turns.push(bench.play(Place(place)).unwrap());
    }
    assert!(turns[1] == turns[3] && turns[3] < turns[2] && turns[2] < turns[0], "{turns:?}");
    assert_eq!(bench.finished_places(), [Place(1), Place(3), Place(2), Place(0)]);
}
