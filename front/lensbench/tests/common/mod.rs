//! What the tests share: a small generator, random jobs, and answers as the program `replay` writes them.
#![allow(dead_code, clippy::unwrap_used, clippy::expect_used)]
use lensbench::lines::{bits, Call, Line};
use lensbench::{Aim, Annealing, Bench, Damped, Follower, Job, Lens, MultiStart, Operand, Place, Quantity, Refusal, Run, Surface, Variable};
use std::io::Write;
use std::path::PathBuf;
use std::process::{Command, Output, Stdio};

/// Marsaglia's xorshift.
pub struct Dice(pub u64);

impl Dice {
    pub fn next(&mut self) -> u64 {
        self.0 ^= self.0 << 13;
        self.0 ^= self.0 >> 7;
        self.0 ^= self.0 << 17;
        self.0
    }
    pub fn below(&mut self, n: usize) -> usize {
        ((self.next() >> 16) % n as u64) as usize
    }
    pub fn between(&mut self, a: f64, b: f64) -> f64 {
        a + (b - a) * ((self.next() >> 11) as f64 / (1u64 << 53) as f64)
    }
    pub fn chance(&mut self, one_in: usize) -> bool {
        self.below(one_in) == 0
    }
    pub fn pick<T: Copy>(&mut self, from: &[T]) -> T {
        from[self.below(from.len())]
    }
}

/// Numbers at and beyond the bounds of the refusals.
const ODD: [f64; 18] = [
    0.0,
    -0.0,
    1.0,
    -1.0,
    5e-324,
    1e-16,
    1e-12,
    1e6,
    1e8,
    1.0000001e8,
    1e9,
    -1e9,
    1.0000001e9,
    1e300,
    f64::MAX,
    f64::INFINITY,
    f64::NEG_INFINITY,
    f64::NAN,
];

fn surface(d: &mut Dice) -> Surface {
    let radius = if d.chance(5) { f64::INFINITY } else { d.between(8.0, 200.0) * d.pick(&[1.0, -1.0]) };
    Surface {
        radius_mm: radius,
        conic_constant: d.pick(&[0.0, 0.0, -1.0, 0.5]),
        thickness_mm: d.between(0.0, 12.0),
        semi_diameter_mm: d.between(2.0, 20.0),
    }
}

fn lens(d: &mut Dice) -> Lens {
    let slots = 1 + d.below(4);
    let mut lens = Lens::new(slots, d.between(1.0, 20.0));
    let count = if d.chance(12) { d.below(17) } else { 2 + d.below(8) };
    for i in 0..count {
        let base = d.between(1.45, 1.9);
        let indices: Vec<f64> = (0..slots).map(|w| if i % 2 == 1 { 1.0 } else { base - 0.006 * w as f64 }).collect();
        lens.push(surface(d), &indices);
    }
    lens
}

fn variable(d: &mut Dice, lens: &Lens) -> Variable {
    let quantity =
        d.pick(&[Quantity::Curvature, Quantity::Curvature, Quantity::Thickness, Quantity::Thickness, Quantity::Conic, Quantity::SemiDiameter]);
    let mut variable = Variable::new(quantity, d.below(lens.surfaces.len().max(1)));
    variable.enabled = !d.chance(8);
    let variable = match quantity {
        Quantity::Curvature => variable.between(d.between(-0.1, 0.0), d.between(0.0, 0.1)),
        Quantity::Thickness => variable.between(d.between(0.0, 2.0), d.between(2.0, 30.0)),
        _ => variable,
    };
    let at = d.below(lens.surfaces.len().max(1));
    let has_opposite = matches!(quantity, Quantity::Curvature | Quantity::Conic);
    match d.below(6) {
        0 if has_opposite => variable.opposite_at(at),
        0 | 1 => variable.same_at(at),
        _ => variable,
    }
}

fn operand(d: &mut Dice, lens: &Lens) -> Operand {
    let (slot, surface, limit_mm) = (d.below(lens.slots), d.below(lens.surfaces.len() + 1), d.between(0.5, 9.0));
    let (aim, target) = match d.below(8) {
        0 => (Aim::FocalLength { slot }, d.between(20.0, 150.0)),
        1 => (Aim::FNumber { slot }, d.between(2.0, 12.0)),
        2 => (Aim::Track, d.between(10.0, 80.0)),
        3 => (Aim::BackFocus { slot }, d.between(5.0, 120.0)),
        4 => (Aim::Magnification { slot }, d.between(-1.0, 1.0)),
        5 => (Aim::LeastCentreThickness { surface, limit_mm }, 0.0),
        6 => (Aim::GreatestCentreThickness { surface, limit_mm }, 0.0),
        _ => (Aim::LeastEdgeThickness { surface, limit_mm }, 0.0),
    };
    Operand { aim, target, weight: d.pick(&[1.0, 1.0, 0.25, 3.0, 100.0, 0.0]) }
}

fn some<T>(d: &mut Dice, one_in: usize, value: T) -> Option<T> {
    d.chance(one_in).then_some(value)
}

fn damped(d: &mut Dice) -> Damped {
    let (iterations, damping, step) = (d.below(12) as u64, d.pick(&[0.0, 1e-3, 1.0, 50.0]), d.pick(&[0.0, 1e-6, 1e-3]));
    Damped {
        max_iterations: some(d, 2, iterations),
        initial_damping: some(d, 4, damping),
        merit_tolerance: some(d, 6, 0.0),
        gradient_tolerance: some(d, 6, 0.0),
        relative_step: some(d, 6, step),
    }
}

pub fn run(d: &mut Dice) -> Run {
    let (few, seed) = (d.below(5) as u64, d.next());
    match d.below(4) {
        0 | 1 => Run::Damped(damped(d)),
        2 => Run::MultiStart(MultiStart {
            local: Damped { max_iterations: Some(few), ..damped(d) },
            trials: Some(d.below(4) as u64),
            seed: some(d, 2, seed),
        }),
        _ => {
            let (temperature, cooling) = (d.pick(&[0.0, 5.0, 500.0]), d.between(0.0, 1.0));
            Run::Annealing(Annealing {
                temperature: some(d, 3, temperature),
                cooling_rate: some(d, 3, cooling),
                steps: Some(d.below(12) as u64),
                cycles: Some(d.below(12) as u64),
                seed: some(d, 2, seed),
            })
        }
    }
}

/// A job that is taken, as a rule.
pub fn job(d: &mut Dice) -> Job {
    let mut job = Job::new(lens(d));
    let (variables, operands) = if d.chance(4) { (8, 12) } else { (3, 4) };
    for _ in 0..1 + d.below(variables) {
        job.variables.push(variable(d, &job.lens));
    }
    for _ in 0..1 + d.below(operands) {
        job.operands.push(operand(d, &job.lens));
    }
    job.run = run(d);
    job
}

/// The job with one number of it set to another, mostly one that is refused.
pub fn faulty(d: &mut Dice) -> Job {
    let mut job = job(d);
    let odd = d.pick(&ODD);
    let (s, v, o) = (d.below(job.lens.surfaces.len().max(1)), d.below(job.variables.len()), d.below(job.operands.len()));
    let (slots, kinds) = (job.lens.slots, d.below(21));
    if let (Some(surface), Some(indices)) = (job.lens.surfaces.get_mut(s), job.lens.indices.get_mut(s)) {
        match kinds {
            0 => surface.radius_mm = odd,
            1 => surface.conic_constant = odd,
            2 => surface.thickness_mm = odd,
            3 => surface.semi_diameter_mm = odd,
            4 => indices[d.below(slots)] = odd,
            _ => {}
        }
    }
    match kinds {
        5 => job.lens.pupil_mm = odd,
        6 => job.variables[v].least = odd,
        7 => job.variables[v].greatest = odd,
        8 => job.variables[v].step = odd,
        9 => job.variables[v].surface = d.pick(&[16, 255, usize::MAX]),
        10 => job.operands[o].target = odd,
        11 => job.operands[o].weight = odd,
        12 => {
            job.operands[o].aim =
                d.pick(&[Aim::LeastCentreThickness { surface: s, limit_mm: odd }, Aim::LeastEdgeThickness { surface: s, limit_mm: odd }])
        }
        13 => job.operands[o].aim = Aim::BackFocus { slot: d.pick(&[4, 17, usize::MAX]) },
        14 => job.variables.clear(),
        15 => job.operands.clear(),
        16 => job.variables = vec![job.variables[v]; 7 + d.below(4)],
        17 => job.operands = vec![job.operands[o]; 11 + d.below(4)],
        18 => job.lens = wider(&job.lens, 13 + d.below(6)),
        19 => job.variables[v].follower = Some(d.pick(&[Follower::Plus(16), Follower::Minus(usize::MAX), Follower::Minus(s)])),
        _ => job.run = odd_run(d, odd),
    }
    job
}

fn wider(lens: &Lens, surfaces: usize) -> Lens {
    let mut wide = Lens::new(lens.slots, lens.pupil_mm);
    for _ in 0..surfaces {
        wide.push(Surface::sphere(50.0, 1.0, 5.0), &vec![1.5; lens.slots]);
    }
    wide
}

fn odd_run(d: &mut Dice, odd: f64) -> Run {
    let count = Some(d.pick(&[0, 3, 1000, 1001, u64::MAX]));
    let few = Some(2);
    match d.below(9) {
        0 => Run::Damped(Damped { max_iterations: count, ..Damped::default() }),
        1 => Run::Damped(Damped { initial_damping: Some(odd), ..Damped::default() }),
        2 => Run::Damped(Damped { merit_tolerance: Some(odd), ..Damped::default() }),
        3 => Run::Damped(Damped { gradient_tolerance: Some(odd), ..Damped::default() }),
        4 => Run::MultiStart(MultiStart {
            local: Damped { relative_step: Some(odd), max_iterations: few, ..Damped::default() },
            trials: few,
            seed: None,
        }),
        5 => Run::MultiStart(MultiStart { local: Damped { max_iterations: Some(0), ..Damped::default() }, trials: count, seed: None }),
        6 => Run::Annealing(Annealing { temperature: Some(odd), ..Annealing::default() }),
        7 => Run::Annealing(Annealing { cooling_rate: Some(odd), ..Annealing::default() }),
        _ => Run::Annealing(Annealing { steps: Some(1), cycles: count, ..Annealing::default() }),
    }
}

/// The answer of `replay` to a line, without its digest.
pub fn answer(line: &Line) -> String {
    let words = match line.call {
        Call::Run => run_answer(line),
        Call::Evaluate => evaluate_answer(line),
        Call::Trace { slot } => trace_answer(line, slot),
    };
    words.unwrap_or_else(|refusal| format!("R {} {} refused {}", line.id, kind(line), refusal.number()))
}

fn kind(line: &Line) -> u8 {
    match (line.call, &line.job.run) {
        (Call::Run, Run::Damped(_)) => 1,
        (Call::Run, Run::MultiStart(_)) => 2,
        (Call::Run, Run::Annealing(_)) => 3,
        (Call::Evaluate, _) => 4,
        (Call::Trace { .. }, _) => 5,
    }
}

fn word(x: f64) -> String {
    if x.is_nan() {
        "nan".to_string()
    } else {
        bits(x)
    }
}

fn list(tag: &str, numbers: &[f64]) -> String {
    let words: String = numbers.iter().map(|x| format!(" {}", word(*x))).collect();
    format!("{tag} {}{words}", numbers.len())
}

fn run_answer(line: &Line) -> Result<String, Refusal> {
    let mut bench = Bench::new();
    bench.admit(Place(1), &line.job)?;
    let turns = bench.play(Place(1))?;
    assert!(turns <= line.job.turn_bound(), "{}: {turns} turns, bound {}", line.id, line.job.turn_bound());
    let out = bench.fetch(Place(1))?;
    let surfaces: String = out
        .surfaces
        .iter()
        .flat_map(|s| [s.radius_mm, s.conic_constant, s.thickness_mm, s.semi_diameter_mm])
        .map(|x| format!(" {}", word(x)))
        .collect();
    let head = format!(
        "R {} {} M {} {} N {} {} {turns}",
        line.id,
        kind(line),
        word(out.first_merit),
        word(out.final_merit),
        out.iterations,
        out.converged as u8
    );
    Ok(format!("{head} S {}{surfaces} {} {}", out.surfaces.len(), list("V", &out.values), list("D", &out.residuals)))
}

fn evaluate_answer(line: &Line) -> Result<String, Refusal> {
    let got = line.job.evaluate()?;
    Ok(format!("R {} 4 M {} {} {}", line.id, word(got.merit), list("V", &got.values), list("D", &got.residuals)))
}

/// `replay` adds focal length, back focus and f-number behind ` P `: no call of the bench answers those raw.
fn trace_answer(line: &Line, slot: usize) -> Result<String, Refusal> {
    Ok(match line.job.lens.trace(slot)? {
        Some(rays) => {
            let rays_text: String = rays.iter().map(|r| format!(" {} {}", word(r.height_mm), word(r.slope))).collect();
            format!("R {} 5 ok T {}{rays_text}", line.id, rays.len())
        }
        None => format!("R {} 5 failed", line.id),
    })
}

/// The repository's top.
pub fn top() -> PathBuf {
    PathBuf::from(env!("CARGO_MANIFEST_DIR")).join("../..")
}

/// 01's known lens: radius 64, thickness 16, index 2; then flat, thickness 0, index 1; pupil 8.
pub fn known_lens() -> Lens {
    Lens::new(1, 8.0).surface(Surface::sphere(64.0, 16.0, 10.0), &[2.0]).surface(Surface::flat(0.0, 10.0), &[1.0])
}

/// The command with these words and this standard input: its status, output and what it says.
pub fn lensbench(words: &[&str], input: impl AsRef<[u8]>) -> (i32, String, String) {
    let mut child = Command::new(env!("CARGO_BIN_EXE_lensbench"))
        .args(words)
        .stdin(Stdio::piped())
        .stdout(Stdio::piped())
        .stderr(Stdio::piped())
        .spawn()
        .unwrap();
    // a command that does not read its input may be gone already
    let _ = child.stdin.take().unwrap().write_all(input.as_ref());
    let Output { status, stdout, stderr } = child.wait_with_output().unwrap();
    (status.code().unwrap(), String::from_utf8(stdout).unwrap(), String::from_utf8(stderr).unwrap())
}

/// A file of examples/.
pub fn example(name: &str) -> String {
    top().join("examples").join(name).to_str().unwrap().to_string()
}
