//! A job as a file that reads back to the same bits.
use super::names::{aim_name, follower_name, quantity_name, run_name};
use super::Entry;
use crate::format::shortest;
use crate::job::{Annealing, Damped, Run};
use crate::lens::{Operand, Surface, Variable};

/// The job as a file has it. The line `run` is left out where the entry has none.
pub fn write(entry: &Entry) -> String {
    let lens = &entry.job.lens;
    let mut lines =
        vec![format!("job {}", name(&entry.name)), format!("slots {}", entry.slots.join(" ")), format!("pupil {}", shortest(lens.pupil_mm))];
    lines.push("# radius, thickness, semi-diameter, conic, index behind it in each slot".to_string());
    lines.extend(lens.surfaces.iter().zip(&lens.indices).map(|(s, n)| surface(s, n)));
    lines.extend(entry.job.variables.iter().map(variable));
    lines.extend(entry.job.operands.iter().map(|o| operand(o, &entry.slots)));
    if entry.lines.run.is_some() {
        lines.push(run(&entry.job.run));
    }
    lines.join("\n") + "\n"
}

/// A word of a name that would read as a comment gets another first letter, and what is no text another one.
fn name(of: &str) -> String {
    of.replace(|c: char| c.is_control() && !c.is_whitespace(), "_")
        .split_whitespace()
        .map(|word| word.strip_prefix('#').map_or(word.to_string(), |rest| format!("_{rest}")))
        .collect::<Vec<_>>()
        .join(" ")
}

fn surface(s: &Surface, indices: &[f64]) -> String {
    let [radius, others @ ..] = s.columns();
    let radius = if radius == f64::INFINITY { "flat".to_string() } else { shortest(radius) };
    let air = !indices.is_empty() && indices.iter().all(|n| *n == 1.0);
    let indices = if air { vec!["air".to_string()] } else { indices.iter().map(|n| shortest(*n)).collect() };
    let words: Vec<String> = [radius].into_iter().chain(others.map(shortest)).chain(indices).collect();
    format!("surface {}", words.join(" "))
}

fn variable(v: &Variable) -> String {
    let off = if v.enabled { "" } else { " off" };
    let follower = v.follower.map_or(String::new(), |follower| format!(" {}", follower_name(follower)));
    let [least, greatest, step] = [v.least, v.greatest, v.step].map(shortest);
    format!("vary {} {} from {least} to {greatest} step {step}{follower}{off}", quantity_name(v.quantity), v.surface as u128 + 1)
}

fn operand(o: &Operand, slots: &[String]) -> String {
    let limit = o.aim.surface_and_limit();
    let target = if limit.is_some() && o.target.to_bits() == 0 { String::new() } else { format!(" target {}", shortest(o.target)) };
    let weight = if o.weight == 1.0 { String::new() } else { format!(" weight {}", shortest(o.weight)) };
    format!("want {}{target}{weight}", aim_name(&o.aim, slots))
}

/// The line `run`, with the settings that are given.
fn run(run: &Run) -> String {
    let settings = match run {
        Run::Damped(d) => damped(d),
        Run::MultiStart(m) => [damped(&m.local), given("trials", m.trials), given("seed", m.seed)].concat(),
        Run::Annealing(a) => annealing(a),
    };
    format!("run {}{settings}", run_name(run))
}

fn given<T: ToString>(name: &str, value: Option<T>) -> String {
    value.map_or(String::new(), |v| format!(" {name} {}", v.to_string()))
}

fn damped(d: &Damped) -> String {
    [
        given("iterations", d.max_iterations),
        given("damping", d.initial_damping.map(shortest)),
        given("merit-tolerance", d.merit_tolerance.map(shortest)),
        given("gradient-tolerance", d.gradient_tolerance.map(shortest)),
        given("relative-step", d.relative_step.map(shortest)),
    ]
    .concat()
}

fn annealing(a: &Annealing) -> String {
    [
        given("temperature", a.temperature.map(shortest)),
        given("cooling", a.cooling_rate.map(shortest)),
        given("steps", a.steps),
        given("cycles", a.cycles),
        given("seed", a.seed),
    ]
    .concat()
}
