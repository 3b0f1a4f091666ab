//! What is taken, and is hardly meant.
use super::out::say;
use super::report::line_of;
use super::source::Source;
use lensbench::causes::Part;
use lensbench::jobfile::{follower_name, quantity_name};
use lensbench::{shortest, Aim, Follower, Job, Operand, Quantity, Run, Variable};

/// Warnings on standard error, each with its line; answers how many.
pub fn print(source: &Source) -> usize {
    let found = warnings(&source.entry.job);
    for (part, what) in &found {
        say(&format!("{}: warning: {what}", source.at(line_of(&source.entry.lines, *part))));
    }
    found.len()
}

fn warnings(job: &Job) -> Vec<(Part, String)> {
    let mut found = Vec::new();
    if job.lens.surfaces.len() < 2 {
        found.push((Part::Job, "fewer than two surfaces have no trace: every paraxial operand counts as failed".to_string()));
    }
    for (i, s) in job.lens.surfaces.iter().enumerate() {
        if s.radius_mm.abs() < 1e-15 {
            found.push((Part::Surface(i), format!("radius {} is taken as flat; write `flat`", shortest(s.radius_mm))));
        }
    }
    for (i, indices) in job.lens.indices.iter().enumerate() {
        let thin = indices.iter().filter(|n| **n > 0.0 && **n < 1.0);
        found.extend(thin.map(|n| (Part::Surface(i), format!("index {} is below 1, that of no glass and not of air", shortest(*n)))));
    }
    for (i, v) in job.variables.iter().enumerate() {
        found.extend(of_variable(job, i, v).into_iter().map(|what| (Part::Variable(i), what)));
    }
    for (i, o) in job.operands.iter().enumerate() {
        found.extend(of_operand(job, o).into_iter().map(|what| (Part::Operand(i), what)));
    }
    if local_iterations(&job.run) == Some(0) {
        found.push((Part::Run, "iterations 0: no damped iteration is taken".to_string()));
    }
    found
}

fn local_iterations(run: &Run) -> Option<u64> {
    match run {
        Run::Damped(d) => d.max_iterations,
        Run::MultiStart(m) => m.local.max_iterations,
        Run::Annealing(_) => None,
    }
}

fn of_variable(job: &Job, i: usize, v: &Variable) -> Vec<String> {
    let mut found = Vec::new();
    let name = name_of(v.quantity, v.surface);
    let (least, greatest) = (shortest(v.least), shortest(v.greatest));
    if v.quantity == Quantity::Curvature && v.least.abs().max(v.greatest.abs()) > 1.0 {
        let example = shortest(1.0 / v.least.abs().max(v.greatest.abs()));
        found.push(format!("bounds {least} to {greatest} look like radii: those of a curvature are in 1/mm, {example} where a radius is meant"));
    }
    let starts = job.lens.surfaces.get(v.surface).map(|s| v.quantity.of(s));
    if let Some(x) = starts.filter(|x| v.enabled && (*x < v.least || *x > v.greatest)) {
        found.push(format!("{name} starts at {}, outside its bounds {least} to {greatest}", shortest(x)));
    }
    if v.enabled && v.least == v.greatest {
        found.push(format!("{name} cannot move: both its bounds are {least}"));
    }
    let of_edges = matches!(v.quantity, Quantity::Conic | Quantity::SemiDiameter);
    if v.enabled && starts.is_some() && of_edges && !job.operands.iter().any(|o| v.surfaces().any(|surface| at_edge(o, surface))) {
        found.push(format!("no operand depends on the {name}: it has a part in the edges before and behind it alone (edge-at-least)"));
    }
    found.extend(v.follower.and_then(|follower| of_follower(job, v, follower)));
    let earlier = |surface: usize| job.variables[..i].iter().any(|w| w.enabled && w.quantity == v.quantity && w.surfaces().any(|of| of == surface));
    for surface in v.surfaces().filter(|&surface| v.enabled && earlier(surface)) {
        found.push(format!("{} is varied twice: the later line has the last word", name_of(v.quantity, surface)));
    }
    found
}

fn name_of(quantity: Quantity, surface: usize) -> String {
    format!("{} of surface {}", quantity_name(quantity), surface as u128 + 1)
}

/// A follower that is the surface itself, or that the lens as given does not have where its variable would put it: such a lens stays if no step is taken.
fn of_follower(job: &Job, v: &Variable, follower: Follower) -> Option<String> {
    let name = follower_name(follower);
    if follower.surface() == v.surface {
        let effect = if follower == Follower::Plus(v.surface) { "changes nothing" } else { "leaves the opposite of each value there" };
        return Some(format!("{name} is the variable's own surface: it {effect}"));
    }
    let at = |surface: usize| job.lens.surfaces.get(surface).map(|s| v.quantity.of(s));
    let (due, is) = (follower.value(at(v.surface)?), at(follower.surface())?);
    let apart = v.enabled && due != is;
    apart.then(|| format!("{name}: {} starts at {}, and not at {}", name_of(v.quantity, follower.surface()), shortest(is), shortest(due)))
}

/// Whether an operand looks at an edge that a surface is one side of.
fn at_edge(o: &Operand, surface: usize) -> bool {
    matches!(o.aim, Aim::LeastEdgeThickness { surface: front, .. } if front == surface || front.checked_add(1) == Some(surface))
}

fn of_operand(job: &Job, o: &Operand) -> Vec<String> {
    let mut found = Vec::new();
    if let Some((surface, _)) = o.aim.surface_and_limit() {
        let count = job.lens.surfaces.len();
        if surface >= count {
            found.push(format!("surface {} is not there: the operand counts 100000 whatever the lens is", surface as u128 + 1));
        } else if matches!(o.aim, Aim::LeastEdgeThickness { .. }) && surface + 1 == count {
            found.push(format!("surface {count} is the last: it has no edge, and the operand counts 100000 whatever the lens is"));
        }
    }
    if o.weight == 0.0 {
        found.push("weight 0: the operand has no part in the merit".to_string());
    }
    found
}
