//! A result for people.
use super::bits;
use super::columns::{columns, Align};
use super::report::{changed, share, Found};
use super::source::Source;
use lensbench::jobfile::{aim_name, run_name, Entry};
use lensbench::{shortest, Refusal, Run, Surface};

pub fn refused(source: &Source, refusal: Refusal) -> String {
    format!("{} ({}): {refusal}\n\n", source.entry.name, source.at(source.entry.lines.job))
}

pub fn found(found: &Found, with_bits: bool) -> String {
    let (entry, outcome) = (found.entry(), found.outcome);
    let mut text = format!("{} ({})\n", entry.name, found.source.at(entry.lines.job));
    text += &merits(found);
    text += &effort(found);
    text += "\n";
    text += &prescription(entry, &outcome.surfaces);
    text += "\n";
    text += &operands(entry, &outcome.values, &outcome.residuals, outcome.final_merit);
    if with_bits {
        text += "\n";
        text += &bits::found(found);
    }
    text + "\n"
}

fn merits(found: &Found) -> String {
    let outcome = found.outcome;
    let own_start = matches!(found.entry().job.run, Run::MultiStart(_));
    let began = if own_start { format!("; the run that won began at {}", shortest(outcome.first_merit)) } else { String::new() };
    format!("  merit {} as given, {} found{began}\n", shortest(found.given_merit), shortest(outcome.final_merit))
}

fn effort(found: &Found) -> String {
    let (outcome, job) = (found.outcome, &found.entry().job);
    let how = if outcome.converged { "converged" } else { "not converged" };
    let iterations = if outcome.iterations == 1 { "iteration" } else { "iterations" };
    format!("  {}: {} {iterations}, {} of at most {} turns, {how}\n", run_name(&job.run), outcome.iterations, found.turns, job.turn_bound())
}

/// The surfaces as they are now; what differs from the job's own is marked.
pub fn prescription(entry: &Entry, now: &[Surface]) -> String {
    let lens = &entry.job.lens;
    let mut any = false;
    let rows: Vec<Vec<String>> = now
        .iter()
        .enumerate()
        .map(|(i, s)| {
            let marks = changed(&lens.surfaces[i], s);
            any |= marks.contains(&true);
            let cell = |x: f64, mark: bool| format!("{}{}", length(x), if mark { "*" } else { "" });
            let numbers = s.columns().into_iter().zip(marks).map(|(x, mark)| cell(x, mark));
            [(i + 1).to_string()].into_iter().chain(numbers).chain(indices(&lens.indices[i])).collect()
        })
        .collect();
    let named: Vec<String> = entry.slots.iter().map(|slot| format!("index {slot}")).collect();
    let fixed = [
        ("surface", Align::Left),
        ("radius mm", Align::Point),
        ("thickness mm", Align::Point),
        ("semi-diameter mm", Align::Point),
        ("conic", Align::Point),
    ];
    let heads: Vec<(&str, Align)> = fixed.into_iter().chain(named.iter().map(|name| (name.as_str(), Align::Point))).collect();
    columns(&heads, &rows, "  ") + if any { "  * changed by the run\n" } else { "" }
}

fn length(x: f64) -> String {
    if x == f64::INFINITY {
        "flat".to_string()
    } else {
        shortest(x)
    }
}

fn indices(of: &[f64]) -> Vec<String> {
    if of.iter().all(|n| *n == 1.0) {
        vec!["air".to_string(); of.len()]
    } else {
        of.iter().map(|n| shortest(*n)).collect()
    }
}

/// The operands by name, with the part of the merit that each has.
pub fn operands(entry: &Entry, values: &[f64], residuals: &[f64], merit: f64) -> String {
    let rows: Vec<Vec<String>> = entry
        .job
        .operands
        .iter()
        .enumerate()
        .map(|(i, o)| {
            let part = share(residuals[i], merit).map_or("-".to_string(), |part| format!("{:.1} %", 100.0 * part));
            let numbers = [values[i], o.target, o.weight, residuals[i]].map(shortest);
            [aim_name(&o.aim, &entry.slots)].into_iter().chain(numbers).chain([part]).collect()
        })
        .collect();
    let heads = [
        ("operand", Align::Left),
        ("value", Align::Point),
        ("target", Align::Point),
        ("weight", Align::Point),
        ("residual", Align::Point),
        ("of the merit", Align::Point),
    ];
    columns(&heads, &rows, "  ")
}
