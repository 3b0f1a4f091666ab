//! The line `run`: its kind and settings.
use super::fields::once;
use super::names::{choice, ANNEALING_SETTINGS, DAMPED_SETTINGS, MULTI_START_SETTINGS, RUNS};
use super::words::Words;
use crate::job::{Annealing, Damped, MultiStart, Run};

/// The kind of the run, then settings by name, each once.
pub fn run(mut words: Words) -> Result<Run, String> {
    let kind = words.one_of("run", &RUNS)?;
    let mut run = match kind {
        0 => Run::Damped(Damped::default()),
        1 => Run::MultiStart(MultiStart::default()),
        _ => Run::Annealing(Annealing::default()),
    };
    let mut seen = Vec::new();
    while let Some(word) = words.next() {
        once(&mut seen, word)?;
        let known = match &mut run {
            Run::Damped(d) => damped(d, word, &mut words)?,
            Run::MultiStart(m) => multi_start(m, word, &mut words)?,
            Run::Annealing(a) => annealing(a, word, &mut words)?,
        };
        if !known {
            return Err(format!("`{word}` is no setting of `run {}`: {}", RUNS[kind], choice(word, settings(&run))));
        }
    }
    Ok(run)
}

fn settings(run: &Run) -> &'static [&'static str] {
    match run {
        Run::Damped(_) => &DAMPED_SETTINGS,
        Run::MultiStart(_) => &MULTI_START_SETTINGS,
        Run::Annealing(_) => &ANNEALING_SETTINGS,
    }
}

fn damped(to: &mut Damped, word: &str, words: &mut Words) -> Result<bool, String> {
    match word {
        "iterations" => to.max_iterations = Some(words.whole_after(word)?),
        "damping" => to.initial_damping = Some(words.number_after(word)?),
        "merit-tolerance" => to.merit_tolerance = Some(words.number_after(word)?),
        "gradient-tolerance" => to.gradient_tolerance = Some(words.number_after(word)?),
        "relative-step" => to.relative_step = Some(words.number_after(word)?),
        _ => return Ok(false),
    }
    Ok(true)
}

fn multi_start(to: &mut MultiStart, word: &str, words: &mut Words) -> Result<bool, String> {
    match word {
        "trials" => to.trials = Some(words.whole_after(word)?),
        "seed" => to.seed = Some(words.whole_after(word)?),
        _ => return damped(&mut to.local, word, words),
    }
    Ok(true)
}

fn annealing(to: &mut Annealing, word: &str, words: &mut Words) -> Result<bool, String> {
    match word {
        "temperature" => to.temperature = Some(words.number_after(word)?),
        "cooling" => to.cooling_rate = Some(words.number_after(word)?),
        "steps" => to.steps = Some(words.whole_after(word)?),
        "cycles" => to.cycles = Some(words.whole_after(word)?),
        "seed" => to.seed = Some(words.whole_after(word)?),
        _ => return Ok(false),
    }
    Ok(true)
}
