//! `lensbench check`
use super::args::{Args, Known};
use super::out::Out;
use super::source::{read_all, Source};
use super::{report, warnings, Done};
use lensbench::{Bench, Place};

pub fn check(words: &[String]) -> Done {
    let args = Args::read(words, &Known { marks: &[], values: &[] })?;
    let sources = read_all(args.some_files()?, true);
    let mut out = Out::new();
    let mut status = 0;
    for source in &sources.jobs {
        status = status.max(check_one(source, &mut out)?);
    }
    out.flush()?;
    Ok(sources.status(status))
}

/// The bench has the word; the causes are found beside it.
fn check_one(source: &Source, out: &mut Out) -> Done {
    let entry = &source.entry;
    let warned = warnings::print(source);
    if let Err(refusal) = Bench::new().admit(Place(0), &entry.job) {
        report::refused(source, refusal);
        return Ok(1);
    }
    let warned = match warned {
        0 => String::new(),
        1 => ", 1 warning".to_string(),
        n => format!(", {n} warnings"),
    };
    out.put(&format!("{}: {}: would be taken{warned}; at most {} turns\n", source.at(entry.lines.job), entry.name, entry.job.turn_bound()))?;
    Ok(0)
}
