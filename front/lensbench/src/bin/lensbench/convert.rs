//! `lensbench convert`: job files to job lines and back.
use super::args::{Args, Known};
use super::out::{say, Out};
use super::source::{read_all, text_of, Source};
use super::Done;
use lensbench::jobfile::{write, Entry, Lines};
use lensbench::lines::{Call, Line};

const KNOWN: Known = Known { marks: &["--to-line", "--from-line", "--evaluate"], values: &["--trace"] };

pub fn convert(words: &[String]) -> Done {
    let args = Args::read(words, &KNOWN)?;
    match (args.has("--to-line"), args.has("--from-line")) {
        (true, false) => to_line(&args),
        (false, true) => from_line(&args),
        _ => Err("convert takes one of --to-line and --from-line".to_string()),
    }
}

fn to_line(args: &Args) -> Done {
    let (alone, slot) = (args.has("--evaluate"), args.one("--trace")?);
    let sources = read_all(args.some_files()?, !alone && slot.is_none());
    let mut out = Out::new();
    for source in &sources.jobs {
        let call = call_of(source, alone, slot)?;
        let line = Line { id: source.entry.name.clone(), call, job: source.entry.job.clone() };
        out.put(&format!("{}\n", line.to_text()))?;
    }
    out.flush()?;
    Ok(sources.status(0))
}

fn call_of(source: &Source, alone: bool, slot: Option<&str>) -> Result<Call, String> {
    let entry = &source.entry;
    match slot {
        None if alone => Ok(Call::Evaluate),
        None => Ok(Call::Run),
        Some(_) if alone => Err("one of --evaluate and --trace".to_string()),
        Some(slot) => {
            let at = entry.slots.iter().position(|name| name == slot);
            let found = at.ok_or_else(|| format!("{}: no slot `{slot}`; there are {}", source.at(entry.lines.job), entry.slots.join(" ")))?;
            Ok(Call::Trace { slot: found })
        }
    }
}

fn from_line(args: &Args) -> Done {
    let mut out = Out::new();
    let mut status = 0;
    for file in args.some_files()? {
        let text = text_of(file)?.map_err(|line| format!("{file}:{line}: the line is not UTF-8 text"))?;
        let lines = text.lines().enumerate().filter(|(_, line)| !line.trim().is_empty());
        for (i, line) in lines {
            match Line::of_text(line).and_then(file_of) {
                Ok(job) => out.put(&format!("{job}\n"))?,
                Err(what) => {
                    say(&format!("{file}:{}: {what}", i + 1));
                    status = 2;
                }
            }
        }
    }
    out.flush()?;
    Ok(status)
}

/// Slots that are given names. A line without surfaces may have any number of them, since it has no index then.
const NAMED: usize = 1000;

/// The job as a file; a lens that is only evaluated or traced has no line `run`.
fn file_of(line: Line) -> Result<String, String> {
    if line.job.lens.slots > NAMED {
        return Err(format!("{} slots are too many to be named in a file", line.job.lens.slots));
    }
    let slots = (1..=line.job.lens.slots).map(|i| format!("w{i}")).collect();
    let run = (line.call == Call::Run).then_some(1);
    Ok(write(&Entry { name: line.id, slots, job: line.job, lines: Lines { run, ..Lines::default() } }))
}
