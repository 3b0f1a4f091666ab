//! A job file, line by line.
use super::fields::{operand, slots_apart, surface, variable};
use super::names::{choice, KEYWORDS, ONE_SLOT};
use super::settings::run;
use super::words::Words;
use super::{Complaint, Entry, Lines};
use crate::job::Job;
use crate::lens::Lens;

/// The jobs of a file, or everything that is wrong with its lines. A file without a job is wrong too.
pub fn read(text: &str) -> Result<Vec<Entry>, Vec<Complaint>> {
    let mut reader = Reader::default();
    for (i, line) in text.lines().enumerate() {
        reader.line(i + 1, line);
    }
    reader.close();
    if reader.done.is_empty() && reader.complaints.is_empty() {
        reader.complain(1, "there is no job; a job begins with a line `job NAME`".to_string());
    }
    if reader.complaints.is_empty() {
        Ok(reader.done)
    } else {
        reader.complaints.sort_by_key(|c| c.line);
        Err(reader.complaints)
    }
}

#[derive(Default)]
struct Reader {
    /// whether a line before the first job was told of: once is enough
    early: bool,
    done: Vec<Entry>,
    open: Option<Entry>,
    complaints: Vec<Complaint>,
}

impl Reader {
    fn complain(&mut self, line: usize, what: String) {
        self.complaints.push(Complaint { line, what });
    }

    fn line(&mut self, number: usize, line: &str) {
        if let Some(odd) = line.chars().find(|c| c.is_control() && *c != '\t') {
            return self.complain(number, format!("the line has a character that is no text, U+{:04X}", u32::from(odd)));
        }
        let mut words = Words::of(line);
        let Some(keyword) = words.next() else { return };
        let read = if keyword == "job" { self.job(number, words) } else { self.field(number, keyword, words) };
        if let Err(what) = read {
            self.complain(number, what);
        }
    }

    fn job(&mut self, line: usize, words: Words) -> Result<(), String> {
        self.close();
        let name = words.rest().join(" ");
        let lines = Lines { job: line, ..Lines::default() };
        let job = Job::new(Lens::new(1, f64::NAN));
        self.open = Some(Entry { name: name.clone(), slots: vec![ONE_SLOT.to_string()], job, lines });
        if name.is_empty() {
            return Err("the job's name is missing".to_string());
        }
        Ok(())
    }

    fn field(&mut self, line: usize, keyword: &str, words: Words) -> Result<(), String> {
        if !KEYWORDS.contains(&keyword) {
            return Err(format!("`{keyword}` is no keyword: {}", choice(keyword, &KEYWORDS)));
        }
        let Some(entry) = self.open.as_mut() else {
            let told = std::mem::replace(&mut self.early, true);
            return if told { Ok(()) } else { Err(format!("`{keyword}` stands before the first line `job NAME`")) };
        };
        put(entry, line, keyword, words)
    }

    /// The job is at its end: what it cannot do without must be there.
    fn close(&mut self) {
        let Some(entry) = self.open.take() else { return };
        if entry.lines.pupil.is_none() {
            self.complain(entry.lines.job, format!("job {} has no line `pupil`", entry.name));
        }
        self.done.push(entry);
    }
}

fn put(entry: &mut Entry, line: usize, keyword: &str, words: Words) -> Result<(), String> {
    match keyword {
        "slots" => put_slots(entry, line, words),
        "pupil" => put_pupil(entry, line, words),
        "surface" => {
            entry.lines.surfaces.push(line);
            let (surface, indices) = surface(words, &entry.slots)?;
            entry.job.lens.push(surface, &indices);
            Ok(())
        }
        "vary" => {
            entry.lines.variables.push(line);
            entry.job.variables.push(variable(words)?);
            Ok(())
        }
        "want" => {
            entry.lines.operands.push(line);
            entry.job.operands.push(operand(words, &entry.slots)?);
            Ok(())
        }
        _ => {
            first(&mut entry.lines.run, line, keyword)?;
            entry.job.run = run(words)?;
            Ok(())
        }
    }
}

fn put_slots(entry: &mut Entry, line: usize, words: Words) -> Result<(), String> {
    first(&mut entry.lines.slots, line, "slots")?;
    if !entry.lines.surfaces.is_empty() || !entry.lines.operands.is_empty() {
        return Err("`slots` must stand before the job's first `surface` and `want`".to_string());
    }
    entry.slots = words.rest().into_iter().map(str::to_string).collect();
    entry.job.lens.slots = entry.slots.len();
    slots_apart(&entry.slots)
}

fn put_pupil(entry: &mut Entry, line: usize, mut words: Words) -> Result<(), String> {
    first(&mut entry.lines.pupil, line, "pupil")?;
    entry.job.lens.pupil_mm = words.number("the pupil's diameter")?;
    words.end()
}

/// A line that a job has once.
fn first(entry: &mut Option<usize>, line: usize, keyword: &str) -> Result<(), String> {
    match entry.replace(line) {
        Some(before) => Err(format!("the job has `{keyword}` already, on line {before}")),
        None => Ok(()),
    }
}
