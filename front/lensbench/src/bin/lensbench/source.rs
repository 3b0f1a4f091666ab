//! Job files, read. What is wrong with one goes to standard error, as `file:line: what`.
use super::out::say;
use lensbench::jobfile::{read, Entry};
use std::io::Read;

/// A job and the file that it stands in.
pub struct Source {
    pub file: String,
    pub entry: Entry,
}

impl Source {
    /// Where something of the job stands.
    pub fn at(&self, line: usize) -> String {
        format!("{}:{line}", self.file)
    }
}

/// The jobs of all files that are in form, and whether all are.
pub struct Sources {
    pub jobs: Vec<Source>,
    pub in_form: bool,
}

impl Sources {
    /// 2 where a file is not in form, else the status of its jobs.
    pub fn status(&self, jobs: u8) -> u8 {
        if self.in_form {
            jobs
        } else {
            2
        }
    }
}

/// Reads what can be read; a file that is wrong keeps no other from being played.
pub fn read_all(files: &[String], need_run: bool) -> Sources {
    let mut sources = Sources { jobs: Vec::new(), in_form: true };
    for file in files {
        match read_one(file, need_run).unwrap_or_else(|what| Err(vec![format!("lensbench: {what}")])) {
            Ok(jobs) => sources.jobs.extend(jobs),
            Err(complaints) => {
                sources.in_form = false;
                complaints.iter().for_each(|complaint| say(complaint));
            }
        }
    }
    sources
}

/// The jobs of a file, or what is wrong with it. The outer error is one of input and output.
fn read_one(file: &str, need_run: bool) -> Result<Result<Vec<Source>, Vec<String>>, String> {
    let text = match text_of(file)? {
        Ok(text) => text,
        Err(line) => return Ok(Err(vec![format!("{file}:{line}: the line is not UTF-8 text")])),
    };
    let entries = match read(&text) {
        Ok(entries) => entries,
        Err(complaints) => return Ok(Err(complaints.iter().map(|c| format!("{file}:{c}")).collect())),
    };
    let without: Vec<String> = entries.iter().filter(|e| need_run && e.lines.run.is_none()).map(|e| no_run(file, e)).collect();
    if !without.is_empty() {
        return Ok(Err(without));
    }
    Ok(Ok(entries.into_iter().map(|entry| Source { file: file.to_string(), entry }).collect()))
}

fn no_run(file: &str, entry: &Entry) -> String {
    format!("{file}:{}: job {} has no line `run`: add `run damped`, `run multi-start` or `run annealing`", entry.lines.job, entry.name)
}

/// The bytes of a file, or of standard input.
pub fn bytes_of(file: &str) -> Result<Vec<u8>, String> {
    let mut bytes = Vec::new();
    let read = if file == "-" { std::io::stdin().lock().read_to_end(&mut bytes).map(|_| ()) } else { std::fs::read(file).map(|all| bytes = all) };
    read.map(|()| bytes).map_err(|e| format!("{file}: {e}"))
}

/// The text of a file, or the first line that is none.
pub fn text_of(file: &str) -> Result<Result<String, usize>, String> {
    let bytes = bytes_of(file)?;
    Ok(String::from_utf8(bytes).map(|text| text.trim_start_matches('\u{feff}').to_string()).map_err(|e| {
        let good = &e.as_bytes()[..e.utf8_error().valid_up_to()];
        1 + good.iter().filter(|b| **b == b'\n').count()
    }))
}
