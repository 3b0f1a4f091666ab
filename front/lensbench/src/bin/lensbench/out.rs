//! Standard output, standard error and files. A write that fails is an error.
use std::io::{BufWriter, StdoutLock, Write};
use std::sync::atomic::{AtomicBool, Ordering};

pub struct Out {
    to: BufWriter<StdoutLock<'static>>,
}

impl Out {
    pub fn new() -> Out {
        Out { to: BufWriter::new(std::io::stdout().lock()) }
    }

    pub fn put(&mut self, text: &str) -> Result<(), String> {
        self.to.write_all(text.as_bytes()).map_err(failed)
    }

    pub fn flush(&mut self) -> Result<(), String> {
        self.to.flush().map_err(failed)
    }
}

fn failed(e: std::io::Error) -> String {
    format!("standard output: {e}")
}

/// One text and done.
pub fn text(text: &str) -> super::Done {
    let mut out = Out::new();
    out.put(text)?;
    out.flush()?;
    Ok(0)
}

/// Whether a line could not be said.
static UNSAID: AtomicBool = AtomicBool::new(false);

/// A line on standard error, in one write. Where it fails nobody can be told, but the status is 2.
pub fn say(line: &str) {
    if std::io::stderr().write_all(format!("{}\n", shown(line)).as_bytes()).is_err() {
        UNSAID.store(true, Ordering::Relaxed);
    }
}

/// Letters of a line that are shown.
const LONGEST: usize = 2000;

/// A line may have words of a file in it: what is no text does not reach the terminal, and of a very long one both ends are enough.
fn shown(line: &str) -> String {
    let letters: Vec<char> = line.chars().map(|c| if c.is_control() && c != '\n' { char::REPLACEMENT_CHARACTER } else { c }).collect();
    if letters.len() <= LONGEST {
        return letters.into_iter().collect();
    }
    let (first, last) = (&letters[..LONGEST / 2], &letters[letters.len() - LONGEST / 2..]);
    first.iter().chain(&[' ', '.', '.', ' ']).chain(last).collect()
}

/// Whether all lines could be said.
pub fn all_said() -> bool {
    !UNSAID.load(Ordering::Relaxed)
}

/// A file as a whole.
pub fn file(name: &str, text: &str) -> Result<(), String> {
    std::fs::write(name, text).map_err(|e| format!("{name}: {e}"))
}
