//! `lensbench batch`: every job file of a folder, each in a process of its own.
use super::args::{Args, Known};
use super::Done;
use std::ffi::OsStr;
use std::path::{Path, PathBuf};
use std::process::Command;
use std::sync::atomic::{AtomicU8, AtomicUsize, Ordering};
use std::sync::Mutex;

const KNOWN: Known = Known { marks: &["--again"], values: &["--jobs", "--out"] };

pub fn batch(words: &[String]) -> Done {
    let args = Args::read(words, &KNOWN)?;
    let [folder] = &args.files[..] else {
        return Err("batch takes one folder".to_string());
    };
    let into = args.one("--out")?.unwrap_or(folder);
    let files = lens_files(folder)?;
    std::fs::create_dir_all(into).map_err(|e| format!("{into}: {e}"))?;
    let work = Work {
        into: PathBuf::from(into),
        again: args.has("--again"),
        files,
        next: AtomicUsize::new(0),
        worst: AtomicU8::new(0),
        failure: Mutex::new(None),
    };
    work.all(processes(args.one("--jobs")?)?)
}

fn processes(given: Option<&str>) -> Result<usize, String> {
    match given {
        None => Ok(std::thread::available_parallelism().map_or(1, usize::from)),
        Some(word) => word.parse().ok().filter(|n| (1..=1000).contains(n)).ok_or_else(|| format!("--jobs: `{word}` is not from 1 to 1000")),
    }
}

/// The folder's job files, by name.
fn lens_files(folder: &str) -> Result<Vec<PathBuf>, String> {
    let failed = |e: std::io::Error| format!("{folder}: {e}");
    let mut files = Vec::new();
    for item in std::fs::read_dir(folder).map_err(failed)? {
        let path = item.map_err(failed)?.path();
        if path.extension() == Some(OsStr::new("lens")) && path.is_file() {
            files.push(path);
        }
    }
    files.sort();
    if files.is_empty() {
        return Err(format!("{folder}: no file *.lens"));
    }
    Ok(files)
}

struct Work {
    into: PathBuf,
    again: bool,
    files: Vec<PathBuf>,
    next: AtomicUsize,
    worst: AtomicU8,
    failure: Mutex<Option<String>>,
}

impl Work {
    fn all(&self, processes: usize) -> Done {
        std::thread::scope(|scope| {
            for _ in 0..processes.min(self.files.len()) {
                scope.spawn(|| self.worker());
            }
        });
        let failure = self.failure.lock().map_err(|e| e.to_string())?.take();
        failure.map_or(Ok(self.worst.load(Ordering::Relaxed)), Err)
    }

    fn worker(&self) {
        while let Some(file) = self.files.get(self.next.fetch_add(1, Ordering::Relaxed)) {
            match self.one(file) {
                Ok(status) => {
                    self.worst.fetch_max(status, Ordering::Relaxed);
                }
                Err(what) => self.fail(what),
            }
        }
    }

    /// The first failure is told at the end; nothing more is begun.
    fn fail(&self, what: String) {
        self.next.store(self.files.len(), Ordering::Relaxed);
        if let Ok(mut failure) = self.failure.lock() {
            failure.get_or_insert(what);
        }
    }

    fn one(&self, file: &Path) -> Done {
        let named = |ending: &str| self.into.join(file.file_stem().unwrap_or_default()).with_extension(ending);
        let (result, said) = (named("json"), named("err"));
        if !self.again && newer(&result, file) {
            let refused = refused_before(&result)?;
            told(file, if refused { "refused before" } else { "done before" })?;
            return Ok(u8::from(refused));
        }
        let program = std::env::current_exe().map_err(|e| format!("this program: {e}"))?;
        let ran =
            Command::new(program).args(["run", "--json", "--no-progress"]).arg(file).output().map_err(|e| format!("{}: {e}", file.display()))?;
        keep(&said, &ran.stderr)?;
        let status = ran.status.code().and_then(|code| u8::try_from(code).ok()).unwrap_or(2);
        // a file that could not be run has no result, and not an older one either
        keep(&result, if status <= 1 { &ran.stdout } else { &[] })?;
        told(file, ["done", "refused", "not run"][usize::from(status.min(2))])?;
        Ok(status)
    }
}

fn newer(result: &Path, file: &Path) -> bool {
    let time = |path: &Path| std::fs::metadata(path).and_then(|m| m.modified()).ok();
    matches!((time(result), time(file)), (Some(result), Some(file)) if result > file)
}

/// Whether some job of a result was refused. A name cannot look like it: its quotation marks are escaped.
fn refused_before(result: &Path) -> Result<bool, String> {
    let text = std::fs::read_to_string(result).map_err(|e| format!("{}: {e}", result.display()))?;
    Ok(text.contains("\"status\":\"refused\""))
}

/// Writes a file under another name and renames it, so that one that is there is whole. Nothing to say leaves no file.
fn keep(path: &Path, bytes: &[u8]) -> Result<(), String> {
    let failed = |e: std::io::Error| format!("{}: {e}", path.display());
    if bytes.is_empty() {
        return match std::fs::remove_file(path) {
            Err(e) if e.kind() != std::io::ErrorKind::NotFound => Err(failed(e)),
            _ => Ok(()),
        };
    }
    let part = path.with_extension("part");
    std::fs::write(&part, bytes).and_then(|()| std::fs::rename(&part, path)).map_err(failed)
}

/// One line, written whole whoever else writes.
fn told(file: &Path, what: &str) -> Done {
    super::out::text(&format!("{}: {what}\n", file.display()))
}
