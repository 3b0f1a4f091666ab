//! The command `lensbench`: job files in, results for people, programs and drawing boards out.
//!
//! Status 0: done. 1: some job is refused. 2: bad form, bad usage, or input and output.
#![forbid(unsafe_code)]
#![allow(missing_docs)]
mod alone;
mod args;
mod batch;
mod bits;
mod check;
mod columns;
mod convert;
mod drawing;
mod help;
mod import;
mod json;
mod out;
mod play;
mod progress;
mod report;
mod run;
mod source;
mod svg;
mod table;
mod warnings;
mod zmx;

use std::process::ExitCode;

/// A status, or why there is none; then it is 2.
pub type Done = Result<u8, String>;

fn main() -> ExitCode {
    let status = words().and_then(|words| command(&words)).unwrap_or_else(|what| {
        out::say(&format!("lensbench: {what}"));
        2
    });
    ExitCode::from(if out::all_said() { status } else { 2 })
}

/// The words of the command line. Names of files are said and written as text, so one that is none is not taken.
fn words() -> Result<Vec<String>, String> {
    let text = |word: std::ffi::OsString| word.into_string().map_err(|word| format!("{}: the word is not UTF-8 text", word.to_string_lossy()));
    std::env::args_os().skip(1).map(text).collect()
}

fn command(words: &[String]) -> Done {
    let Some((name, rest)) = words.split_first() else {
        return Err(format!("no command\n{}", help::USAGE));
    };
    if rest.iter().any(|word| word == "--help" || word == "-h") {
        return helped(name);
    }
    match name.as_str() {
        "run" => run::run(rest),
        "check" => check::check(rest),
        "evaluate" => alone::evaluate(rest),
        "trace" => alone::trace(rest),
        "convert" => convert::convert(rest),
        "import" => import::import(rest),
        "batch" => batch::batch(rest),
        "help" | "--help" | "-h" => rest.first().map_or_else(|| out::text(help::USAGE), |name| helped(name)),
        "version" | "--version" | "-V" => out::text(&help::version()),
        other => unknown(other),
    }
}

fn helped(name: &str) -> Done {
    help::of(name).map_or_else(|| unknown(name), out::text)
}

fn unknown(name: &str) -> Done {
    Err(format!("`{name}` is no command\n{}", help::USAGE))
}
