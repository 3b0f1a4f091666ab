//! `lensbench run`
use super::args::{Args, Known};
use super::out::{self, Out};
use super::play::{Ended, Player};
use super::progress::Progress;
use super::source::{read_all, Source};
use super::{json, report, svg, table, warnings, Done};
use lensbench::causes::causes;
use std::collections::BTreeMap;

const KNOWN: Known = Known { marks: &["--json", "--bits", "--progress", "--no-progress"], values: &["--svg"] };

/// How results are shown.
struct Show<'a> {
    json: bool,
    bits: bool,
    svg: Option<&'a str>,
}

pub fn run(words: &[String]) -> Done {
    let args = Args::read(words, &KNOWN)?;
    let sources = read_all(args.some_files()?, true);
    let show = Show { json: args.has("--json"), bits: args.has("--bits"), svg: args.one("--svg")? };
    for source in &sources.jobs {
        warnings::print(source);
    }
    let progress = Progress::new(args.has("--progress"), args.has("--no-progress"));
    let status = play(&sources.jobs, &show, progress)?;
    Ok(sources.status(status))
}

/// Plays all jobs and shows their results in the order of the files.
fn play(jobs: &[Source], show: &Show, mut progress: Progress) -> Done {
    let (mut player, mut out) = (Player::new(), Out::new());
    let (mut ready, mut shown, mut status) = (BTreeMap::new(), 0, 0);
    while !player.done(jobs) {
        ready.extend(player.round(jobs)?);
        progress.show(&player, jobs, shown + ready.len());
        while let Some(ended) = ready.remove(&shown) {
            progress.clear();
            status = status.max(show_one(jobs, shown, &ended, show, &mut out)?);
            shown += 1;
        }
    }
    progress.clear();
    out.flush()?;
    Ok(status)
}

fn show_one(jobs: &[Source], at: usize, ended: &Ended, show: &Show, out: &mut Out) -> Done {
    let source = &jobs[at];
    match ended {
        Ended::Refused(refusal) => {
            report::refused(source, *refusal);
            let text = if show.json { json::refused(source, *refusal, causes(&source.entry.job)) } else { table::refused(source, *refusal) };
            out.put(&text)?;
            out.flush()?;
            Ok(1)
        }
        Ended::Done { outcome, turns } => {
            let found = report::Found::of(source, outcome, *turns)?;
            let text = if show.json { json::found(&found) } else { table::found(&found, show.bits) };
            out.put(&text)?;
            out.flush()?;
            if let Some(name) = show.svg {
                let drawn = svg::picture(&source.entry, &outcome.surfaces, outcome.final_merit);
                out::file(&numbered(name, at, jobs.len()), &drawn)?;
            }
            Ok(0)
        }
    }
}

/// The file of a picture: of several jobs each has its number, from 1, before the ending.
fn numbered(name: &str, at: usize, many: usize) -> String {
    if many == 1 {
        return name.to_string();
    }
    match name.rsplit_once('.') {
        Some((stem, ending)) if !ending.contains('/') => format!("{stem}-{}.{ending}", at + 1),
        _ => format!("{name}-{}", at + 1),
    }
}
