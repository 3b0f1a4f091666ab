//! Ten thousand random jobs through the crate, and through the program `replay`, compared bit by bit.
#![allow(clippy::unwrap_used)]
mod common;
use common::{answer, faulty, job, top, Dice};
use lensbench::lines::{Call, Line};
use std::io::Write;
use std::path::Path;
use std::process::{Command, Stdio};

const COUNT: usize = 10_000;

fn line(dice: &mut Dice, i: usize) -> Line {
    let job = if i % 10 == 0 { faulty(dice) } else { job(dice) };
    let call = match i % 8 {
        6 => Call::Evaluate,
        7 => Call::Trace { slot: dice.below(job.lens.slots + 1) },
        _ => Call::Run,
    };
    // of evaluations and traces the program reads what the call does not take for its form alone, and so does the crate
    Line { id: i.to_string(), call, job }
}

/// What the program answers, a line for a line, without digests and the raw focal length, back focus and f-number of a trace.
fn answers(program: &Path, lines: &str) -> Vec<String> {
    let mut child = Command::new(program).stdin(Stdio::piped()).stdout(Stdio::piped()).spawn().unwrap();
    let mut input = child.stdin.take().unwrap();
    let text = lines.to_string();
    let feeder = std::thread::spawn(move || input.write_all(text.as_bytes()));
    let output = child.wait_with_output().unwrap();
    feeder.join().unwrap().unwrap();
    assert!(output.status.success(), "replay ended with {}", output.status);
    let text = String::from_utf8(output.stdout).unwrap();
    text.lines().map(|line| line.split(" H ").next().unwrap().split(" P ").next().unwrap().to_string()).collect()
}

fn compare(program: &Path, lines: &[Line]) {
    let text: String = lines.iter().map(|line| line.to_text() + "\n").collect();
    let mut theirs = answers(program, &text);
    let refused = lines.iter().filter(|line| answer(line).contains(" refused ")).count();
    // the program's last line counts what it answered: a cut output has none
    assert_eq!(theirs.pop(), Some(format!("end {} lines, {refused} refused, 0 out of form", lines.len())));
    assert_eq!(theirs.len(), lines.len());
    for (line, theirs) in lines.iter().zip(&theirs) {
        assert_eq!(&answer(line), theirs, "{}", line.to_text());
    }
}

#[test]
fn the_crate_answers_as_replay_does() {
    let program = top().join("target/bin/replay");
    if !program.is_file() {
        eprintln!("SKIPPED: target/bin/replay is not built; `tools/program replay` builds it");
        return;
    }
    let mut dice = Dice(0x1ead1e);
    let lines: Vec<Line> = (0..COUNT).map(|i| line(&mut dice, i)).collect();
    let refused = lines.iter().filter(|line| answer(line).contains(" refused ")).count();
    assert!(refused > COUNT / 50 && refused < COUNT / 4, "{refused} of {COUNT} are refused");
    compare(&program, &lines);
    eprintln!("{COUNT} jobs the same, {refused} of them refused");
}

/// The same with the jobs that the original's generator makes, where it is built.
#[test]
fn the_crate_answers_the_oracles_jobs_as_replay_does() {
    let (program, oracle) = (top().join("target/bin/replay"), top().join("oracle/target/release/oracle"));
    if !program.is_file() || !oracle.is_file() {
        eprintln!("SKIPPED: target/bin/replay or oracle/target/release/oracle is not built; oracle/compare builds them");
        return;
    }
    for mode in ["gen", "genfaults"] {
        for profile in ["damped", "multi", "anneal", "eval", "trace", "followers-damped", "followers-multi", "followers-anneal"] {
            let made = Command::new(&oracle).args([mode, "31", "700", profile]).output().unwrap();
            let text = String::from_utf8(made.stdout).unwrap();
            let lines: Vec<Line> = text.lines().map(|line| Line::of_text(line).unwrap()).collect();
            assert_eq!(lines.len(), 700);
            compare(&program, &lines);
        }
    }
}
