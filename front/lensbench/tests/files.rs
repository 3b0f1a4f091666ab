//! Jobs through lines and files, and back to the same bits.
#![allow(clippy::unwrap_used)]
mod common;
use common::{faulty, job, Dice};
use lensbench::jobfile::{read, write, Entry, Lines};
use lensbench::lines::{Call, Line};
use lensbench::{shortest, Job, Quantity, Variable};

fn entry(job: Job) -> Entry {
    let slots = (1..=job.lens.slots).map(|w| format!("w{w}")).collect();
    Entry { name: "a job".into(), slots, job, lines: Lines { run: Some(1), ..Lines::default() } }
}

/// A line has every bit of a job but for which NaN it is, so two jobs with the same line are the same.
fn text(job: &Job) -> String {
    Line { id: "x".into(), call: Call::Run, job: job.clone() }.to_text()
}

#[test]
fn there_and_back() {
    let mut dice = Dice(77);
    for i in 0..10_000 {
        let job = if i % 2 == 0 { job(&mut dice) } else { faulty(&mut dice) };
        let line = text(&job);
        assert_eq!(text(&Line::of_text(&line).unwrap().job), line);
        let file = write(&entry(job));
        let again = read(&file).unwrap_or_else(|complaints| panic!("{complaints:?}\n{file}"));
        assert_eq!(again.len(), 1);
        assert_eq!(text(&again[0].job), line, "{file}");
        assert_eq!(again[0].name, "a job");
    }
}

#[test]
fn a_name_is_no_comment() {
    let mut odd = entry(job(&mut Dice(5)));
    odd.name = "#7 of   #8\n\x1b".into();
    assert_eq!(read(&write(&odd)).unwrap()[0].name, "_7 of _8 _");
}

#[test]
fn numbers_read_back_to_the_same_bits() {
    let mut dice = Dice(9);
    for _ in 0..100_000 {
        let x = f64::from_bits(dice.next());
        if x.is_finite() {
            assert_eq!(shortest(x).parse::<f64>().unwrap().to_bits(), x.to_bits());
        }
    }
}

#[test]
fn lines_out_of_form() {
    let good = text(&job(&mut Dice(3)));
    let words: Vec<&str> = good.split(' ').collect();
    for i in 0..words.len() {
        let cut = words[..i].join(" ");
        assert!(Line::of_text(&cut).is_err(), "{cut}");
    }
    assert!(Line::of_text(&format!("{good} 0")).unwrap_err().contains("one word too many"));
    assert!(Line::of_text(&good.replacen("J", "K", 1)).is_err());
}

#[test]
fn followers_in_lines_and_files() {
    let mut job = job(&mut Dice(3));
    job.variables = vec![
        Variable::new(Quantity::Curvature, 0).opposite_at(1),
        Variable::new(Quantity::Thickness, 1),
        Variable::new(Quantity::Conic, 1).same_at(0),
    ];
    let line = text(&job);
    assert!(line.contains(" F 2 0 2 1 2 1 0 O "), "{line}");
    assert_eq!(Line::of_text(&line).unwrap().job, job);
    // a section without an entry is taken, and one of a variable that is not there, or of a sign that is none, is out of form
    assert_eq!(Line::of_text(&line.replace(" F 2 0 2 1 2 1 0 ", " F 0 ")).unwrap().job.variables[0].follower, None);
    for (odd, what) in
        [(" F 1 3 1 0 ", "a follower's variable 3 is not there"), (" F 1 0 0 0 ", "a follower's sign is 1 or 2, not 0"), (" F 1 0 3 0 ", "not 3")]
    {
        let said = Line::of_text(&line.replace(" F 2 0 2 1 2 1 0 ", odd)).unwrap_err();
        assert!(said.contains(what), "{said}");
    }
    let file = write(&entry(job.clone()));
    for said in [" opposite-at 2\n", " same-at 1\n"] {
        assert!(file.contains(said), "{file}");
    }
    assert_eq!(read(&file).unwrap()[0].job, job);
}
