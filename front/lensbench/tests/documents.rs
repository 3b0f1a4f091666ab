//! docs/JOBS.md is true: its example runs and prints what it says, its settings and bounds are the crate's.
#![allow(clippy::unwrap_used)]
mod common;
use common::top;
use lensbench::jobfile::read;
use lensbench::{Annealing, Damped, MultiStart, Quantity, Run, Variable};
use std::process::Command;

fn document() -> String {
    std::fs::read_to_string(top().join("docs/JOBS.md")).unwrap()
}

/// The texts between lines of three backquotes.
fn blocks() -> Vec<String> {
    document().split("\n```").skip(1).step_by(2).map(|block| block.trim_start_matches('\n').to_string() + "\n").collect()
}

#[test]
fn the_example_prints_what_the_document_says() {
    let blocks = blocks();
    let file = std::path::PathBuf::from(env!("CARGO_TARGET_TMPDIR")).join("mine.lens");
    std::fs::write(&file, &blocks[0]).unwrap();
    let done = Command::new(env!("CARGO_BIN_EXE_lensbench")).args(["run", "mine.lens"]).current_dir(file.parent().unwrap()).output().unwrap();
    assert_eq!((done.status.code(), &done.stderr[..]), (Some(0), &b""[..]));
    let printed = String::from_utf8(done.stdout).unwrap();
    let said = blocks.iter().find(|block| block.contains("changed by the run")).unwrap();
    for line in said.lines().filter(|line| !line.trim().is_empty() && line.trim() != "..") {
        assert!(printed.lines().any(|other| other == line), "{line}\n{printed}");
    }
}

#[test]
fn its_runs_are_in_form_and_its_defaults_are_the_crates() {
    let (mut runs, text) = (0, document());
    for block in blocks().iter().filter(|block| block.starts_with("run ")) {
        assert!(read(&format!("job x\npupil 1\n{block}")).is_ok(), "{block}");
        runs += 1;
    }
    assert_eq!(runs, 3);
    let row = |name: &str, value: String| assert!(text.contains(&format!("| `{name}` | {value} |")), "{name} {value}");
    let (damped, multi, anneal) = (Damped::DEFAULT, MultiStart::DEFAULT, Annealing::DEFAULT);
    row("iterations", damped.max_iterations.unwrap().to_string());
    row("damping", damped.initial_damping.unwrap().to_string());
    row("merit-tolerance", format!("{:e}", damped.merit_tolerance.unwrap()));
    row("gradient-tolerance", format!("{:e}", damped.gradient_tolerance.unwrap()));
    row("relative-step", format!("{:e}", damped.relative_step.unwrap()));
    row("trials", multi.trials.unwrap().to_string());
    row("seed", multi.seed.unwrap().to_string());
    let local = format!("as there, but `iterations` {} and `damping` {}", multi.local.max_iterations.unwrap(), multi.local.initial_damping.unwrap());
    assert!(text.contains(&local));
    row("temperature", anneal.temperature.unwrap().to_string());
    row("cooling", anneal.cooling_rate.unwrap().to_string());
    row("steps", anneal.steps.unwrap().to_string());
    row("cycles", anneal.cycles.unwrap().to_string());
    row("seed", anneal.seed.unwrap().to_string());
    for quantity in Quantity::ALL {
        let v = Variable::new(quantity, 0);
        row(lensbench::jobfile::quantity_name(quantity), format!("{} | {} | {:e}", v.least, v.greatest, v.step));
    }
}

/// What the three kinds are good for is said with a file for each.
#[test]
fn the_examples_are_of_the_kinds_that_the_document_says() {
    let kind = |name: &str| read(&std::fs::read_to_string(top().join("examples").join(name)).unwrap()).unwrap()[0].job.run;
    assert!(["singlet.lens", "achromat.lens", "loupe.lens"].into_iter().all(|name| matches!(kind(name), Run::Damped(_))));
    assert!(matches!(kind("triplet.lens"), Run::MultiStart(_)) && matches!(kind("scanner.lens"), Run::Annealing(_)));
}

/// Sellmeier constants of the makers' catalogues: B1, B2, B3, C1, C2, C3, for wavelengths in µm.
const GLASSES: [(&str, [f64; 6]); 5] = [
    ("N-BK7", [1.03961212, 0.231792344, 1.01046945, 0.00600069867, 0.0200179144, 103.560653]),
    ("SF5", [1.46141885, 0.247713019, 0.949995832, 0.0111826126, 0.0508594669, 112.041888]),
    ("N-SK16", [1.34317774, 0.241144399, 0.994317969, 0.00704687339, 0.0229005, 92.7508526]),
    ("F2", [1.34533359, 0.209073176, 0.937357162, 0.00997743871, 0.0470450767, 111.886764]),
    ("N-SF11", [1.73759695, 0.313747346, 1.89878101, 0.013188707, 0.0623068142, 155.23629]),
];

fn index(glass: &str, slot: &str) -> f64 {
    let [b1, b2, b3, c1, c2, c3] = GLASSES.iter().find(|(name, _)| *name == glass).unwrap().1;
    let um: f64 = match slot {
        "F" => 0.4861327,
        "d" => 0.5875618,
        "C" => 0.6562725,
        "HeNe" => 0.6328,
        other => panic!("{other}"),
    };
    let w = um * um;
    (1.0 + b1 * w / (w - c1) + b2 * w / (w - c2) + b3 * w / (w - c3)).sqrt()
}

/// An example's indices are those of the glass that its comment names, to five places.
#[test]
fn the_glasses_of_the_examples_have_their_indices() {
    let mut seen = 0;
    for name in ["singlet.lens", "achromat.lens", "loupe.lens", "triplet.lens", "scanner.lens"] {
        let text = std::fs::read_to_string(top().join("examples").join(name)).unwrap();
        let entry = read(&text).unwrap().remove(0);
        for (line, indices) in entry.lines.surfaces.iter().zip(&entry.job.lens.indices).filter(|(_, of)| of[0] != 1.0) {
            let glass = text.lines().nth(line - 1).unwrap().split_once("# ").unwrap().1;
            for (slot, n) in entry.slots.iter().zip(indices) {
                assert!((n - index(glass, slot)).abs() <= 5.1e-6, "{name}:{line}: {glass} has {} at {slot}", index(glass, slot));
                seen += 1;
            }
        }
    }
    assert_eq!(seen, 1 + 2 * 3 + 3 * 3 + 3 * 3 + 3);
}
