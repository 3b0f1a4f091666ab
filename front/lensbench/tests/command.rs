//! The command as a user has it: what it prints, says and answers.
#![allow(clippy::unwrap_used)]
mod common;
use common::{example, lensbench};
use lensbench::jobfile::read;
use lensbench::{Job, Surface};
use std::os::unix::ffi::OsStrExt;
use std::path::PathBuf;
use std::process::{Command, Stdio};

fn job(name: &str) -> Job {
    read(&std::fs::read_to_string(example(name)).unwrap()).unwrap()[0].job.clone()
}

/// A folder of this test's own, empty.
fn folder(name: &str) -> PathBuf {
    let path = PathBuf::from(env!("CARGO_TARGET_TMPDIR")).join(name);
    let _ = std::fs::remove_dir_all(&path);
    std::fs::create_dir_all(&path).unwrap();
    path
}

/// The merit that a table prints is exactly that of the lens that it prints.
#[test]
fn what_is_printed_beside_a_merit_has_that_merit() {
    for name in ["singlet.lens", "achromat.lens", "loupe.lens", "triplet.lens", "scanner.lens"] {
        let (status, out, err) = lensbench(&["run", &example(name)], "");
        assert_eq!((status, err.as_str()), (0, ""), "{name}");
        let job = job(name);
        let number = |word: &str| if word == "flat" { f64::INFINITY } else { word.trim_end_matches('*').parse().unwrap() };
        let rows = out.lines().skip_while(|line| !line.starts_with("  surface")).skip(1).take(job.lens.surfaces.len());
        let surfaces: Vec<Surface> = rows
            .map(|row| {
                let words: Vec<&str> = row.split_whitespace().collect();
                Surface {
                    radius_mm: number(words[1]),
                    thickness_mm: number(words[2]),
                    semi_diameter_mm: number(words[3]),
                    conic_constant: number(words[4]),
                }
            })
            .collect();
        let words: Vec<&str> = out.lines().nth(1).unwrap().split_whitespace().collect();
        assert_eq!(words[..1], ["merit"]);
        assert_eq!(number(words[1]), job.evaluate().unwrap().merit);
        assert_eq!(number(words[4]), job.with_surfaces(&surfaces).evaluate().unwrap().merit, "{name}");
        assert!(number(words[4]) < 1e-15, "{name} comes out well");
        assert!(out.contains(", converged\n"), "{name}");
    }
}

/// Every number of JSON beside its bits.
#[test]
fn json_has_digits_and_bits() {
    let (status, out, _) = lensbench(&["run", "--json", &example("triplet.lens"), &example("singlet.lens")], "");
    assert_eq!((status, out.lines().count()), (0, 2));
    let mut seen = 0;
    for part in out.split("{\"value\":").skip(1) {
        let (value, rest) = part.split_once(",\"bits\":\"").unwrap();
        let bits = f64::from_bits(u64::from_str_radix(&rest[..16], 16).unwrap());
        match value {
            "null" => assert!(!bits.is_finite()),
            value => assert_eq!(value.parse::<f64>().unwrap().to_bits(), bits.to_bits()),
        }
        seen += 1;
    }
    assert!(seen > 80, "{seen}");
    assert!(out.contains("\"name\":\"Cooke triplet, 50 mm f/5\"") && out.contains("\"changed\":[\"radius_mm\"]"));
}

#[test]
fn jobs_come_in_the_order_of_the_files() {
    let text = std::fs::read_to_string(example("triplet.lens")).unwrap() + &std::fs::read_to_string(example("singlet.lens")).unwrap().repeat(6);
    let (status, out, _) = lensbench(&["run", "-"], &text);
    let names: Vec<&str> = out.lines().filter(|line| line.contains(" (-:")).collect();
    assert_eq!((status, names.len()), (0, 7));
    assert!(names[0].starts_with("Cooke") && names[1..].iter().all(|name| name.starts_with("plano")));
}

const GOOD: &str = "job one
slots F d C
pupil 10
surface 60 4 12 0 1.52 1.51 1.50
surface flat 0 12 0 air
vary curvature 1 from 0.001 to 0.1 step 1e-6
want focal-length d target 100 weight 2
want centre-at-least 1 2
want edge-at-least 1 1 weight 0.5
run multi-start trials 3 seed 7 iterations 4
";

/// A typo in each field: the line, what stands there instead, and what is said of it.
#[test]
fn a_typo_in_each_field() {
    assert_eq!(lensbench(&["run", "-"], GOOD).0, 0);
    let typos = [
        (1, "jib one", "`jib` is no keyword: there are job, slots, pupil, surface, vary, want, run; did you mean `job`?"),
        (1, "job", "the job's name is missing"),
        (2, "slots F d F", "slot `F` is there twice"),
        (2, "slot F d C", "did you mean `slots`?"),
        (3, "pupil 1o", "the pupil's diameter: `1o` is no number"),
        (3, "pupil", "the pupil's diameter is missing"),
        (3, "pupil 10 mm", "`mm` is one word too many"),
        (3, "pupil 1e999", "`1e999` is too large for a number"),
        (4, "surface 6O 4 12 0 1.52 1.51 1.50", "the radius: `6O` is no number, and not `flat`"),
        (4, "surface 60,5 4 12 0 1.52 1.51 1.50", "write a point and no comma"),
        (4, "surface 60 4,0 12 0 1.52 1.51 1.50", "the thickness: `4,0` is no number"),
        (4, "surface 60 4 x 0 1.52 1.51 1.50", "the semi-diameter: `x` is no number"),
        (4, "surface 60 4 12 - 1.52 1.51 1.50", "the conic: `-` is no number"),
        (4, "surface 60 4 12 0 1.52 1.51", "2 indices for 3 slots (F d C); before the index there are radius, thickness, semi-diameter and conic"),
        (4, "surface \u{2212}60 4 12 0 1.52 1.51 1.50", "is no number; it has a letter or sign that is not ASCII"),
        (4, "surface 60 4 12 0 1.52 1.51 air", "`air` must stand alone"),
        (4, "surface 60 4 12 0", "the index is missing: `air`, or one for each slot (F d C)"),
        (4, "surface 60 4 12 0 1.52 1.51 glass", "the index: `glass` is no number"),
        (4, "surface 60 4", "the semi-diameter is missing"),
        (5, "surface flat 0 12 0 Air", "the index: `Air` is no number, and not `air`"),
        (5, "surface flat 12 0 air", "the conic is missing: before the index there are radius, thickness, semi-diameter and conic"),
        (5, "surface flat 0 0 12 0 air", "`air` must stand alone"),
        (6, "VARY curvature 1", "did you mean `vary`?"),
        (6, "vary curvatur 1 from 0.001 to 0.1", "did you mean `curvature`?"),
        (6, "vary curvature 0 from 0.001 to 0.1", "surfaces are numbered from 1"),
        (6, "vary curvature one", "`one` is no surface's number"),
        (6, "vary curvature 1 form 0.001 to 0.1", "`form` is none of from, to, step, same-at, opposite-at, off"),
        (6, "vary curvature 1 opposite 2", "`opposite` is none of from, to, step, same-at, opposite-at, off"),
        (6, "vary curvature 1 opposite-at", "the surface's number is missing"),
        (6, "vary curvature 1 opposite-at 0", "surfaces are numbered from 1"),
        (6, "vary curvature 1 opposite-at -2", "`-2` is no surface's number"),
        (6, "vary curvature 1 same-at 1 same-at 2", "`same-at` is there twice"),
        (6, "vary curvature 1 same-at 1 opposite-at 2", "a variable has same-at or opposite-at, and not both"),
        (6, "vary curvature 1 from 0.001 to", "`to` has no number behind it"),
        (6, "vary curvature 1 from 0.00l", "from: `0.00l` is no number"),
        (6, "vary curvature 1 from 0.1 from 0.2", "`from` is there twice"),
        (7, "want focal-lenght d target 100", "did you mean `focal-length`?"),
        (7, "want focal-length e target 100", "`e`: no such slot; there are F d C"),
        (7, "want focal-length d", "focal-length has no target"),
        (7, "want focal-length target 100", "`target`: the slot is missing; there are F d C"),
        (7, "want focal-length d target", "`target` has no number behind it"),
        (7, "want focal-length d target ten", "target: `ten` is no number"),
        (7, "want focal-length d target 100 wieght 2", "`wieght` is none of target, weight"),
        (8, "want centre-at-least 1", "the limit is missing"),
        (8, "want centre-at-least first 2", "`first` is no surface's number"),
        (9, "want edge-at-least 1", "the limit is missing"),
        (9, "want edge-at-leats 1 1", "did you mean `edge-at-least`?"),
        (10, "run multistart", "did you mean `multi-start`?"),
        (10, "run", "run is missing: there are damped, multi-start, annealing"),
        (10, "run damped trials 3", "`trials` is no setting of `run damped`"),
        (10, "run multi-start trials", "`trials` has no number behind it"),
        (10, "run multi-start trials 3.5", "trials: `3.5` is no whole number"),
        (10, "run multi-start seed -1", "seed: `-1` is no whole number"),
        (10, "run multi-start iteration 4", "did you mean `iterations`?"),
        (10, "run damped\nrun damped", "the job has `run` already, on line 10"),
    ];
    for (line, typo, what) in typos {
        let text: String = GOOD.lines().enumerate().map(|(i, good)| format!("{}\n", if i + 1 == line { typo } else { good })).collect();
        let at = if typo.contains('\n') { line + 1 } else { line };
        let (status, out, err) = lensbench(&["run", "-"], &text);
        assert_eq!((status, out.as_str()), (2, ""), "{typo}");
        let said = err.lines().find(|said| said.starts_with(&format!("-:{at}: ")));
        assert!(said.is_some_and(|said| said.contains(what)), "{typo}\n{err}");
    }
    let (status, _, err) = lensbench(&["run", "-"], GOOD.replace("run multi", "# run multi"));
    assert_eq!((status, err.starts_with("-:1: job one has no line `run`")), (2, true));
    assert!(lensbench(&["run", "-"], "# nothing\n").2.contains("-:1: there is no job"));
    assert_eq!(lensbench(&["evaluate", "-"], GOOD.replace("run multi", "# run multi")).0, 0);
}

/// One mistake is not told once for each line that it reaches.
#[test]
fn one_mistake_is_told_once() {
    for (from, to, said) in [("job one", "jib one", 2), ("slots F d C", "slots F d F", 1), ("slots F d C\n", "", 1)] {
        let (status, _, err) = lensbench(&["run", "-"], GOOD.replace(from, to));
        assert_eq!((status, err.lines().count()), (2, said), "{to}\n{err}");
    }
    let (_, _, err) = lensbench(&["run", "-"], GOOD.replace("slots F d C", "slots"));
    assert!(err.contains("-:4: 3 indices for 0 slots (none: the line `slots` has no name)"), "{err}");
}

/// Files that are hardly job files, and such as other programs save: what is said of them, or nothing where they are taken.
#[test]
fn odd_files() {
    let crlf = GOOD.replace('\n', "\r\n");
    let utf16: Vec<u8> = format!("\u{feff}{GOOD}").encode_utf16().flat_map(u16::to_le_bytes).collect();
    let cases: [(Vec<u8>, &str); 12] = [
        (crlf.into(), ""),
        (GOOD.replace(' ', "\t").into(), ""),
        (GOOD.trim_end().into(), ""),
        (format!("\u{feff}{GOOD}").into(), ""),
        (b"".to_vec(), "-:1: there is no job; a job begins with a line `job NAME`\n"),
        (b"\0\0\0\0".to_vec(), "-:1: the line has a character that is no text, U+0000\n"),
        (GOOD.replace('\n', "\r").into(), "-:1: the line has a character that is no text, U+000D\n"),
        (GOOD.replace("job one", "job \x1b[31mone").into(), "-:1: the line has a character that is no text, U+001B\n"),
        (utf16, "-:1: the line is not UTF-8 text\n"),
        (b"job one\npupil 3\n# \xb5m\n".to_vec(), "-:3: the line is not UTF-8 text\n"),
        (format!("job {}\npupil {}\n", "x".repeat(100_000), "9".repeat(1_000_000)).into(), "-:2: the pupil's diameter: `999"),
        (format!("job one\npupil 3\n{} 3\n", "p".repeat(100_000)).into(), "-:3: `ppp"),
    ];
    for (text, said) in cases {
        let (status, out, err) = lensbench(&["run", "-"], text);
        assert!(
            err.starts_with(said) && err.len() < 2100 && (status, out.is_empty()) == if said.is_empty() { (0, false) } else { (2, true) },
            "{err}"
        );
    }
}

/// What is in form and refused: the number, line, field and value.
#[test]
fn refusals_with_their_lines() {
    let cases = [
        (3, "pupil -1", "-:3: refused with 3: pupil -1 is not above 0 and up to 1e9"),
        (4, "surface nan 4 12 0 1.52 1.51 11", "-:4: refused with 3: index 11 of surface 1 in slot 3 is not above 0 and up to 10"),
        (6, "vary curvature 9 from 2 to 1", "-:6: refused with 4: from 2 is above to 1"),
        (6, "vary curvature 1 same-at 3", "-:6: refused with 17: same-at 3: the surface is not there: the lens has 2"),
        (6, "vary thickness 1 opposite-at 2", "-:6: refused with 17: opposite-at 2: only a curvature or a conic has an opposite"),
        (7, "want focal-length 4 target 1e10", "-:7: refused with 5: slot 4 is not there: the job has 3"),
        (10, "run multi-start trials 1001", "-:10: refused with 6: trials 1001 is above 1000"),
        (6, "vary curvature 1 off", "-:1: refused with 7: no variable is enabled"),
    ];
    for (line, odd, what) in cases {
        let text: String = GOOD.lines().enumerate().map(|(i, good)| format!("{}\n", if i + 1 == line { odd } else { good })).collect();
        for command in ["run", "check"] {
            let (status, _, err) = lensbench(&[command, "-"], &text);
            assert_eq!(status, 1, "{odd}");
            assert!(err.lines().any(|said| said == what), "{odd}\n{err}");
        }
        let (status, out, _) = lensbench(&["run", "--json", "-"], &text);
        assert!(status == 1 && out.contains("\"status\":\"refused\",\"number\":"), "{out}");
    }
    // an evaluation has causes of its own: the variable is not looked at
    let text = GOOD.replace("pupil 10", "pupil 0").replace("vary curvature 1", "vary curvature 9");
    let (_, run, _) = lensbench(&["run", "--json", "-"], &text);
    let (_, alone, _) = lensbench(&["evaluate", "--json", "-"], &text);
    assert_eq!((run.matches("\"what\"").count(), alone.matches("\"what\"").count()), (2, 1), "{run}{alone}");
}

#[test]
fn warnings() {
    let cases = [
        ("vary curvature 1 from 20 to 100", "-:6: warning: bounds 20 to 100 look like radii"),
        ("vary curvature 1 from 0.1 to 0.2", "-:6: warning: curvature of surface 1 starts at 0.016666666666666666, outside its bounds 0.1 to 0.2"),
        ("vary thickness 1 from 4 to 4", "-:6: warning: thickness of surface 1 cannot move"),
        ("vary curvature 1 same-at 1", "-:6: warning: same-at 1 is the variable's own surface: it changes nothing"),
        ("vary curvature 1 opposite-at 1", "-:6: warning: opposite-at 1 is the variable's own surface: it leaves the opposite of each value there"),
        ("vary thickness 1 same-at 2", "-:6: warning: same-at 2: thickness of surface 2 starts at 0, and not at 4"),
        (
            "vary curvature 1\nvary curvature 2 opposite-at 1",
            "-:7: warning: curvature of surface 1 is varied twice: the later line has the last word",
        ),
    ];
    for (line, what) in cases {
        let (status, out, err) = lensbench(&["check", "-"], GOOD.replace("vary curvature 1 from 0.001 to 0.1 step 1e-6", line));
        assert!(status == 0 && err.contains(what) && out.contains("would be taken"), "{err}");
    }
    let conic = GOOD.replace("step 1e-6\n", "step 1e-6\nvary conic 2\n");
    assert_eq!(lensbench(&["check", "-"], &conic).2, "");
    let (status, _, err) = lensbench(&["check", "-"], conic.replace("want edge", "# want edge"));
    assert!(status == 0 && err.starts_with("-:7: warning: no operand depends on the conic of surface 2"), "{err}");
    let (status, _, err) = lensbench(&["check", "-"], GOOD.replace(" 1.51 ", " .151 "));
    assert!(status == 0 && err.contains("-:4: warning: index 0.151 is below 1, that of no glass and not of air"), "{err}");
    let (status, _, err) = lensbench(&["check", "-"], GOOD.replace("centre-at-least 1 2", "centre-at-least 3 2"));
    assert!(status == 0 && err.contains("-:8: warning: surface 3 is not there"), "{err}");
    let (status, _, err) = lensbench(&["check", "-"], GOOD.replace("edge-at-least 1", "edge-at-least 2"));
    assert!(status == 0 && err.contains("-:9: warning: surface 2 is the last: it has no edge"), "{err}");
}

#[test]
fn usage_and_status() {
    for words in [
        &["frobnicate"][..],
        &[],
        &["run"],
        &["run", "--jsn", "x"],
        &["run", "/no/such/file"],
        &["convert", "-"],
        &["batch", "/no/such/folder"],
        &["run", "--svg"],
        &["help", "frobnicate"],
        &["frobnicate", "--help"],
    ] {
        let (status, out, err) = lensbench(words, "");
        assert_eq!((status, out.as_str()), (2, ""), "{words:?}");
        assert!(err.starts_with("lensbench: "), "{words:?} {err}");
    }
    for words in [&["--help"][..], &["help", "run"], &["check", "--help"], &["--version"]] {
        let (status, out, err) = lensbench(words, "");
        assert!(status == 0 && !out.is_empty() && err.is_empty(), "{words:?}");
    }
    assert_eq!(lensbench(&["--version"], "").1, format!("lensbench {}, records of layout {}\n", env!("CARGO_PKG_VERSION"), lensbench::ABI));
}

/// A file that cannot be read keeps no other from being played.
#[test]
fn a_missing_file_among_others() {
    let (status, out, err) = lensbench(&["run", "/no/such/file", &example("singlet.lens")], "");
    assert!(status == 2 && out.starts_with("plano-convex") && err.starts_with("lensbench: /no/such/file: "), "{err}");
}

/// A write that fails is an error.
#[test]
fn a_full_disk() {
    let full = std::fs::OpenOptions::new().write(true).open("/dev/full").unwrap();
    let done = Command::new(env!("CARGO_BIN_EXE_lensbench")).args(["run", &example("singlet.lens")]).stdout(full).output().unwrap();
    assert_eq!(done.status.code(), Some(2));
    assert!(String::from_utf8(done.stderr).unwrap().starts_with("lensbench: standard output: "));
    let (status, _, err) = lensbench(&["run", "--svg", "/no/such/folder/x.svg", &example("singlet.lens")], "");
    assert!(status == 2 && err.contains("/no/such/folder/x.svg: "), "{err}");
}

/// So is one of a line on standard error, and a name that is no text is no reason to panic.
#[test]
fn nobody_listens() {
    for words in [&["run", "/no/such/file"][..], &["run", "/no/such/file", "-"], &["frobnicate"]] {
        let full = std::fs::OpenOptions::new().write(true).open("/dev/full").unwrap();
        let done = Command::new(env!("CARGO_BIN_EXE_lensbench")).args(words).stdin(Stdio::null()).stderr(full).output().unwrap();
        assert_eq!(done.status.code(), Some(2), "{words:?}");
    }
    // a warning that cannot be said
    let (folder, full) = (folder("nobody"), std::fs::OpenOptions::new().write(true).open("/dev/full").unwrap());
    let name = folder.join("warned.lens");
    std::fs::write(&name, GOOD.replace("weight 2", "weight 0")).unwrap();
    let done = Command::new(env!("CARGO_BIN_EXE_lensbench")).arg("run").arg(&name).stderr(full).output().unwrap();
    assert_eq!((done.status.code(), done.stdout.is_empty()), (Some(2), false));
    // a name that is not UTF-8
    let done = Command::new(env!("CARGO_BIN_EXE_lensbench")).arg("run").arg(std::ffi::OsStr::from_bytes(b"\xff.lens")).output().unwrap();
    assert_eq!(done.status.code(), Some(2));
    assert!(String::from_utf8(done.stderr).unwrap().ends_with(".lens: the word is not UTF-8 text\n"));
}

/// A reader that has gone away: the write fails, and the rest is not played.
#[test]
fn a_closed_pipe() {
    let folder = folder("pipe");
    std::fs::write(folder.join("many.lens"), GOOD.repeat(2000)).unwrap();
    let mut child = Command::new(env!("CARGO_BIN_EXE_lensbench"))
        .args(["run", "many.lens"])
        .current_dir(&folder)
        .stdout(Stdio::piped())
        .stderr(Stdio::piped())
        .spawn()
        .unwrap();
    drop(child.stdout.take());
    let done = child.wait_with_output().unwrap();
    assert_eq!(done.status.code(), Some(2));
    assert!(String::from_utf8(done.stderr).unwrap().starts_with("lensbench: standard output: Broken pipe"));
}

#[test]
fn pictures() {
    let folder = folder("pictures");
    let name = folder.join("lens.svg");
    assert_eq!(lensbench(&["run", "--svg", name.to_str().unwrap(), &example("triplet.lens")], "").0, 0);
    let text = std::fs::read_to_string(&name).unwrap();
    assert!(text.starts_with("<svg ") && text.ends_with("</svg>\n") && !text.contains("NaN") && !text.contains("inf"));
    assert_eq!((text.matches("class=\"glass\"").count(), text.matches("class=\"ray\"").count(), text.matches("class=\"image\"").count()), (3, 12, 1));
    assert_eq!(lensbench(&["run", "--svg", name.to_str().unwrap(), &example("singlet.lens"), &example("scanner.lens")], "").0, 0);
    assert!(folder.join("lens-1.svg").is_file() && folder.join("lens-2.svg").is_file());
    // a lens that runs into the one before it, and one whose faces meet
    let odd = std::fs::read_to_string(example("triplet.lens")).unwrap();
    for (from, to) in [("  4.750409 ", "  -1.0 "), ("79.6836    2.952076", "79.6836    0.1")] {
        assert!(odd.contains(from));
        let text = odd.replace(from, to).replace("vary thickness 4 from 4 to 6\n", "");
        assert_eq!(lensbench(&["run", "--svg", name.to_str().unwrap(), "-"], text).0, 0);
        let text = std::fs::read_to_string(&name).unwrap();
        assert_eq!((text.matches("class=\"glass\"").count(), text.matches("class=\"crossed\"").count()), (2, 1), "{to}");
    }
}

#[test]
fn lines_and_back() {
    let files: Vec<String> = ["singlet.lens", "achromat.lens", "loupe.lens", "triplet.lens", "scanner.lens"].map(example).to_vec();
    let words: Vec<&str> = ["convert", "--to-line"].into_iter().chain(files.iter().map(String::as_str)).collect();
    let (status, lines, _) = lensbench(&words, "");
    assert_eq!((status, lines.lines().count()), (0, 5));
    let (status, text, _) = lensbench(&["convert", "--from-line", "-"], &lines);
    let jobs: Vec<Job> = read(&text).unwrap().into_iter().map(|entry| entry.job).collect();
    assert_eq!(status, 0);
    assert_eq!(jobs, ["singlet.lens", "achromat.lens", "loupe.lens", "triplet.lens", "scanner.lens"].map(job));
    let (status, _, err) = lensbench(&["convert", "--from-line", "-"], format!("{lines}J broken\n"));
    assert_eq!((status, err.as_str()), (2, "-:6: the line ends before the kind\n"));
    assert!(lensbench(&["convert", "--to-line", "--trace", "C", &files[1]], "").1.trim_end().ends_with(" C 2"));
    let (status, _, err) = lensbench(&["convert", "--from-line", "-"], "J x 4 S 0 I 99999999999 P 3ff0000000000000 V 0 O 0 C\n");
    assert_eq!((status, err.as_str()), (2, "-:1: 99999999999 slots are too many to be named in a file\n"));
}

#[test]
fn a_folder_of_jobs() {
    let folder = folder("batch");
    for i in 0..9 {
        std::fs::copy(example("singlet.lens"), folder.join(format!("job{i}.lens"))).unwrap();
    }
    let (name, into) = (folder.to_str().unwrap(), folder.join("out"));
    let words = ["batch", name, "--jobs", "3", "--out", into.to_str().unwrap()];
    let (status, out, _) = lensbench(&words, "");
    assert_eq!((status, out.matches(": done\n").count()), (0, 9));
    let all: Vec<String> = (0..9).map(|i| std::fs::read_to_string(into.join(format!("job{i}.json"))).unwrap()).collect();
    let tail = |text: &str| text.split_once("\"line\"").unwrap().1.to_string();
    assert!(all.iter().all(|text| tail(text) == tail(&all[0])));
    assert_eq!(lensbench(&words, "").1.matches(": done before\n").count(), 9);
    std::fs::write(folder.join("job9.lens"), "job typo\npupl 3\n").unwrap();
    std::fs::write(folder.join("job3.lens"), GOOD.replace("pupil 10", "pupil 0")).unwrap();
    let (status, out, _) = lensbench(&words, "");
    assert_eq!(status, 2);
    assert!(out.contains("job9.lens: not run\n") && out.contains("job3.lens: refused\n"), "{out}");
    assert!(std::fs::read_to_string(into.join("job9.err")).unwrap().contains(":2: `pupl` is no keyword"));
    // what was refused before is so still, and a file that has come to be broken keeps no older result
    std::fs::remove_file(folder.join("job9.lens")).unwrap();
    let (status, out, _) = lensbench(&words, "");
    assert!(status == 1 && out.contains("job3.lens: refused before\n"), "{out}");
    std::fs::write(folder.join("job3.lens"), "").unwrap();
    assert_eq!(lensbench(&words, "").0, 2);
    assert!(into.join("job3.err").is_file() && !into.join("job3.json").exists());
}
