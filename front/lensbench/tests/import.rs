//! `lensbench import`, on files as Zemax writes them.
#![allow(clippy::unwrap_used)]
mod common;
use common::{example, lensbench, top};
use lensbench::jobfile::{read, Entry};
use lensbench::Lens;
use std::path::PathBuf;

const SK16: [&str; 2] = ["--glass", "SK16=1.62756,1.62041,1.61727"];
const F2: [&str; 2] = ["--glass", "F2=1.63208,1.62004,1.61503"];

/// What stands before the first surface: 24 wavelengths, of which the last 21 are not in use.
fn head() -> String {
    let unused: String = (4..=24).map(|i| format!("WAVM {i} 5.5000000000000004E-1 1\n")).collect();
    let eight = "0 0 0 0 0 0 0 0";
    format!(
        "VERS 190513 80 123457 L123457
MODE SEQ
NAME A SIMPLE COOKE TRIPLET.
NOTE 0 from a course
PFIL 0 0 0
LANG 0
UNIT MM X W X CM MR CPMM
ENPD 1.0E+1
ENVD 2.0E+1 1 0
GFAC 0 0
GCAT SCHOTT MISC
RAIM 0 0 1 1 0 0 0 0 0 1
PUSH 0 0 0 0 0 0
SDMA 0 1 0
FTYP 0 0 3 3 0 0 0 3
ROPD 2
PICB 1
XFLN {eight}
YFLN 0 14 20 0 0 0 0 0
FWGN 1 1 1 1 1 1 1 1
VDXN {eight}
VDYN {eight}
VCXN {eight}
VCYN {eight}
VANN {eight}
WAVM 1 4.8613270000000002E-1 1
WAVM 2 5.8756180000000002E-1 1
WAVM 3 6.5627250000000004E-1 1
{unused}PWAV 2
POLS 1 0 1 0 0 1 0
GLRS 1 0
GSTD 0 100.000 100.000 100.000 100.000 100.000 100.000 0 1 1 0 0 1 1 1 1 1 1
NSCD 100 500 0 1.0E-3 5 1.0E-6 0 0 0 0 0 0 1000000 0 2
COFN QF \"COATING.DAT\" \"SCATTER_PROFILE.DAT\" \"ABG_DATA.DAT\" \"PROFILE.GRD\"
"
    )
}

fn surface(number: usize, curvature: f64, thickness: &str, semi: f64, glass: &str) -> String {
    let first = if number == 0 { "  FIMP \n" } else { "" };
    let stop = if number == 4 { "  STOP \n" } else { "" };
    let glass = if glass.is_empty() { String::new() } else { format!("  GLAS {glass} 0 0 1.5 4.0E+1 0 0 0 0 0 0\n") };
    format!(
        "SURF {number}\n{stop}  TYPE STANDARD\n{first}  CURV {curvature:.17E} 0 0 0 0 \"\"\n  HIDE 0 0 0 0 0 0 0 0 0 0\n  MIRR 2 0\n  SLAB {}\n  \
         DISZ {thickness}\n{glass}  DIAM {semi} 1 0 0 1 \"\"\n  MEMA {semi} 0 0 0 1 \"\"\n  POPS 0 0 0 0 0 0 0 0 1 1 1 1 0 0 0 0\n  FLAP 0 {semi} 0\n",
        number + 1
    )
}

/// The triplet of examples/ as such a file.
fn triplet() -> String {
    let lens = triplet_lens();
    let glasses = ["SK16", "", "F2", "", "SK16", "", ""];
    let surfaces = lens.surfaces.iter().zip(glasses).enumerate();
    let surfaces = surfaces.map(|(i, (s, glass))| surface(i + 1, 1.0 / s.radius_mm, &s.thickness_mm.to_string(), s.semi_diameter_mm, glass));
    let end = "TOL TOFF   0   0              0              0   0 0 0 0 0\nMNUM 1 1\nMOFF   0   1 \"\" 0 0 0 1 1 0 0.0 \"\" 0\n";
    head() + &surface(0, 0.0, "INFINITY", 0.0, "") + &surfaces.collect::<String>() + end
}

fn triplet_lens() -> Lens {
    read(&std::fs::read_to_string(example("triplet.lens")).unwrap()).unwrap().remove(0).job.lens
}

fn import(text: impl AsRef<[u8]>, more: &[&str]) -> (i32, String, String) {
    lensbench(&[&["import", "-"], &SK16[..], &F2, more].concat(), text)
}

/// The job that is written, where nothing is said.
fn taken(text: impl AsRef<[u8]>, more: &[&str]) -> Entry {
    let (status, out, err) = import(text, more);
    assert_eq!((status, err.as_str()), (0, ""));
    read(&out).unwrap().remove(0)
}

/// In each form in which these files come, with the line ends of Windows.
#[test]
fn forms() {
    let text = triplet().replace('\n', "\r\n");
    let utf16 = |bytes: fn(u16) -> [u8; 2], mark: &str| -> Vec<u8> { format!("{mark}{text}").encode_utf16().flat_map(bytes).collect() };
    let forms = [
        text.clone().into_bytes(),
        format!("\u{feff}{text}").into_bytes(),
        utf16(u16::to_le_bytes, "\u{feff}"),
        utf16(u16::to_be_bytes, "\u{feff}"),
        utf16(u16::to_le_bytes, ""),
        [&b"NOTE 0 \xb5m in a code page\r\n"[..], text.as_bytes()].concat(),
    ];
    for form in forms {
        let entry = taken(form, &[]);
        assert_eq!((entry.name.as_str(), entry.slots.join(" ").as_str()), ("A SIMPLE COOKE TRIPLET.", "486.1327nm 587.5618nm 656.2725nm"));
        let mut lens = entry.job.lens;
        for (got, given) in lens.surfaces.iter_mut().zip(triplet_lens().surfaces) {
            // a file has curvatures, and a radius comes back from one to its last digit or so
            assert!((1.0 - got.radius_mm / given.radius_mm).abs() < 1e-15 || got.radius_mm == given.radius_mm);
            got.radius_mm = given.radius_mm;
        }
        assert_eq!(lens, triplet_lens());
    }
}

/// What would change the lens is named with its line: what stands there, instead of what, and what is said of it.
#[test]
fn what_is_refused() {
    for (from, to, what) in [
        ("UNIT MM", "UNIT IN", "-:7: UNIT IN: only MM is known here, lengths in mm"),
        ("UNIT MM X W X CM MR CPMM\n", "", "-:1: no UNIT: lengths must be in mm (UNIT MM)"),
        ("MODE SEQ", "MODE NSC", "-:2: MODE NSC: only SEQ is known here"),
        ("ENPD 1.0E+1", "ENPD 0", "-:8: ENPD: 0 is not above 0"),
        ("ENPD 1.0E+1\n", "", "-:1: no ENPD: the entrance pupil's diameter is needed"),
        ("ENPD 1.0E+1", "FNUM 5 0", "-:8: FNUM: an aperture by its f-number is not known here, only the entrance pupil's diameter (ENPD)"),
        ("ENPD 1.0E+1", "OBNA 0.1 0", "-:8: OBNA: an aperture by its numerical aperture is not known here"),
        ("ENPD 1.0E+1", "FLOA", "-:8: FLOA: an aperture by the size of the stop is not known here"),
        ("WAVM 3 6.5627250000000004E-1", "WAVM 3 4.8613270000000002E-1", "-:1: 486.1327nm is there twice among the wavelengths"),
        ("WAVM 2", "WAVM 3", "-:27: WAVM 3 is out of order"),
        ("FTYP 0 0 3 3", "FTYP 0 0 3 5", "-:1: 5 wavelengths (WAVM): a job has 1 to 4; --waves chooses some"),
        ("DISZ INFINITY", "DISZ 1.0E+2", ": surface 0 is not at infinity"),
        ("DISZ INFINITY", "DISZ INFINITY\n  GLAS F2 0 0 1.5 40", ": GLAS: glass before the first surface is not known here"),
        ("DISZ 6.007551", "DISZ INFINITY", ": DISZ: surface 2 is infinitely thick; only the object (SURF 0) may be"),
        ("DISZ 6.007551", "DISZ 6,007551", ": DISZ: `6,007551` is no number"),
        ("  DISZ 6.007551\n", "", ": surface 2 has no line DISZ: is the file whole?"),
        ("DISZ 42.20778", "DISZ 42.20778\n  MAZH 0 0", ": MAZH: the thickness of surface 6 is solved for or picked up"),
        ("DISZ 2.952076", "DISZ 2.952076\n  PZUP 1 1 0 0", ": PZUP: the thickness of surface 5 is solved for or picked up"),
        ("DISZ 0\n", "DISZ 0\n  GLAS F2 0 0 1.5 40\n", ": surface 7 is the last and has glass behind it: is the file whole?"),
        ("2 0 0 0 0 \"\"\n  HIDE", "2 4 0 0 0 \"\"\n  HIDE", ": CURV: the curvature of surface 1 is solved for or picked up"),
        ("TYPE STANDARD\n  CURV -2", "TYPE EVENASPH\n  CURV -2", ": TYPE EVENASPH: only STANDARD is known here"),
        ("TYPE STANDARD\n  CURV -2", "TYPE COORDBRK\n  CURV -2", ": TYPE COORDBRK: only STANDARD is known here"),
        ("SLAB 3\n", "SLAB 3\n  PARM 2 1.5E-6\n", ": PARM 2: a parameter other than 0 is not known here"),
        ("SLAB 3\n", "SLAB 3\n  XDAT 1 3 0 0 1.0\n", ": XDAT is not known here; `--skip XDAT` passes over it"),
        ("GLAS F2 0", "GLAS MIRROR 0", ": GLAS MIRROR: a mirror is not known here"),
        ("GLAS F2 0", "GLAS F2 2", ": GLAS: the glass of surface 3 is solved for or picked up"),
        ("GLAS F2 0", "GLAS F2 4", ": GLAS F2 4: only a fixed glass (0), a model (1) and a pickup (2) are known here"),
        ("GLAS F2 0", "GLAS N-F2 0", "-:1: --glass F2: the file has no such glass"),
        ("SURF 4", "SURF 5", ": SURF 5: only 4 is known here, in order from 0"),
        ("MNUM 1", "MNUM 2", ": MNUM 2: only 1 is known here, one configuration"),
    ] {
        let text = triplet();
        assert!(text.contains(from), "{from}");
        let (status, out, err) = import(text.replacen(from, to, 1), &[]);
        assert_eq!((status, out.as_str(), err.lines().count()), (2, "", 1), "{to}: {err}");
        assert!(err.starts_with("-:") && err.contains(what), "{to}: {err}");
    }
    // what is no text does not reach a terminal, and a long word not in full
    let (_, _, err) = import(triplet() + "\x1b[31m 1\n", &[]);
    assert!(err.contains(": \u{fffd}[31m is not known here"), "{err}");
    assert!(import(triplet() + &"A".repeat(100_000), &[]).2.len() < 2100);
    for odd in ["", "job one\npupil 10\n", "PK\u{3}\u{4}\0\0"] {
        let (status, _, err) = import(odd, &[]);
        assert_eq!((status, err.as_str()), (2, "-:1: no line SURF: this is no Zemax text file\n"));
    }
}

/// The lines that docs/JOBS.md says are passed over.
#[test]
fn what_is_passed_over() {
    let document = std::fs::read_to_string(top().join("docs/JOBS.md")).unwrap();
    let list = document.split("```\n").find(|block| block.starts_with("VERS ")).unwrap();
    let lines: String = list.split_whitespace().map(|word| format!("{word} 1 2 3\n")).collect();
    assert_eq!(taken(triplet() + &lines, &[]), taken(triplet(), &[]));
}

/// What a user takes upon himself.
#[test]
fn liberties() {
    let plain = taken(triplet(), &[]);
    let solved = triplet().replace("DISZ 42.20778", "DISZ 42.20778\n  MAZH 0 0").replace("GLAS F2 0", "GLAS F2 2");
    assert_eq!(taken(solved, &["--solved"]), plain);
    assert_eq!(taken(triplet() + "ABCD 1\nEFGH 2\n", &["--skip", "ABCD,EFGH"]), plain);
    // not what is known to change the lens
    assert_eq!(import(triplet().replace("ENPD", "FNUM"), &["--skip", "FNUM"]).0, 2);
    // a model glass goes by its nd and Vd
    let model = triplet().replace("GLAS F2 0 0 1.5 4.0E+1", "GLAS ___BLANK 1 0 1.6200399999999999E+0 3.6369999999999997E+1");
    let (status, out, err) = lensbench(&[&["import", "-"], &SK16[..], &["--glass", "1.62004/36.37=1.63208,1.62004,1.61503"]].concat(), &model);
    assert_eq!((status, err.as_str()), (0, ""));
    assert_eq!(read(&out).unwrap()[0].job, plain.job);
    let (_, _, err) = lensbench(&[&["import", "-"], &SK16[..]].concat(), &model);
    assert!(err.contains("surface 3: no indices of 1.62004/36.37 are known here: --glass 1.62004/36.37=N,N,N gives them"), "{err}");
}

/// Options out of form.
#[test]
fn options() {
    for (words, what) in [
        (&["--semi", "-3"][..], "lensbench: --semi: -3 is not above 0 and up to 1000000000"),
        (&["--semi", "nan"], "lensbench: --semi: nan is not above 0"),
        (&["--semi", "3,4"], "lensbench: --semi takes one number"),
        (&["--glass", "X=1.5,1.6,11"], "lensbench: --glass: 11 is not above 0 and up to 10"),
        (&["--glass", "X=1.5;1.6"], "lensbench: --glass: `1.5;1.6` is no number"),
        (&["--glass", "X"], "lensbench: --glass X: write NAME=N,N.."),
        (&["--glass", "F2=1.6,1.6,1.6"], "lensbench: --glass F2 is there twice"),
        (&["--waves", "1,2"], "surface 1: 3 indices of SK16 for 2 wavelengths: --glass SK16=N,N"),
        (&["--waves", "1,25"], "-:1: --waves: there is no wavelength 25"),
        (&["--waves", "1,1,2"], "-:1: 486.1327nm is there twice"),
    ] {
        let (status, out, err) = import(triplet(), words);
        assert_eq!((status, out.as_str()), (2, ""), "{words:?}");
        assert!(err.contains(what), "{words:?}: {err}");
    }
}

/// A file of another version of the program: older lines, a conic, an image without a size.
#[test]
fn an_achromat() {
    let file = PathBuf::from(env!("CARGO_MANIFEST_DIR")).join("tests/data/achromat.zmx");
    let file = file.to_str().unwrap();
    let (status, out, err) = lensbench(&["import", file], "");
    assert_eq!((status, out.as_str()), (2, ""));
    assert!(err.contains(":30: surface 1: no indices of N-BK7 are known here: --glass N-BK7=N,N,N gives them"), "{err}");
    assert!(err.contains(": surface 4 has no semi-diameter (DIAM): --semi gives one"), "{err}");
    let glass = ["--glass", "N-BK7=1.52238,1.51680,1.51432", "--glass", "SF5=1.68750,1.67270,1.66661", "--semi", "12.7"];
    let (status, out, err) = lensbench(&[&["import", file][..], &glass].concat(), "");
    assert_eq!((status, err.as_str()), (0, ""));
    let entry = read(&out).unwrap().remove(0);
    let mut same = read(&std::fs::read_to_string(example("achromat.lens")).unwrap()).unwrap().remove(0).job.lens;
    same.surfaces[1].conic_constant = -0.5;
    assert_eq!((entry.name.as_str(), entry.slots.join(" ").as_str()), ("achromat for tests", "486.1nm 587.6nm 656.3nm"));
    assert_eq!(entry.job.lens, same);
}
