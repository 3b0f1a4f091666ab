//! `lensbench import`: a Zemax file as a job file.
use super::args::{Args, Known};
use super::source::bytes_of;
use super::zmx::{self, Liberties, Prescription};
use super::{out, Done};
use lensbench::jobfile::{write, Entry, Lines};
use lensbench::{shortest, Job, Lens, Surface};
use std::collections::BTreeMap;

const KNOWN: Known = Known { marks: &["--solved"], values: &["--glass", "--waves", "--semi", "--skip"] };

pub fn import(words: &[String]) -> Done {
    let args = Args::read(words, &KNOWN)?;
    let [file] = args.some_files()? else {
        return Err("import takes one file".to_string());
    };
    let wishes = Wishes::of(&args)?;
    let skip = args.all("--skip").iter().flat_map(|words| words.split(',')).map(str::to_string).collect();
    let liberties = Liberties { solved: args.has("--solved"), skip };
    let complaints = match zmx::read(&decoded(&bytes_of(file)?), liberties).and_then(|found| wishes.entry(file, &found)) {
        Ok(entry) => return out::text(&format!("# from {}; add `vary`, `want` and `run`\n{}", file.replace(char::is_control, " "), write(&entry))),
        Err(complaints) => complaints,
    };
    for (line, what) in complaints {
        out::say(&format!("{file}:{line}: {what}"));
    }
    Ok(2)
}

/// These files come as UTF-16, mostly with a mark, as UTF-8 or in a code page; all that matters in them is ASCII.
fn decoded(bytes: &[u8]) -> String {
    let pairs = |of: fn([u8; 2]) -> u16| -> String {
        let units: Vec<u16> = bytes.chunks_exact(2).map(|pair| of([pair[0], pair[1]])).collect();
        String::from_utf16_lossy(&units)
    };
    let text = match bytes {
        [0xff, 0xfe, ..] | [_, 0, ..] => pairs(u16::from_le_bytes),
        [0xfe, 0xff, ..] | [0, _, ..] => pairs(u16::from_be_bytes),
        _ => String::from_utf8_lossy(bytes).into_owned(),
    };
    text.trim_start_matches('\u{feff}').to_string()
}

/// What the command line adds to a file.
struct Wishes {
    glass: BTreeMap<String, Vec<f64>>,
    waves: Option<Vec<usize>>,
    semi: Option<f64>,
}

fn list<T: std::str::FromStr>(option: &str, words: &str) -> Result<Vec<T>, String> {
    words.split(',').map(|word| word.trim().parse().map_err(|_| format!("{option}: `{word}` is no number"))).collect()
}

/// Numbers as the bench takes them for an index or a semi-diameter.
fn above_0(option: &str, words: &str, most: f64) -> Result<Vec<f64>, String> {
    let numbers: Vec<f64> = list(option, words)?;
    match numbers.iter().find(|x| !(**x > 0.0 && **x <= most)) {
        Some(x) => Err(format!("{option}: {} is not above 0 and up to {}", shortest(*x), shortest(most))),
        None => Ok(numbers),
    }
}

impl Wishes {
    fn of(args: &Args) -> Result<Wishes, String> {
        let mut glass = BTreeMap::new();
        for given in args.all("--glass") {
            let (name, numbers) = given.split_once('=').ok_or_else(|| format!("--glass {given}: write NAME=N,N.."))?;
            if glass.insert(name.to_string(), above_0("--glass", numbers, 10.0)?).is_some() {
                return Err(format!("--glass {name} is there twice"));
            }
        }
        let waves = args.one("--waves")?.map(|words| list("--waves", words)).transpose()?;
        let semi = match args.one("--semi")?.map(|word| above_0("--semi", word, 1e9)).transpose()?.as_deref() {
            None => None,
            Some([semi]) => Some(*semi),
            Some(_) => return Err("--semi takes one number".to_string()),
        };
        Ok(Wishes { glass, waves, semi })
    }

    fn entry(&self, file: &str, found: &Prescription) -> Result<Entry, zmx::Complaints> {
        let slots = self.slots(found)?;
        let used = |name: &String| found.surfaces.iter().any(|surface| surface.glass.as_ref() == Some(name));
        if let Some(name) = self.glass.keys().find(|name| !used(name)) {
            return Err(vec![(1, format!("--glass {name}: the file has no such glass"))]);
        }
        let mut lens = Lens::new(slots.len(), found.pupil_mm);
        let mut complaints = Vec::new();
        for surface in &found.surfaces {
            match (self.semi_diameter(surface), self.indices(surface, slots.len())) {
                (Ok(semi_diameter_mm), Ok(indices)) => {
                    let own = Surface {
                        radius_mm: surface.radius_mm(),
                        conic_constant: surface.conic,
                        thickness_mm: surface.thickness_mm,
                        semi_diameter_mm,
                    };
                    lens.push(own, &indices);
                }
                (semi, indices) => complaints.extend([semi.err(), indices.err()].into_iter().flatten().map(|what| (surface.line, what))),
            }
        }
        if !complaints.is_empty() {
            return Err(complaints);
        }
        let name = if found.name.is_empty() { file.to_string() } else { found.name.clone() };
        Ok(Entry { name, slots, job: Job::new(lens), lines: Lines::default() })
    }

    /// The wavelengths that become slots, named by their nm.
    fn slots(&self, found: &Prescription) -> Result<Vec<String>, zmx::Complaints> {
        let chosen: Vec<f64> = match &self.waves {
            None => found.waves_um.clone(),
            Some(numbers) => {
                let of = |n: &usize| {
                    found.waves_um.get(n.wrapping_sub(1)).copied().ok_or_else(|| vec![(1, format!("--waves: there is no wavelength {n}"))])
                };
                numbers.iter().map(of).collect::<Result<Vec<f64>, zmx::Complaints>>()?
            }
        };
        if chosen.is_empty() || chosen.len() > lensbench::limits::SLOTS {
            return Err(vec![(1, format!("{} wavelengths (WAVM): a job has 1 to 4; --waves chooses some", chosen.len()))]);
        }
        let names: Vec<String> = chosen.iter().map(|um| format!("{}nm", shortest((um * 1e7).round() / 1e4))).collect();
        match names.iter().enumerate().find(|(i, name)| names[..*i].contains(name)) {
            Some((_, name)) => Err(vec![(1, format!("{name} is there twice among the wavelengths (WAVM); --waves chooses others"))]),
            None => Ok(names),
        }
    }

    fn semi_diameter(&self, surface: &zmx::ZmxSurface) -> Result<f64, String> {
        let given = Some(surface.semi_diameter_mm).filter(|semi| *semi > 0.0);
        given.or(self.semi).ok_or_else(|| format!("surface {} has no semi-diameter (DIAM): --semi gives one", surface.number))
    }

    fn indices(&self, surface: &zmx::ZmxSurface, slots: usize) -> Result<Vec<f64>, String> {
        let Some(name) = &surface.glass else { return Ok(vec![1.0; slots]) };
        let option = format!("--glass {name}=N{}", ",N".repeat(slots.saturating_sub(1)));
        let given =
            self.glass.get(name).ok_or_else(|| format!("surface {}: no indices of {name} are known here: {option} gives them", surface.number))?;
        if given.len() != slots {
            let indices = if given.len() == 1 { "index" } else { "indices" };
            return Err(format!("surface {}: {} {indices} of {name} for {slots} wavelengths: {option}", surface.number, given.len()));
        }
        Ok(given.clone())
    }
}
