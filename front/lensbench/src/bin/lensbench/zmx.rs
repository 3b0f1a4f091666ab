//! Zemax's text files, as far as they are plain sequential prescriptions.

/// Lines and what is wrong with them.
pub type Complaints = Vec<(usize, String)>;

#[derive(Default)]
pub struct Prescription {
    pub name: String,
    pub pupil_mm: f64,
    /// in µm
    pub waves_um: Vec<f64>,
    /// without the object
    pub surfaces: Vec<ZmxSurface>,
}

#[derive(Default)]
pub struct ZmxSurface {
    pub number: usize,
    pub line: usize,
    /// whether there was a line CURV and one DISZ, in form or not
    given: [bool; 2],
    pub curvature: f64,
    pub conic: f64,
    /// no number until DISZ has given one
    pub thickness_mm: f64,
    pub semi_diameter_mm: f64,
    pub glass: Option<String>,
}

impl ZmxSurface {
    pub fn radius_mm(&self) -> f64 {
        if self.curvature == 0.0 {
            f64::INFINITY
        } else {
            1.0 / self.curvature
        }
    }
}

/// What a user takes upon himself.
#[derive(Default)]
pub struct Liberties {
    /// numbers that the file solves for are taken as they were when it was saved
    pub solved: bool,
    /// keywords that are not known here and are passed over
    pub skip: Vec<String>,
}

/// Lines that are passed over: they say nothing of the lens on its axis. Version, notes, surroundings, catalogues, ray aiming, fields and vignetting, weights,
/// polarization, coatings, how things are shown, apertures that only stop light, the stop's place, mechanical sizes, tolerances.
const PASSED_OVER: &str = "VERS NOTE PFIL LANG ENVD GFAC GCAT RAIM PUSH SDMA ROPD PICB XFLN YFLN FWGN VDXN VDYN VCXN VCYN VANN XFLD YFLD FWGT \
    WWGT PWAV POLS GLRS GSTD NSCD COFN COMM STOP FIMP COAT HIDE SLAB POPS FLAP CLAP MEMA OEMA TOL MOFF";

/// Apertures that would have to be turned into a diameter of the entrance pupil.
const APERTURES: [(&str, &str); 3] = [("FNUM", "by its f-number"), ("OBNA", "by its numerical aperture"), ("FLOA", "by the size of the stop")];

/// The prescription, or everything in the file that this does not know.
pub fn read(text: &str, liberties: Liberties) -> Result<Prescription, Complaints> {
    let keyword = |line: &str, word: &str| line.split_whitespace().next() == Some(word);
    if !text.lines().any(|line| keyword(line, "SURF")) {
        return Err(vec![(1, "no line SURF: this is no Zemax text file".to_string())]);
    }
    let mut reader = Reader { liberties, ..Default::default() };
    let mut complaints = Vec::new();
    for (i, line) in text.lines().enumerate() {
        if let Err(what) = reader.line(i + 1, line) {
            complaints.push((i + 1, what));
        }
    }
    complaints.extend(reader.missing());
    complaints.sort_by_key(|(line, _)| *line);
    if complaints.is_empty() {
        Ok(reader.done())
    } else {
        Err(complaints)
    }
}

#[derive(Default)]
struct Reader {
    liberties: Liberties,
    found: Prescription,
    /// whether there was a line with an aperture and one with units, in form or not
    aperture: bool,
    unit: bool,
    /// how many wavelengths are in use, where the file says so
    waves: Option<usize>,
}

fn number(words: &[&str], at: usize) -> Result<f64, String> {
    let word = words.get(at).ok_or_else(|| format!("{}: a number is missing", words[0]))?;
    word.parse::<f64>().ok().filter(|x| x.is_finite()).ok_or_else(|| format!("{}: `{word}` is no number", words[0]))
}

impl Reader {
    fn line(&mut self, line: usize, text: &str) -> Result<(), String> {
        let words: Vec<&str> = text.split_whitespace().collect();
        let Some(keyword) = words.first() else { return Ok(()) };
        match *keyword {
            "SURF" => self.surface(line, &words),
            "NAME" => self.named(&words),
            "MODE" => only(&words, "SEQ", "a sequential file"),
            "UNIT" => self.units(&words),
            "ENPD" => self.pupil(&words),
            "FTYP" => self.fields(&words),
            "WAVM" => self.wave(&words),
            "MNUM" => only(&words, "1", "one configuration"),
            "CURV" | "DISZ" | "DIAM" | "CONI" | "GLAS" | "TYPE" | "PARM" | "MIRR" | "MAZH" | "PZUP" => self.of_surface(&words),
            word if PASSED_OVER.split_whitespace().any(|known| known == word) => Ok(()),
            word => self.other(word),
        }
    }

    fn other(&mut self, word: &str) -> Result<(), String> {
        if let Some((_, how)) = APERTURES.iter().find(|(aperture, _)| *aperture == word) {
            self.aperture = true;
            return Err(format!("{word}: an aperture {how} is not known here, only the entrance pupil's diameter (ENPD)"));
        }
        if self.liberties.skip.iter().any(|skipped| skipped == word) {
            return Ok(());
        }
        Err(format!("{word} is not known here; `--skip {word}` passes over it, if it does not change the lens"))
    }

    fn surface(&mut self, line: usize, words: &[&str]) -> Result<(), String> {
        let number = self.found.surfaces.len();
        self.found.surfaces.push(ZmxSurface { number, line, thickness_mm: f64::NAN, ..Default::default() });
        only(words, &number.to_string(), "in order from 0")
    }

    fn named(&mut self, words: &[&str]) -> Result<(), String> {
        self.found.name = words[1..].join(" ").replace('#', " ").split_whitespace().collect::<Vec<_>>().join(" ");
        Ok(())
    }

    fn units(&mut self, words: &[&str]) -> Result<(), String> {
        self.unit = true;
        only(words, "MM", "lengths in mm")
    }

    fn pupil(&mut self, words: &[&str]) -> Result<(), String> {
        self.aperture = true;
        self.found.pupil_mm = number(words, 1)?;
        positive("ENPD", self.found.pupil_mm)
    }

    /// The fourth number of the line is that of wavelengths in use.
    fn fields(&mut self, words: &[&str]) -> Result<(), String> {
        self.waves = words.get(4).and_then(|word| word.parse().ok());
        Ok(())
    }

    fn wave(&mut self, words: &[&str]) -> Result<(), String> {
        let (at, um) = (number(words, 1)?, number(words, 2)?);
        self.found.waves_um.push(um);
        if at != self.found.waves_um.len() as f64 {
            return Err(format!("WAVM {at} is out of order"));
        }
        positive("WAVM", um)
    }

    fn of_surface(&mut self, words: &[&str]) -> Result<(), String> {
        let solved = self.liberties.solved;
        let Some(surface) = self.found.surfaces.last_mut() else {
            return Err(format!("{} stands before the first SURF", words[0]));
        };
        let at = surface.number;
        match words[0] {
            "CURV" => {
                surface.given[0] = true;
                surface.curvature = number(words, 1)?;
                // behind the number: 0 where it is fixed, 1 where it may vary, and more where it is solved for
                let fixed = matches!(words.get(2), None | Some(&"0" | &"1"));
                unsolved(fixed || solved, "CURV", &format!("the curvature of surface {at}"))?;
            }
            "DISZ" => {
                surface.given[1] = true;
                surface.thickness_mm = thickness(words, at)?;
            }
            "MAZH" | "PZUP" => unsolved(solved, words[0], &format!("the thickness of surface {at}"))?,
            "DIAM" => surface.semi_diameter_mm = number(words, 1)?,
            "CONI" => surface.conic = number(words, 1)?,
            "GLAS" if at == 0 => return Err("GLAS: glass before the first surface is not known here".to_string()),
            "GLAS" => surface.glass = Some(glass(words, at, solved)?),
            "TYPE" => only(words, "STANDARD", "a surface of revolution, spherical or conic")?,
            "PARM" if number(words, 2)? != 0.0 => return Err(format!("PARM {}: a parameter other than 0 is not known here", words[1])),
            "MIRR" if number(words, 1)? != 2.0 => return Err(format!("MIRR {}: only 2 is known here, no mirror", words[1])),
            _ => {}
        }
        Ok(())
    }

    fn missing(&self) -> Complaints {
        let mut missing = Vec::new();
        if !self.aperture {
            missing.push((1, "no ENPD: the entrance pupil's diameter is needed".to_string()));
        }
        if !self.unit {
            missing.push((1, "no UNIT: lengths must be in mm (UNIT MM)".to_string()));
        }
        if self.found.surfaces.len() < 3 {
            missing.push((1, "fewer than two surfaces behind the object (SURF)".to_string()));
        }
        for surface in &self.found.surfaces {
            let mut lacks = |good: bool, what: &str| missing.extend((!good).then(|| (surface.line, format!("surface {} {what}", surface.number))));
            lacks(surface.given[0], "has no line CURV: is the file whole?");
            lacks(surface.given[1], "has no line DISZ: is the file whole?");
            lacks(
                surface.number > 0 || !surface.thickness_mm.is_finite(),
                "is not at infinity: it is the object, and rays here come in parallel to the axis",
            );
            lacks(
                surface.number + 1 < self.found.surfaces.len() || surface.glass.is_none(),
                "is the last and has glass behind it: is the file whole?",
            );
        }
        missing
    }

    /// The first surface is the object, and wavelengths past those in use are the file's defaults.
    fn done(mut self) -> Prescription {
        self.found.surfaces.remove(0);
        if let Some(waves) = self.waves.filter(|n| *n > 0) {
            self.found.waves_um.truncate(waves);
        }
        self.found
    }
}

fn only(words: &[&str], known: &str, what: &str) -> Result<(), String> {
    match words.get(1) {
        Some(word) if *word == known => Ok(()),
        other => Err(format!("{} {}: only {known} is known here, {what}", words[0], other.unwrap_or(&""))),
    }
}

fn positive(keyword: &str, x: f64) -> Result<(), String> {
    if x > 0.0 {
        return Ok(());
    }
    Err(format!("{keyword}: {} is not above 0", lensbench::shortest(x)))
}

/// A number that the file works out from others belongs to that lens alone, and stays as it is when ours changes.
fn unsolved(good: bool, keyword: &str, what: &str) -> Result<(), String> {
    if good {
        return Ok(());
    }
    Err(format!("{keyword}: {what} is solved for or picked up; `--solved` takes it as it was when the file was saved"))
}

/// The object alone is at infinity.
fn thickness(words: &[&str], surface: usize) -> Result<f64, String> {
    match words.get(1) {
        Some(&"INFINITY") if surface == 0 => Ok(f64::INFINITY),
        Some(&"INFINITY") => Err(format!("DISZ: surface {surface} is infinitely thick; only the object (SURF 0) may be")),
        _ => number(words, 1),
    }
}

/// The name of a glass. A model glass has none: it goes by its nd and Vd, `1.6/50`.
fn glass(words: &[&str], surface: usize, solved: bool) -> Result<String, String> {
    let name = *words.get(1).ok_or("GLAS: the name is missing")?;
    let way = words.get(2).copied().unwrap_or("0");
    match way {
        _ if name == "MIRROR" => return Err("GLAS MIRROR: a mirror is not known here".to_string()),
        "2" => unsolved(solved, "GLAS", &format!("the glass of surface {surface}"))?,
        "0" | "1" => {}
        _ => return Err(format!("GLAS {name} {way}: only a fixed glass (0), a model (1) and a pickup (2) are known here")),
    }
    if way == "1" || name == "___BLANK" {
        return Ok([number(words, 4)?, number(words, 5)?].map(lensbench::shortest).join("/"));
    }
    Ok(name.to_string())
}
