//! Job lines: a job in one line of hexadecimal words, as the test programs of this repository and the original take it (oracle/README.md).
use crate::job::{Annealing, Damped, Job, MultiStart, Run};
use crate::lens::{Aim, Follower, Lens, Operand, Quantity, Surface, Variable};
use crate::record::{aim_numbers, follower_numbers, quantity_number};
use std::str::SplitWhitespace;

/// What is asked of a line's job.
#[derive(Clone, Copy, Debug, PartialEq, Eq)]
pub enum Call {
    /// Its run: kinds 1 to 3.
    Run,
    /// Its lens's merit: kind 4.
    Evaluate,
    /// Its lens's rays: kind 5.
    Trace {
        /// The slot's number, from 0.
        slot: usize,
    },
}

/// A job line.
#[derive(Clone, Debug, PartialEq)]
pub struct Line {
    /// The word by which its answer is known.
    pub id: String,
    /// What is asked.
    pub call: Call,
    /// The job; of kinds 4 and 5 its run is not looked at.
    pub job: Job,
}

/// A float as 16 hexadecimal digits of its bits.
pub fn bits(x: f64) -> String {
    format!("{:016x}", if x.is_nan() { f64::NAN } else { x }.to_bits())
}

impl Line {
    /// The line's text. Blanks in its id become `_`.
    pub fn to_text(&self) -> String {
        let job = &self.job;
        let mut words: Vec<String> = vec!["J".into(), self.id.split_whitespace().collect::<Vec<_>>().join("_"), self.kind().to_string()];
        words.extend(["S".into(), job.lens.surfaces.len().to_string()]);
        for s in &job.lens.surfaces {
            words.extend([s.radius_mm, s.conic_constant, s.thickness_mm, s.semi_diameter_mm].map(bits));
        }
        words.extend(["I".into(), job.lens.slots.to_string()]);
        words.extend(job.lens.indices.iter().flatten().map(|n| bits(*n)));
        words.extend(["P".into(), bits(job.lens.pupil_mm), "V".into(), job.variables.len().to_string()]);
        words.extend(job.variables.iter().map(variable_text));
        words.extend(followers_text(&job.variables));
        words.extend(["O".into(), job.operands.len().to_string()]);
        words.extend(job.operands.iter().map(operand_text));
        words.push("C".into());
        words.extend(self.settings());
        words.join(" ")
    }

    /// Reads a line, or says what is wrong with it.
    pub fn of_text(text: &str) -> Result<Line, String> {
        let mut reader = Reader { words: text.split_whitespace() };
        let line = reader.line()?;
        match reader.words.next() {
            Some(word) => Err(format!("`{word}` is one word too many")),
            None => Ok(line),
        }
    }

    fn kind(&self) -> u64 {
        match (self.call, &self.job.run) {
            (Call::Run, Run::Damped(_)) => 1,
            (Call::Run, Run::MultiStart(_)) => 2,
            (Call::Run, Run::Annealing(_)) => 3,
            (Call::Evaluate, _) => 4,
            (Call::Trace { .. }, _) => 5,
        }
    }

    fn settings(&self) -> Vec<String> {
        match (self.call, &self.job.run) {
            (Call::Run, Run::Damped(d)) => damped_text(d),
            (Call::Run, Run::MultiStart(m)) => [damped_text(&m.local), vec![count(m.trials), seed(m.seed)]].concat(),
            (Call::Run, Run::Annealing(a)) => vec![float(a.temperature), float(a.cooling_rate), count(a.steps), count(a.cycles), seed(a.seed)],
            (Call::Evaluate, _) => Vec::new(),
            (Call::Trace { slot }, _) => vec![slot.to_string()],
        }
    }
}

/// The letter before the followers, which a line may do without.
const FOLLOWERS: &str = "F";

/// What stands for a setting that is left out.
const LEFT_OUT: &str = "d";

fn float(given: Option<f64>) -> String {
    given.map_or(LEFT_OUT.into(), bits)
}

fn count(given: Option<u64>) -> String {
    given.map_or(LEFT_OUT.into(), |n| n.to_string())
}

fn seed(given: Option<u64>) -> String {
    given.map_or(LEFT_OUT.into(), |n| format!("{n:016x}"))
}

fn damped_text(d: &Damped) -> Vec<String> {
    vec![count(d.max_iterations), float(d.initial_damping), float(d.merit_tolerance), float(d.gradient_tolerance), float(d.relative_step)]
}

fn variable_text(v: &Variable) -> String {
    format!("{} {} {} {} {} {}", quantity_number(v.quantity), v.surface, v.enabled as u8, bits(v.least), bits(v.greatest), bits(v.step))
}

/// The section F, which is there where some variable has a follower.
fn followers_text(variables: &[Variable]) -> Vec<String> {
    let followed = variables.iter().enumerate().filter(|(_, v)| v.follower.is_some());
    let texts: Vec<String> = followed
        .map(|(i, v)| {
            let (sign, surface) = follower_numbers(v.follower);
            format!("{i} {sign} {surface}")
        })
        .collect();
    if texts.is_empty() {
        return texts;
    }
    [vec![FOLLOWERS.into(), texts.len().to_string()], texts].concat()
}

fn operand_text(o: &Operand) -> String {
    let (kind, at, limit) = aim_numbers(&o.aim);
    format!("{kind} {at} {} {} {}", bits(limit), bits(o.target), bits(o.weight))
}

struct Reader<'a> {
    words: SplitWhitespace<'a>,
}

impl<'a> Reader<'a> {
    fn word(&mut self, what: &str) -> Result<&'a str, String> {
        self.words.next().ok_or_else(|| format!("the line ends before {what}"))
    }

    fn tag(&mut self, tag: &str) -> Result<(), String> {
        let word = self.word(&format!("`{tag}`"))?;
        if word == tag {
            Ok(())
        } else {
            Err(format!("`{word}` stands where `{tag}` is due"))
        }
    }

    fn whole(&mut self, what: &str) -> Result<u64, String> {
        let word = self.word(what)?;
        word.parse().ok().filter(|_| word.bytes().all(|b| b.is_ascii_digit())).ok_or_else(|| format!("{what}: `{word}` is no whole number"))
    }

    fn size(&mut self, what: &str) -> Result<usize, String> {
        usize::try_from(self.whole(what)?).map_err(|_| format!("{what} is too large"))
    }

    fn hex(&mut self, what: &str) -> Result<u64, String> {
        let word = self.word(what)?;
        hex(word).ok_or_else(|| format!("{what}: `{word}` is not 16 hexadecimal digits"))
    }

    fn float(&mut self, what: &str) -> Result<f64, String> {
        self.hex(what).map(f64::from_bits)
    }

    fn setting<T>(&mut self, what: &str, read: impl Fn(&str) -> Option<T>) -> Result<Option<T>, String> {
        match self.word(what)? {
            LEFT_OUT => Ok(None),
            word => read(word).map(Some).ok_or_else(|| format!("{what}: `{word}` is no such setting")),
        }
    }

    fn line(&mut self) -> Result<Line, String> {
        self.tag("J")?;
        let id = self.word("its name")?.to_string();
        let kind = self.whole("the kind")?;
        let lens = self.lens()?;
        let mut job = Job::new(lens);
        self.tag("V")?;
        for _ in 0..self.size("the number of variables")? {
            job.variables.push(self.variable()?);
        }
        self.followers(&mut job.variables)?;
        self.tag("O")?;
        for _ in 0..self.size("the number of operands")? {
            job.operands.push(self.operand()?);
        }
        self.tag("C")?;
        let (call, run) = self.settings(kind)?;
        job.run = run;
        Ok(Line { id, call, job })
    }

    fn lens(&mut self) -> Result<Lens, String> {
        let mut lens = Lens::new(0, 0.0);
        self.tag("S")?;
        for _ in 0..self.size("the number of surfaces")? {
            lens.surfaces.push(self.surface()?);
        }
        self.tag("I")?;
        lens.slots = self.size("the number of slots")?;
        for _ in 0..lens.surfaces.len() {
            let row = (0..lens.slots).map(|_| self.float("an index")).collect::<Result<Vec<f64>, String>>()?;
            lens.indices.push(row);
        }
        self.tag("P")?;
        lens.pupil_mm = self.float("the pupil")?;
        Ok(lens)
    }

    fn surface(&mut self) -> Result<Surface, String> {
        Ok(Surface {
            radius_mm: self.float("a radius")?,
            conic_constant: self.float("a conic")?,
            thickness_mm: self.float("a thickness")?,
            semi_diameter_mm: self.float("a semi-diameter")?,
        })
    }

    fn variable(&mut self) -> Result<Variable, String> {
        let kind = self.size("a variable's type")?;
        let quantity = *Quantity::ALL.get(kind).ok_or_else(|| format!("{kind} is no type of variable"))?;
        let surface = self.size("a variable's surface")?;
        let enabled = match self.whole("a variable's mark")? {
            0 => false,
            1 => true,
            other => return Err(format!("a variable's mark is 0 or 1, not {other}")),
        };
        let [least, greatest, step] = [self.float("a bound")?, self.float("a bound")?, self.float("a step")?];
        Ok(Variable { quantity, surface, enabled, least, greatest, step, follower: None })
    }

    fn followers(&mut self, variables: &mut [Variable]) -> Result<(), String> {
        if self.words.clone().next() != Some(FOLLOWERS) {
            return Ok(());
        }
        self.tag(FOLLOWERS)?;
        for _ in 0..self.size("the number of followers")? {
            let at = self.size("a follower's variable")?;
            let variable = variables.get_mut(at).ok_or_else(|| format!("a follower's variable {at} is not there"))?;
            let sign = self.whole("a follower's sign")?;
            let of_sign = match sign {
                1 => Follower::Plus,
                2 => Follower::Minus,
                other => return Err(format!("a follower's sign is 1 or 2, not {other}")),
            };
            variable.follower = Some(of_sign(self.size("a follower's surface")?));
        }
        Ok(())
    }

    fn operand(&mut self) -> Result<Operand, String> {
        let kind = self.whole("an operand's kind")?;
        let at = self.size("an operand's slot or surface")?;
        let limit_mm = self.float("a limit")?;
        let aim = match kind {
            0 => Aim::FocalLength { slot: at },
            1 => Aim::FNumber { slot: at },
            2 => Aim::Track,
            3 => Aim::BackFocus { slot: at },
            4 => Aim::Magnification { slot: at },
            5 => Aim::LeastCentreThickness { surface: at, limit_mm },
            6 => Aim::GreatestCentreThickness { surface: at, limit_mm },
            7 => Aim::LeastEdgeThickness { surface: at, limit_mm },
            other => return Err(format!("{other} is no kind of operand")),
        };
        Ok(Operand { aim, target: self.float("a target")?, weight: self.float("a weight")? })
    }

    fn settings(&mut self, kind: u64) -> Result<(Call, Run), String> {
        Ok(match kind {
            1 => (Call::Run, Run::Damped(self.damped()?)),
            2 => (
                Call::Run,
                Run::MultiStart(MultiStart { local: self.damped()?, trials: self.setting("trials", decimal)?, seed: self.setting("seed", hex)? }),
            ),
            3 => (Call::Run, Run::Annealing(self.annealing()?)),
            4 => (Call::Evaluate, Run::default()),
            5 => (Call::Trace { slot: self.size("the slot")? }, Run::default()),
            other => return Err(format!("{other} is no kind of job")),
        })
    }

    fn damped(&mut self) -> Result<Damped, String> {
        Ok(Damped {
            max_iterations: self.setting("iterations", decimal)?,
            initial_damping: self.setting("damping", of_bits)?,
            merit_tolerance: self.setting("merit tolerance", of_bits)?,
            gradient_tolerance: self.setting("gradient tolerance", of_bits)?,
            relative_step: self.setting("relative step", of_bits)?,
        })
    }

    fn annealing(&mut self) -> Result<Annealing, String> {
        Ok(Annealing {
            temperature: self.setting("temperature", of_bits)?,
            cooling_rate: self.setting("cooling", of_bits)?,
            steps: self.setting("steps", decimal)?,
            cycles: self.setting("cycles", decimal)?,
            seed: self.setting("seed", hex)?,
        })
    }
}

fn decimal(word: &str) -> Option<u64> {
    word.parse().ok().filter(|_| word.bytes().all(|b| b.is_ascii_digit()))
}

fn hex(word: &str) -> Option<u64> {
    let digits = word.len() == 16 && word.bytes().all(|b| b.is_ascii_hexdigit());
    u64::from_str_radix(word, 16).ok().filter(|_| digits)
}

fn of_bits(word: &str) -> Option<f64> {
    hex(word).map(f64::from_bits)
}
