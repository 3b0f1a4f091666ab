//! The words of job files, each in one place.
use crate::job::Run;
use crate::lens::{Aim, Follower, Quantity};

pub const KEYWORDS: [&str; 7] = ["job", "slots", "pupil", "surface", "vary", "want", "run"];
pub const QUANTITIES: [&str; 4] = ["curvature", "thickness", "conic", "semi-diameter"];
pub const OF_VARIABLE: [&str; 6] = ["from", "to", "step", "same-at", "opposite-at", "off"];
pub const AIMS: [&str; 8] =
    ["focal-length", "f-number", "track", "back-focus", "magnification", "centre-at-least", "centre-at-most", "edge-at-least"];
pub const RUNS: [&str; 3] = ["damped", "multi-start", "annealing"];
pub const DAMPED_SETTINGS: [&str; 5] = ["iterations", "damping", "merit-tolerance", "gradient-tolerance", "relative-step"];
pub const MULTI_START_SETTINGS: [&str; 7] = ["iterations", "damping", "merit-tolerance", "gradient-tolerance", "relative-step", "trials", "seed"];
pub const ANNEALING_SETTINGS: [&str; 5] = ["temperature", "cooling", "steps", "cycles", "seed"];
/// The slot of a job that names none.
pub const ONE_SLOT: &str = "d";

/// A quantity as it is written after `vary`.
pub fn quantity_name(quantity: Quantity) -> &'static str {
    let at = Quantity::ALL.iter().position(|&q| q == quantity).unwrap_or(0);
    QUANTITIES[at]
}

/// A follower as it is written behind a variable.
pub fn follower_name(follower: Follower) -> String {
    let word = match follower {
        Follower::Plus(_) => OF_VARIABLE[3],
        Follower::Minus(_) => OF_VARIABLE[4],
    };
    format!("{word} {}", follower.surface() as u128 + 1)
}

/// A run as it is written after `run`.
pub fn run_name(run: &Run) -> &'static str {
    match run {
        Run::Damped(_) => RUNS[0],
        Run::MultiStart(_) => RUNS[1],
        Run::Annealing(_) => RUNS[2],
    }
}

/// What an operand looks at, as it is written after `want`. A slot that is not there goes by its number, from 1.
pub fn aim_name(aim: &Aim, slots: &[String]) -> String {
    let slot = |at: usize| slots.get(at).cloned().unwrap_or_else(|| (at as u128 + 1).to_string());
    let limited = |name: &str, surface: usize, limit_mm: f64| format!("{name} {} {}", surface as u128 + 1, crate::shortest(limit_mm));
    match *aim {
        Aim::FocalLength { slot: at } => format!("{} {}", AIMS[0], slot(at)),
        Aim::FNumber { slot: at } => format!("{} {}", AIMS[1], slot(at)),
        Aim::Track => AIMS[2].to_string(),
        Aim::BackFocus { slot: at } => format!("{} {}", AIMS[3], slot(at)),
        Aim::Magnification { slot: at } => format!("{} {}", AIMS[4], slot(at)),
        Aim::LeastCentreThickness { surface, limit_mm } => limited(AIMS[5], surface, limit_mm),
        Aim::GreatestCentreThickness { surface, limit_mm } => limited(AIMS[6], surface, limit_mm),
        Aim::LeastEdgeThickness { surface, limit_mm } => limited(AIMS[7], surface, limit_mm),
    }
}

/// Among the words that are known, those that a mistyped one may have meant, for a message: "there are a, b, c; did you mean b?"
pub fn choice(word: &str, known: &[&str]) -> String {
    let (list, word) = (known.join(", "), word.to_lowercase());
    match known.iter().min_by_key(|k| distance(&word, k)) {
        Some(near) if distance(&word, near) <= 2 => format!("there are {list}; did you mean `{near}`?"),
        _ => format!("there are {list}"),
    }
}

/// How many letters are to be put in, taken out or changed.
fn distance(a: &str, b: &str) -> usize {
    let b: Vec<char> = b.chars().collect();
    let mut row: Vec<usize> = (0..=b.len()).collect();
    for (i, x) in a.chars().enumerate() {
        let mut corner = row[0];
        row[0] = i + 1;
        for (j, y) in b.iter().enumerate() {
            let changed = corner + usize::from(x != *y);
            corner = row[j + 1];
            row[j + 1] = changed.min(row[j] + 1).min(corner + 1);
        }
    }
    row[b.len()]
}
