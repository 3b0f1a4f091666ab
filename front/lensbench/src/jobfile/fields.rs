//! One line of a job: slots, surface, vary, want.
use super::names::{AIMS, OF_VARIABLE, QUANTITIES};
use super::words::{number, number_or, Words};
use crate::format::counted;
use crate::lens::{Aim, Operand, Quantity, Surface, Variable};

/// The names of slots are each there once.
pub fn slots_apart(names: &[String]) -> Result<(), String> {
    match names.iter().enumerate().find(|(i, name)| names[..*i].contains(name)) {
        Some((_, name)) => Err(format!("slot `{name}` is there twice")),
        None => Ok(()),
    }
}

/// Radius, thickness, semi-diameter, conic, and the index behind the surface in each slot.
pub fn surface(mut words: Words, slots: &[String]) -> Result<(Surface, Vec<f64>), String> {
    let surface = Surface {
        radius_mm: radius(words.need("the radius")?)?,
        thickness_mm: column(&mut words, "the thickness")?,
        semi_diameter_mm: column(&mut words, "the semi-diameter")?,
        conic_constant: column(&mut words, "the conic")?,
    };
    Ok((surface, indices(words.rest(), slots)?))
}

/// What is said where a column is left out, or is there twice.
const BEFORE_THE_INDEX: &str = "before the index there are radius, thickness, semi-diameter and conic";

fn column(words: &mut Words, what: &str) -> Result<f64, String> {
    match words.need(what)? {
        "air" => Err(format!("{what} is missing: {BEFORE_THE_INDEX}")),
        word => number(word, what),
    }
}

fn radius(word: &str) -> Result<f64, String> {
    if word == "flat" {
        return Ok(f64::INFINITY);
    }
    number_or(word, "the radius", ", and not `flat`")
}

fn indices(words: Vec<&str>, slots: &[String]) -> Result<Vec<f64>, String> {
    if words == ["air"] {
        return Ok(vec![1.0; slots.len()]);
    }
    let named = listed(slots);
    if words.is_empty() && !slots.is_empty() {
        return Err(format!("the index is missing: `air`, or one for each slot ({named})"));
    }
    if words.contains(&"air") {
        return Err(format!("`air` must stand alone: {BEFORE_THE_INDEX}"));
    }
    let numbers = words.iter().map(|word| number_or(word, "the index", ", and not `air`")).collect::<Result<Vec<f64>, String>>()?;
    if numbers.len() != slots.len() {
        let (have, need) = (counted(numbers.len(), "index", "indices"), counted(slots.len(), "slot", "slots"));
        return Err(format!("{have} for {need} ({named}); {BEFORE_THE_INDEX}"));
    }
    Ok(numbers)
}

/// The names of the slots, for a message.
fn listed(slots: &[String]) -> String {
    if slots.is_empty() {
        "none: the line `slots` has no name".to_string()
    } else {
        slots.join(" ")
    }
}

/// Quantity and surface, then `from`, `to`, `step` with a number each, `same-at` or `opposite-at` with a surface, and `off`.
pub fn variable(mut words: Words) -> Result<Variable, String> {
    let quantity = Quantity::ALL[words.one_of("quantity to vary", &QUANTITIES)?];
    let mut variable = Variable::new(quantity, words.surface()?);
    let mut seen = Vec::new();
    while let Some(word) = words.next() {
        once(&mut seen, word)?;
        match word {
            "from" => variable.least = words.number_after(word)?,
            "to" => variable.greatest = words.number_after(word)?,
            "step" => variable.step = words.number_after(word)?,
            "same-at" | "opposite-at" => variable = followed(variable, word, words.surface()?)?,
            "off" => variable.enabled = false,
            _ => return Err(format!("`{word}` is none of {}", OF_VARIABLE.join(", "))),
        }
    }
    Ok(variable)
}

fn followed(variable: Variable, word: &str, surface: usize) -> Result<Variable, String> {
    match word {
        _ if variable.follower.is_some() => Err("a variable has same-at or opposite-at, and not both".to_string()),
        "same-at" => Ok(variable.same_at(surface)),
        _ => Ok(variable.opposite_at(surface)),
    }
}

/// What is looked at, then `target` and `weight` with a number each.
pub fn operand(mut words: Words, slots: &[String]) -> Result<Operand, String> {
    let kind = words.one_of("operand", &AIMS)?;
    let aim = aim(kind, &mut words, slots)?;
    let (mut target, mut weight) = (None, 1.0);
    let mut seen = Vec::new();
    while let Some(word) = words.next() {
        once(&mut seen, word)?;
        match word {
            "target" => target = Some(words.number_after(word)?),
            "weight" => weight = words.number_after(word)?,
            _ => return Err(format!("`{word}` is none of target, weight")),
        }
    }
    // what a thickness or an edge is beyond its limit is wanted to be 0
    let limit = aim.surface_and_limit();
    let target = target.or(limit.map(|_| 0.0)).ok_or_else(|| format!("{} has no target: add `target` and a number", AIMS[kind]))?;
    Ok(Operand { aim, target, weight })
}

fn aim(kind: usize, words: &mut Words, slots: &[String]) -> Result<Aim, String> {
    Ok(match kind {
        0 => Aim::FocalLength { slot: slot(words, slots)? },
        1 => Aim::FNumber { slot: slot(words, slots)? },
        2 => Aim::Track,
        3 => Aim::BackFocus { slot: slot(words, slots)? },
        4 => Aim::Magnification { slot: slot(words, slots)? },
        5 => Aim::LeastCentreThickness { surface: words.surface()?, limit_mm: words.number("the limit")? },
        6 => Aim::GreatestCentreThickness { surface: words.surface()?, limit_mm: words.number("the limit")? },
        _ => Aim::LeastEdgeThickness { surface: words.surface()?, limit_mm: words.number("the limit")? },
    })
}

/// A slot by its name, or by its number from 1.
fn slot(words: &mut Words, slots: &[String]) -> Result<usize, String> {
    let named = listed(slots);
    let word = words.need(&format!("the slot ({named})"))?;
    if let Some(at) = slots.iter().position(|name| name == word) {
        return Ok(at);
    }
    let digits = word.bytes().all(|b| b.is_ascii_digit());
    let number = word.parse::<u128>().ok().filter(|_| digits).and_then(|n| n.checked_sub(1)).and_then(|n| usize::try_from(n).ok());
    let missing = if ["target", "weight"].contains(&word) { "the slot is missing" } else { "no such slot" };
    number.ok_or_else(|| format!("`{word}`: {missing}; there are {named}"))
}

pub fn once<'a>(seen: &mut Vec<&'a str>, word: &'a str) -> Result<(), String> {
    if seen.contains(&word) {
        return Err(format!("`{word}` is there twice"));
    }
    seen.push(word);
    Ok(())
}
