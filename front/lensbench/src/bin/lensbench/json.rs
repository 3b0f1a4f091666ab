//! Results for programs: one object of JSON a line. A number has 17 digits and its bits; one that is not finite has the value null.
use super::report::{changed, line_of, share, Found};
use super::source::Source;
use lensbench::causes::Cause;
use lensbench::jobfile::{aim_name, run_name, Entry};
use lensbench::lines::bits;
use lensbench::{Evaluation, Ray, Refusal};

/// What JSON has.
pub enum Json {
    Null,
    Bool(bool),
    Whole(u64),
    Float(f64),
    Text(String),
    List(Vec<Json>),
    Object(Vec<(&'static str, Json)>),
}

impl std::fmt::Display for Json {
    fn fmt(&self, f: &mut std::fmt::Formatter<'_>) -> std::fmt::Result {
        match self {
            Json::Null => f.write_str("null"),
            Json::Bool(b) => write!(f, "{b}"),
            Json::Whole(n) => write!(f, "{n}"),
            Json::Float(x) if x.is_finite() => write!(f, "{{\"value\":{x:.16e},\"bits\":\"{}\"}}", bits(*x)),
            Json::Float(x) => write!(f, "{{\"value\":null,\"bits\":\"{}\"}}", bits(*x)),
            Json::Text(text) => quoted(f, text),
            Json::List(list) => bracketed(f, '[', ']', list, |f, item| write!(f, "{item}")),
            Json::Object(fields) => bracketed(f, '{', '}', fields, |f, (name, value)| write!(f, "\"{name}\":{value}")),
        }
    }
}

type Put<T> = fn(&mut std::fmt::Formatter<'_>, &T) -> std::fmt::Result;

fn bracketed<T>(f: &mut std::fmt::Formatter<'_>, open: char, close: char, items: &[T], put: Put<T>) -> std::fmt::Result {
    write!(f, "{open}")?;
    for (i, item) in items.iter().enumerate() {
        f.write_str(if i == 0 { "" } else { "," })?;
        put(f, item)?;
    }
    write!(f, "{close}")
}

fn quoted(f: &mut std::fmt::Formatter<'_>, text: &str) -> std::fmt::Result {
    f.write_str("\"")?;
    for c in text.chars() {
        match c {
            '"' | '\\' => write!(f, "\\{c}")?,
            c if c < ' ' => write!(f, "\\u{:04x}", c as u32)?,
            c => write!(f, "{c}")?,
        }
    }
    f.write_str("\"")
}

fn text(of: &str) -> Json {
    Json::Text(of.to_string())
}

fn floats(of: &[f64]) -> Json {
    Json::List(of.iter().map(|x| Json::Float(*x)).collect())
}

/// File, line and name of a job, and what became of it.
fn head(source: &Source, status: &str) -> Vec<(&'static str, Json)> {
    let entry = &source.entry;
    vec![("file", text(&source.file)), ("line", Json::Whole(entry.lines.job as u64)), ("name", text(&entry.name)), ("status", text(status))]
}

fn line(fields: Vec<(&'static str, Json)>) -> String {
    format!("{}\n", Json::Object(fields))
}

pub fn refused(source: &Source, refusal: Refusal, causes: Vec<Cause>) -> String {
    let entry = &source.entry;
    let mut fields = head(source, "refused");
    fields.extend([("number", Json::Whole(refusal.number().into())), ("sentence", text(refusal.sentence()))]);
    let list = causes.into_iter().map(|cause| {
        let at = line_of(&entry.lines, cause.part) as u64;
        Json::Object(vec![("line", Json::Whole(at)), ("number", Json::Whole(cause.refusal.number().into())), ("what", Json::Text(cause.what))])
    });
    fields.push(("causes", Json::List(list.collect())));
    line(fields)
}

pub fn found(found: &Found) -> String {
    let (entry, outcome) = (found.entry(), found.outcome);
    let mut fields = head(found.source, "done");
    fields.extend([
        ("run", text(run_name(&entry.job.run))),
        ("given_merit", Json::Float(found.given_merit)),
        ("first_merit", Json::Float(outcome.first_merit)),
        ("final_merit", Json::Float(outcome.final_merit)),
        ("iterations", Json::Whole(outcome.iterations)),
        ("turns", Json::Whole(found.turns)),
        ("turn_bound", Json::Whole(entry.job.turn_bound())),
        ("converged", Json::Bool(outcome.converged)),
        ("pupil_mm", Json::Float(entry.job.lens.pupil_mm)),
        ("slots", Json::List(entry.slots.iter().map(|slot| text(slot)).collect())),
        ("surfaces", surfaces(found)),
        ("operands", operands(entry, &outcome.values, &outcome.residuals, outcome.final_merit)),
    ]);
    line(fields)
}

const COLUMNS: [&str; 4] = ["radius_mm", "thickness_mm", "semi_diameter_mm", "conic"];

fn surfaces(found: &Found) -> Json {
    let lens = &found.entry().job.lens;
    let of = |(i, s): (usize, &lensbench::Surface)| {
        let marks = changed(&lens.surfaces[i], s);
        let named = COLUMNS.iter().zip(marks).filter(|(_, mark)| *mark).map(|(name, _)| text(name));
        let numbers = COLUMNS.iter().zip(s.columns()).map(|(name, x)| (*name, Json::Float(x)));
        let more = [("indices", floats(&lens.indices[i])), ("changed", Json::List(named.collect()))];
        Json::Object(numbers.chain(more).collect())
    };
    Json::List(found.outcome.surfaces.iter().enumerate().map(of).collect())
}

fn operands(entry: &Entry, values: &[f64], residuals: &[f64], merit: f64) -> Json {
    let of = |(i, o): (usize, &lensbench::Operand)| {
        Json::Object(vec![
            ("name", Json::Text(aim_name(&o.aim, &entry.slots))),
            ("value", Json::Float(values[i])),
            ("target", Json::Float(o.target)),
            ("weight", Json::Float(o.weight)),
            ("residual", Json::Float(residuals[i])),
            ("share", share(residuals[i], merit).map_or(Json::Null, Json::Float)),
        ])
    };
    Json::List(entry.job.operands.iter().enumerate().map(of).collect())
}

pub fn evaluated(source: &Source, got: &Evaluation) -> String {
    let mut fields = head(source, "done");
    fields.push(("merit", Json::Float(got.merit)));
    fields.push(("operands", operands(&source.entry, &got.values, &got.residuals, got.merit)));
    line(fields)
}

/// The rays of each slot that was asked for, null where there is no trace.
pub fn traced(source: &Source, slots: &[(String, Option<Vec<Ray>>)]) -> String {
    let rays = |of: &[Ray]| {
        Json::List(of.iter().map(|r| Json::Object(vec![("height_mm", Json::Float(r.height_mm)), ("slope", Json::Float(r.slope))])).collect())
    };
    let list = slots.iter().map(|(slot, of)| Json::Object(vec![("slot", text(slot)), ("rays", of.as_deref().map_or(Json::Null, rays))]));
    let mut fields = head(source, "done");
    fields.push(("slots", Json::List(list.collect())));
    line(fields)
}
