//! `lensbench evaluate` and `lensbench trace`: a lens as it stands.
use super::args::{Args, Known};
use super::columns::{columns, Align};
use super::out::Out;
use super::source::{read_all, Source};
use super::{bits, json, report, table, Done};
use lensbench::causes::causes_of_evaluation;
use lensbench::jobfile::aim_name;
use lensbench::{shortest, Ray, Refusal};

pub fn evaluate(words: &[String]) -> Done {
    let args = Args::read(words, &Known { marks: &["--json", "--bits"], values: &[] })?;
    each(&args, |source| {
        let entry = &source.entry;
        let got = match entry.job.evaluate() {
            Ok(got) => got,
            Err(refusal) => return Ok(Err(refusal)),
        };
        if args.has("--json") {
            return Ok(Ok(json::evaluated(source, &got)));
        }
        let mut text = format!("{} ({})\n  merit {}\n\n", entry.name, source.at(entry.lines.job), shortest(got.merit));
        text += &table::operands(entry, &got.values, &got.residuals, got.merit);
        if args.has("--bits") {
            text += &format!("\n  bits: merit {}\n  bits: value, residual of each operand\n", lensbench::lines::bits(got.merit));
            for (i, o) in entry.job.operands.iter().enumerate() {
                text += &bits::operand(&aim_name(&o.aim, &entry.slots), got.values[i], got.residuals[i]);
            }
        }
        Ok(Ok(text + "\n"))
    })
}

pub fn trace(words: &[String]) -> Done {
    let args = Args::read(words, &Known { marks: &["--json", "--bits"], values: &["--slot"] })?;
    let slot = args.one("--slot")?;
    each(&args, |source| {
        let entry = &source.entry;
        let wanted: Vec<usize> = (0..entry.slots.len()).filter(|i| slot.map_or(true, |slot| slot == entry.slots[*i])).collect();
        if let (Some(slot), []) = (slot, &wanted[..]) {
            return Err(format!("{}: no slot `{slot}`; there are {}", source.at(entry.lines.job), entry.slots.join(" ")));
        }
        Ok(rays_of(source, &wanted)
            .map(|rays| if args.has("--json") { json::traced(source, &rays) } else { traced(source, &rays, args.has("--bits")) }))
    })
}

/// A slot's name, and its rays if there is a trace.
type SlotRays = (String, Option<Vec<Ray>>);

fn rays_of(source: &Source, slots: &[usize]) -> Result<Vec<SlotRays>, Refusal> {
    let entry = &source.entry;
    slots.iter().map(|slot| Ok((entry.slots[*slot].clone(), entry.job.lens.trace(*slot)?))).collect()
}

/// What is shown of a job, or its refusal; the outer error is one of usage.
type Shown = Result<Result<String, Refusal>, String>;

/// The same for each job of each file.
fn each(args: &Args, show: impl Fn(&Source) -> Shown) -> Done {
    let sources = read_all(args.some_files()?, false);
    let mut out = Out::new();
    let mut status = 0;
    for source in &sources.jobs {
        match show(source)? {
            Ok(text) => out.put(&text)?,
            Err(refusal) => {
                status = 1;
                let causes = causes_of_evaluation(&source.entry.job);
                report::print_causes(source, &causes);
                let text = if args.has("--json") { json::refused(source, refusal, causes) } else { table::refused(source, refusal) };
                out.put(&text)?;
            }
        }
    }
    out.flush()?;
    Ok(sources.status(status))
}

fn traced(source: &Source, slots: &[SlotRays], with_bits: bool) -> String {
    let entry = &source.entry;
    let mut text = format!("{} ({})\n", entry.name, source.at(entry.lines.job));
    for (slot, rays) in slots {
        text += &match rays {
            Some(rays) => ray_table(slot, rays, with_bits),
            None => format!("  slot {slot}: no trace; it needs two surfaces\n"),
        };
    }
    text + "\n"
}

fn ray_table(slot: &str, rays: &[Ray], with_bits: bool) -> String {
    let rows: Vec<Vec<String>> = rays
        .iter()
        .enumerate()
        .map(|(i, r)| {
            let mut cells = vec![(i + 1).to_string(), shortest(r.height_mm), shortest(r.slope)];
            if with_bits {
                cells.extend([r.height_mm, r.slope].map(lensbench::lines::bits));
            }
            cells
        })
        .collect();
    let mut heads = vec![("surface", Align::Left), ("height mm", Align::Point), ("slope behind it", Align::Point)];
    if with_bits {
        heads.extend([("bits of the height", Align::Left), ("bits of the slope", Align::Left)]);
    }
    format!("  slot {slot}\n{}", columns(&heads, &rows, "  "))
}
