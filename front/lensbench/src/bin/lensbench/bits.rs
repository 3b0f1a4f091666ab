//! The numbers of a result as 16 hexadecimal digits each.
use super::report::Found;
use lensbench::jobfile::aim_name;
use lensbench::lines::bits;
use lensbench::Surface;

pub fn found(found: &Found) -> String {
    let (entry, outcome) = (found.entry(), found.outcome);
    let mut text =
        format!("  bits: merit {} as given, {} at first, {} found\n", bits(found.given_merit), bits(outcome.first_merit), bits(outcome.final_merit));
    text += "  bits: radius, thickness, semi-diameter, conic of each surface\n";
    for (i, s) in outcome.surfaces.iter().enumerate() {
        text += &format!("    {} {}\n", i + 1, surface(s));
    }
    text += "  bits: value, residual of each operand\n";
    for (i, o) in entry.job.operands.iter().enumerate() {
        text += &operand(&aim_name(&o.aim, &entry.slots), outcome.values[i], outcome.residuals[i]);
    }
    text
}

fn surface(s: &Surface) -> String {
    s.columns().map(bits).join(" ")
}

pub fn operand(name: &str, value: f64, residual: f64) -> String {
    format!("    {} {} {name}\n", bits(value), bits(residual))
}
