//! Jobs about the greatest merit (request 6): the first total lies at it, so that lenses further from the track that is wanted overflow and nearer
//! ones do not.
use crate::genjob::{G, leave_out};
use crate::job::*;

pub fn job(seed: u64, num: u64, kind: &str) -> Job {
    let g = &mut G::new(seed, num ^ 6 << 40);
    let mut j = Job::blank(match kind {
        "damped" => 1,
        "multi" => 2,
        _ => 3,
    });
    j.id = format!("{seed}.{num}");
    lens(g, &mut j);
    for _ in 0..1 + g.below(4) {
        variable(g, &mut j);
    }
    operands(g, &mut j);
    j.maxit = g.pick(&[1, 2, 3, 5, 10, 20]);
    j.trials = g.pick(&[1, 2, 3, 5]);
    j.steps = g.pick(&[5, 15, 40]);
    j.cycles = g.pick(&[1, 3, 10]);
    j.temp = g.pick(&[j.temp, 1.0, 1e6, 1e300, 1e307, f64::MAX]);
    j.damping = g.pick(&[j.damping, 0.0, 1.0, 1e-3, 10.0]);
    j.seed = g.next();
    leave_out(&mut j, g);
    assert_eq!(j.check(), 0, "generated job refused: {}", j.print());
    j
}

fn lens(g: &mut G, j: &mut Job) {
    j.slots = 1 + g.below(2);
    j.pupil = g.u(2.0, 10.0);
    for i in 0..2 + g.below(5) {
        let r = g.u(20.0, 200.0);
        j.surfs.push(Surf { r: if g.chance(0.5) { r } else { -r }, k: 0.0, t: g.u(1.0, 30.0), s: g.u(5.0, 20.0) });
        for _ in 0..j.slots {
            j.idx.push(if i % 2 == 0 { g.u(1.45, 1.85) } else { 1.0 });
        }
    }
}

/// A thickness most of the time: the track follows it by as much.
fn variable(g: &mut G, j: &mut Job) {
    let ty = if j.vars.is_empty() || g.chance(0.7) { 1 } else { 0 };
    let surf = g.below(j.surfs.len());
    let (lo, hi, step) = if ty == 1 { (0.01, 500.0, g.logu(0.05, 5.0)) } else { (-0.5, 0.5, g.logu(1e-6, 1e-3)) };
    j.vars.push(Var { ty, surf, on: true, lo, hi, step, follower: None });
}

/// A track so far off that its term is the greatest float, or a part of it, or some of it too much; and what weighs next to nothing.
fn operands(g: &mut G, j: &mut Job) {
    let track: f64 = j.surfs.iter().map(|s| s.t).sum();
    let off = if g.chance(0.5) { g.u(20.0, 60.0) } else { -g.u(20.0, 60.0) };
    let at = g.pick(&[0.999999, 1.000001, 0.9999, 1.0001, 0.999, 1.001, 0.99, 1.01, 0.9, 1.1]);
    let weight = f64::MAX / (off * off) * at;
    for kind in [0, 3, 4] {
        if g.chance(0.3) {
            let (at, target, weight) = (g.below(j.slots), g.u(-100.0, 100.0), g.logu(1e-3, 1e3));
            j.ops.push(Op { kind, at, limit: 0.0, target, weight });
        }
    }
    j.ops.push(Op { kind: 2, at: 0, limit: 0.0, target: track - off, weight });
}
