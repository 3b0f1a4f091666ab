//! Jobs with least-edge operands (request 3): a job of the base generator, with semi-diameters near the radius of curvature, so that t lies near 0
//! and below it, in the lens as it comes and in the run; limits at and about the edge; successors that are absent.
use crate::genjob::{self, G};
use crate::job::*;

pub fn job(seed: u64, num: u64, kind: &str) -> Job {
    let mut j = genjob::job(seed, num, kind);
    let g = &mut G::new(seed, num ^ 3 << 40);
    let n = j.surfs.len();
    if j.kind <= 3 && j.surfs.len() < 2 {
        return with_operands(g, j);
    }
    for i in 0..n {
        if g.chance(0.7) {
            surface(g, &mut j, i);
        }
    }
    if j.kind <= 3 {
        for _ in 0..1 + g.below(4) {
            variable(g, &mut j);
        }
    }
    with_operands(g, j)
}

/// A surface whose t is near 0, at 0, below it, or anywhere; its successor as wide, wider, or less wide.
fn surface(g: &mut G, j: &mut Job, i: usize) {
    let s = &mut j.surfs[i];
    let size = if g.chance(0.3) { g.pick(&[4.0, 8.0, 16.0, 32.0]) } else { g.u(4.0, 90.0) };
    s.r = g.sign(size);
    s.k = match g.below(8) {
        0..=3 => 0.0,
        4 => -0.0,
        5 => g.pick(&[-1.0, 3.0, -2.0, 1e308, -1e308, f64::MAX, -f64::MAX, -1.0 - 1e-9]),
        _ => g.u(-0.9, 4.0),
    };
    let end = size / (1.0 + s.k).abs().sqrt();
    let end = if end > 1e-9 && end < 1e9 { end } else { size };
    s.s = match g.below(6) {
        0..=1 => end,
        2 => end * (1.0 - g.logu(1e-15, 1e-3)),
        3 => end * (1.0 + g.logu(1e-15, 1e-3)),
        4 => end * g.u(0.9, 1.1),
        _ => end * g.u(0.1, 1.5),
    };
    let wide = s.s;
    if i + 1 < j.surfs.len() && g.chance(0.7) {
        j.surfs[i + 1].s = wide * g.pick(&[1.0, 1.0, 1.25, 2.0, 0.999]);
    }
}

/// A variable that moves t: one of its bounds is often where t is 0.
fn variable(g: &mut G, j: &mut Job) {
    let surf = g.below(j.surfs.len());
    let s = j.surfs[surf];
    let size = if s.r.is_finite() && s.r.abs() > 1e-3 && s.r.abs() < 1e6 { s.r.abs() } else { 20.0 };
    let far = g.pick(&[1.0, 1.0, 1.0 + 1e-9, 1.01, 1.5]);
    let wide = if s.s > 1e-3 && s.s < 1e6 { s.s } else { 10.0 };
    let (ty, lo, hi, step) = match g.below(10) {
        0..=2 => (0, -far / wide, far / wide, g.pick(&[1e-6, 1e-3, 1e-5])),
        3 => (1, 0.01, 100.0, 1e-4),
        4..=6 => (2, g.pick(&[-3.0, -1.0, -0.5]), g.pick(&[0.0, 0.5, 3.0]), g.pick(&[1e-4, 1e-2, 0.1])),
        _ => (3, size * 0.5, size * far, g.pick(&[1e-3, 1e-2, 0.5])),
    };
    let v = Var { ty, surf, on: g.chance(0.9), lo, hi, step, follower: None };
    if j.vars.len() < 8 {
        j.vars.push(v);
    } else {
        let at = g.below(8);
        j.vars[at] = v;
    }
    if j.enabled() == 0 {
        j.vars[0].on = true;
    }
}

fn with_operands(g: &mut G, mut j: Job) -> Job {
    for _ in 0..1 + g.below(4) {
        let o = operand(g, &j);
        if j.ops.len() < 12 {
            let at = g.below(j.ops.len() + 1);
            j.ops.insert(at, o);
        } else {
            let at = g.below(12);
            j.ops[at] = o;
        }
    }
    assert_eq!(j.check(), 0, "generated job refused: {}", j.print());
    j
}

/// Of a surface with a successor most of the time; the limit at the edge, a little above it, about it, anywhere.
fn operand(g: &mut G, j: &Job) -> Op {
    let n = j.surfs.len();
    let at = match g.below(12) {
        0 => g.pick(&[n, n + 1, n.max(1) - 1, 16, 1 << 40, usize::MAX, usize::MAX - 1, 1 << 63]),
        _ => g.below(n.max(2) - 1),
    };
    let edge = ts_and_edge(&j.surfs, at).1.unwrap_or(2.0);
    let limit = match g.below(8) {
        0 => edge,
        1 => edge + 1e-9,
        2 => g.pick(&[1e9, -1e9, 0.0, -0.0]),
        3 => g.u(-5.0, 10.0),
        _ => edge + g.u(0.0, 20.0),
    };
    let limit = if limit.is_nan() { 0.0 } else { limit.clamp(-1e9, 1e9) };
    let target = if g.chance(0.8) { 0.0 } else { g.u(-3.0, 3.0) };
    let (far, near) = (g.logu(1e-3, 1e3), g.logu(1e-6, 1.0));
    Op { kind: 7, at, limit, target, weight: g.pick(&[1.0, 1.0, far, near, 0.0]) }
}

/// The two t behind surface i, and the edge where neither fails.
fn ts_and_edge(s: &[Surf], i: usize) -> (Vec<f64>, Option<f64>) {
    if i >= s.len() || i + 1 >= s.len() {
        return (vec![], None);
    }
    let r = s[i].s.min(s[i + 1].s);
    let curvature = |f: &Surf| if f.r.is_infinite() || f.r.abs() < 1e-15 { 0.0 } else { 1.0 / f.r };
    let t = |f: &Surf| 1.0 - (1.0 + f.k) * (curvature(f) * curvature(f) * r * r);
    let ts = vec![t(&s[i]), t(&s[i + 1])];
    let sag = |f: &Surf| curvature(f) * r * r / (1.0 + t(f).sqrt());
    let edge = ts.iter().all(|t| *t >= 0.0).then(|| s[i].t + sag(&s[i + 1]) - sag(&s[i]));
    (ts, edge)
}

#[derive(Default)]
pub struct Reached {
    pub near: bool,
    pub below: bool,
    pub zero: bool,
    pub short: bool,
}

/// What the edges of a run's lenses came to.
pub fn reached(j: &Job, trail: &[Vec<Surf>]) -> Reached {
    let mut all = Reached::default();
    for o in j.ops.iter().filter(|o| o.kind == 7) {
        for s in trail {
            let (ts, edge) = ts_and_edge(s, o.at);
            all.near |= ts.iter().any(|t| (0.0..=1e-3).contains(t));
            all.below |= ts.iter().any(|t| *t < 0.0);
            all.zero |= ts.iter().any(|t| *t == 0.0);
            all.short |= edge.is_some_and(|e| e < o.limit);
        }
    }
    all
}
