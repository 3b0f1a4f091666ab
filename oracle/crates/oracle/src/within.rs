//! Request 13, a second reading in plain Rust: the trace with each thickness known within limits; jobs for it; and the original on thicknesses inside the limits.
use crate::genjob::{self, G};
use crate::job::*;
use crate::orig;
use std::io::BufRead;

/// Least and greatest track, and for each surface least and greatest height and slope.
pub struct Limits {
    pub track: Ends,
    pub rows: Vec<(Ends, Ends)>,
}

fn known(x: f64) -> Ends {
    Ends { low: x, high: x }
}

/// "an interval end, given or worked out, that is not finite" ends it all.
fn finite(e: Ends) -> Option<Ends> {
    (e.low.is_finite() && e.high.is_finite()).then_some(e)
}

/// "all four products compared": with `last`, as if the last were kept on ties.
fn times(a: Ends, b: Ends, last: bool) -> Option<Ends> {
    let four = [a.low * b.low, a.low * b.high, a.high * b.low, a.high * b.high];
    let mut e = known(four[0]);
    for x in &four[1..] {
        if *x < e.low || last && *x == e.low {
            e.low = *x;
        }
        if *x > e.high || last && *x == e.high {
            e.high = *x;
        }
    }
    finite(e)
}

fn plus(a: Ends, b: Ends) -> Option<Ends> {
    finite(Ends { low: a.low + b.low, high: a.high + b.high })
}

/// None: 19.
pub fn limits(j: &Job, last: bool) -> Option<Limits> {
    let n = j.surfs.len();
    if n < 2 || j.limits.iter().any(|t| t.high < t.low) {
        return None;
    }
    let mut track = known(0.0);
    for t in &j.limits {
        track = plus(track, finite(*t)?)?;
    }
    let (mut y, mut u, mut index) = (finite(known(j.pupil * 0.5))?, known(0.0), 1.0);
    let mut rows = vec![];
    for i in 0..n {
        let r = j.surfs[i].r;
        let c = if r.is_infinite() || r.abs() < 1e-15 { 0.0 } else { 1.0 / r };
        let behind = j.idx[i * j.slots + j.slot];
        let carried = times(known(index), u, last)?;
        let bent = times(y, known((behind - index) * c), last)?;
        let turned = finite(Ends { low: carried.low - bent.high, high: carried.high - bent.low })?;
        u = finite(Ends { low: turned.low / behind, high: turned.high / behind })?;
        rows.push((y, u));
        index = behind;
        if i + 1 < n {
            y = plus(y, times(j.limits[i], u, last)?)?;
        }
    }
    Some(Limits { track, rows })
}

fn printed(id: &str, l: &Limits) -> String {
    let mut s = format!("R {} 6 K {} {} T {}", id, hx(l.track.low), hx(l.track.high), l.rows.len());
    for (y, u) in &l.rows {
        s += &format!(" {} {} {} {}", hx(y.low), hx(y.high), hx(u.low), hx(u.high));
    }
    s
}

pub fn answer(j: &Job) -> String {
    printed(&j.id, &limits(j, false).unwrap())
}

const TINY: f64 = 5e-324;

fn ordered(a: f64, b: f64) -> Ends {
    if b < a { Ends { low: b, high: a } } else { Ends { low: a, high: b } }
}

/// A job of `gen SEED COUNT trace` with limits; one in eight is made so small that products underflow to zeros of both signs.
pub fn job(seed: u64, num: u64) -> Job {
    let mut j = genjob::job(seed, num, "trace");
    let g = &mut G::new(seed ^ 0x11a1, num);
    j.kind = 6;
    if g.chance(0.125) {
        underflowing(&mut j, g);
        return j;
    }
    let style = g.below(8);
    j.limits = j.surfs.iter().map(|s| limit(g, style, s.t)).collect();
    if style == 7 {
        // finite but for a transfer behind the last surface, which there is none of
        let far = g.logu(1e290, 1.7e308);
        if let Some(l) = j.limits.last_mut() {
            *l = ordered(g.sign(far), 1.0);
        }
    }
    j
}

fn limit(g: &mut G, style: usize, t: f64) -> Ends {
    let near = t.abs().max(1e-3);
    match style {
        0 | 7 => {
            let w = near * g.logu(1e-16, 1e-2);
            Ends { low: t - w * g.unit(), high: t + w * g.unit() }
        }
        1 => {
            let w = near * g.logu(1e-2, 1e2);
            Ends { low: t - w * g.unit(), high: t + w * g.unit() }
        }
        2 => known(t),
        3 => {
            let x = g.u(-30.0, 30.0);
            known(x)
        }
        4 => ordered(-g.logu(1e-12, 1e6), g.logu(1e-12, 1e6)),
        5 => Ends { low: g.pick(&[0.0, -0.0]), high: g.pick(&[0.0, -0.0, TINY, 1.0]) },
        _ => {
            let (a, b) = (g.logu(1e-3, 1e308), g.logu(1e-3, 1e308));
            ordered(g.sign(a), g.sign(b))
        }
    }
}

/// Slopes of a few least numbers on both sides of zero, which an index of 3 or more rounds to zeros of both signs; what comes behind is nothing times nothing.
fn underflowing(j: &mut Job, g: &mut G) {
    let n = 3 + g.below(4);
    j.pupil = TINY * g.pick(&[2.0, 4.0, 8.0, 16.0, 1e14]);
    j.surfs.truncate(n);
    while j.surfs.len() < n {
        j.surfs.push(Surf { r: 1.0, k: 0.0, t: 1.0, s: 5.0 });
    }
    j.idx = (0..n * j.slots).map(|_| g.pick(&[0.25, 0.5, 1.5, 2.0, 3.0, 4.0, 10.0])).collect();
    for s in &mut j.surfs {
        s.r = g.pick(&[0.5, 1.0, -1.0, 2.0, -4.0, f64::INFINITY, f64::INFINITY]);
    }
    j.limits = (0..n).map(|_| ordered(g.pick(&[0.0, -0.0, -1.0, -2.0, -8.0, -TINY]), g.pick(&[0.0, -0.0, 1.0, 2.0, 8.0, TINY]))).collect();
}

/// A fault of the limits, or an edge that is none.
pub fn fault(j: &mut Job, g: &mut G, edge: bool) {
    let k = g.below(j.limits.len().max(1));
    let Some(l) = j.limits.get_mut(k) else { return };
    let bad = g.pick(&[f64::NAN, f64::INFINITY, -f64::INFINITY]);
    match g.below(4) {
        0 if edge => *l = Ends { low: 0.0, high: -0.0 },
        1 if edge => *l = Ends { low: l.low, high: l.low },
        _ if edge => *l = Ends { low: -1e10, high: 2e9 },
        0 => l.low = bad,
        1 => l.high = bad,
        2 => *l = Ends { low: 1.0, high: f64::from_bits(1f64.to_bits() - 1) },
        _ => *l = Ends { low: TINY, high: 0.0 },
    }
}

fn inside(e: Ends, x: f64) -> bool {
    e.low <= x && x <= e.high
}

/// A thickness inside the limits.
fn some(g: &mut G, l: Ends, nominal: f64) -> f64 {
    let x = match g.below(5) {
        0 => l.low,
        1 => l.high,
        2 => nominal,
        3 => 0.0,
        _ => l.low + (l.high - l.low) * g.unit(),
    };
    if inside(l, x) { x } else { l.low + (l.high / 2.0 - l.low / 2.0) }
}

/// The original's heights and slopes, and its track, with these thicknesses.
fn original(j: &Job, tau: &[f64]) -> (Vec<(f64, f64)>, f64) {
    let mut o = j.clone();
    o.kind = 4;
    o.vars.clear();
    o.ops = vec![Op { kind: 2, at: 0, limit: 0.0, target: 0.0, weight: 1.0 }];
    for (s, t) in o.surfs.iter_mut().zip(tau) {
        s.t = *t;
    }
    let track = orig::run(&o, false).0.values[0];
    (orig::trace(&o).unwrap().rows.iter().map(|r| (r.y, r.u)).collect(), track)
}

/// Every line that is not refused: random thicknesses and all corners inside the limits, and the nominal as limits, put through the original.
pub fn within() -> bool {
    let (mut lines, mut refused, mut traces, mut outside, mut nominal, mut unlike, mut ties) = (0, 0, 0, 0, 0, 0, 0);
    for l in std::io::stdin().lock().lines() {
        let j = Job::parse(&l.unwrap());
        lines += 1;
        if j.check() != 0 {
            refused += 1;
            continue;
        }
        let w = limits(&j, false).unwrap();
        ties += (limits(&j, true).map(|l| printed(&j.id, &l)) != Some(printed(&j.id, &w))) as u64;
        let n = j.surfs.len();
        let g = &mut G::new(0x7a0, lines);
        let mut all: Vec<Vec<f64>> = (0..30).map(|_| (0..n).map(|i| some(g, j.limits[i], j.surfs[i].t)).collect()).collect();
        if n <= 6 {
            all.extend((0..1 << n).map(|c| (0..n).map(|i| if c >> i & 1 == 0 { j.limits[i].low } else { j.limits[i].high }).collect()));
        }
        for tau in &all {
            let (rows, track) = original(&j, tau);
            traces += 1;
            let ok = inside(w.track, track) && rows.iter().zip(&w.rows).all(|(r, e)| inside(e.0, r.0) && inside(e.1, r.1));
            if !ok {
                outside += 1;
                eprintln!("outside: {} with {:?}", j.print(), tau);
            }
        }
        // the nominal on both ends
        let tau: Vec<f64> = j.surfs.iter().map(|s| s.t).collect();
        let mut k = j.clone();
        k.limits = tau.iter().map(|t| known(*t)).collect();
        if let Some(w) = limits(&k, false) {
            nominal += 1;
            let (rows, track) = original(&k, &tau);
            let bits = |e: Ends, x: f64| e.low.to_bits() == x.to_bits() && e.high.to_bits() == x.to_bits();
            if !(bits(w.track, track) && rows.iter().zip(&w.rows).all(|(r, e)| bits(e.0, r.0) && bits(e.1, r.1))) {
                unlike += 1;
                eprintln!("nominal: {}", k.print());
            }
        }
    }
    println!("{lines} lines, {refused} refused; {traces} traces of the original, {outside} outside; {nominal} nominal, {unlike} not to the bit; in {ties} lines the first of equal products shows");
    outside + unlike == 0
}
