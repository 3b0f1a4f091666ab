//! Every single cause of refusals 1, 3 to 8 and 17: a job that is taken, with one field set to each of a list of values, good and bad.
use crate::job::*;
use std::io::Write;

fn after(x: f64) -> f64 {
    f64::from_bits(x.to_bits() + 1)
}

/// NaN of both signs, infinities, zeros, the least and the greatest, and each bound of document 01 with what comes after it, both signs of all.
fn floats() -> Vec<f64> {
    let mut v = vec![];
    for x in [f64::NAN, f64::INFINITY, 0.0, 5e-324, f64::MAX, 1.0, after(1.0), 10.0, after(10.0), 1e8, after(1e8), 1e9, after(1e9)] {
        v.push(x);
        v.push(-x);
    }
    v
}

const COUNTS: [usize; 14] = [0, 1, 2, 3, 4, 5, 15, 16, 17, 1000, 1001, 1 << 32, 1 << 63, usize::MAX];

/// Three surfaces, two slots, a variable and an operand of each kind.
fn base(kind: u8) -> Job {
    let mut j = Job::blank(kind);
    for (r, t) in [(64.0, 16.0), (f64::INFINITY, 2.0), (-50.0, 0.0)] {
        j.surfs.push(Surf { r, k: -0.5, t, s: 5.0 });
    }
    j.slots = 2;
    j.idx = vec![2.0, 1.5, 1.25, 1.5, 1.0, 1.0];
    for ty in 0..4 {
        j.vars.push(Var { ty, surf: ty as usize % 3, on: ty != 1, lo: 1.0, hi: 2.0, step: 1e-3, follower: None });
    }
    for kind in 0..8 {
        j.ops.push(Op { kind, at: kind as usize % 2, limit: if kind < 5 { 0.0 } else { 3.0 }, target: 60.0, weight: 4.0 });
    }
    j.limits = vec![Ends { low: 15.0, high: 17.0 }, Ends { low: 2.0, high: 2.0 }, Ends { low: -0.5, high: 0.5 }];
    j.maxit = 2;
    j.trials = 1;
    j.steps = 2;
    j.cycles = 2;
    j
}

/// Each place of a float in the job, by its number; None past the last.
fn float_at(j: &mut Job, n: usize) -> Option<&mut f64> {
    let kind = j.kind;
    let mut v: Vec<&mut f64> = vec![&mut j.pupil];
    j.surfs.iter_mut().for_each(|s| v.extend([&mut s.r, &mut s.k, &mut s.t, &mut s.s]));
    v.extend(j.idx.iter_mut());
    j.vars.iter_mut().for_each(|x| v.extend([&mut x.lo, &mut x.hi, &mut x.step]));
    j.ops.iter_mut().for_each(|o| v.extend([&mut o.limit, &mut o.target, &mut o.weight]));
    match kind {
        1 | 2 => v.extend([&mut j.damping, &mut j.reltol, &mut j.gradtol, &mut j.relstep]),
        3 => v.extend([&mut j.temp, &mut j.cooling]),
        6 => j.limits.iter_mut().for_each(|l| v.extend([&mut l.low, &mut l.high])),
        _ => {}
    }
    v.into_iter().nth(n)
}

/// The same for counts and numbers of surfaces and slots, but for the lengths of the lists.
fn count_at(j: &mut Job, n: usize) -> Option<&mut usize> {
    let kind = j.kind;
    let mut v: Vec<&mut usize> = vec![];
    j.vars.iter_mut().for_each(|x| v.push(&mut x.surf));
    j.ops.iter_mut().for_each(|o| v.push(&mut o.at));
    match kind {
        1 => v.push(&mut j.maxit),
        2 => v.extend([&mut j.maxit, &mut j.trials]),
        3 => v.extend([&mut j.steps, &mut j.cycles]),
        5 | 6 => v.push(&mut j.slot),
        _ => {}
    }
    v.into_iter().nth(n)
}

/// Jobs whose lists have other lengths; the entries are all there.
fn lengths(kind: u8) -> Vec<Job> {
    let mut v = vec![];
    for n in [0, 1, 2, 15, 16, 17, 18, 40] {
        let mut j = base(kind);
        j.surfs.resize(n, Surf { r: 50.0, k: 0.0, t: 1.0, s: 5.0 });
        j.idx.resize(n * 2, 1.5);
        j.limits.resize(n, Ends { low: 1.0, high: 2.0 });
        j.vars.retain(|x| x.surf < n);
        v.push(j);
    }
    for n in [0, 1, 3, 4, 5, 6, 40] {
        let mut j = base(kind);
        j.slots = n;
        j.idx = vec![1.5; 3 * n];
        v.push(j);
    }
    if kind <= 3 {
        for n in [0, 1, 7, 8, 9, 10, 40] {
            let mut j = base(kind);
            let last = j.vars[3];
            j.vars.resize(n, last);
            v.push(j);
        }
        let mut j = base(kind);
        j.vars.iter_mut().for_each(|x| x.on = false);
        v.push(j);
    }
    if kind < 5 {
        for n in [0, 1, 11, 12, 13, 14, 40] {
            let mut j = base(kind);
            let last = j.ops[7];
            j.ops.resize(n, last);
            v.push(j);
        }
    }
    v
}

/// Each variable, enabled or not, with a follower of each sign at each of a list of surfaces (request 9); and a bad one beside what gives a number before it,
/// and after it.
fn followers(kind: u8) -> Vec<Job> {
    let mut v = vec![];
    for (variable, minus, surf) in (0..4).flat_map(|i| [false, true].map(|minus| (i, minus))).flat_map(|(i, minus)| COUNTS.map(|surf| (i, minus, surf))) {
        let mut j = base(kind);
        j.vars[variable].follower = Some(Follower { surf, minus });
        v.push(j);
    }
    let beside: [fn(&mut Job); 7] = [
        |j| j.slots = 5,
        |j| j.pupil = 0.0,
        |j| j.vars[3].surf = 3,
        |j| j.ops[0].weight = -1.0,
        |j| (j.maxit, j.steps) = (1001, 1001),
        |j| j.vars.iter_mut().for_each(|x| x.on = false),
        |j| j.ops.clear(),
    ];
    for (variable, other) in (0..4).flat_map(|i| beside.map(|other| (i, other))) {
        let mut j = base(kind);
        j.vars[variable].follower = Some(Follower { surf: 3, minus: false });
        other(&mut j);
        j.idx.resize(3 * j.slots, 1.5);
        v.push(j);
    }
    v
}

pub fn print(kind: u8, out: &mut impl Write) {
    let mut all = vec![base(kind)];
    all.extend(lengths(kind));
    for n in 0.. {
        if float_at(&mut base(kind), n).is_none() {
            break;
        }
        for x in floats() {
            let mut j = base(kind);
            *float_at(&mut j, n).unwrap() = x;
            all.push(j);
        }
    }
    for n in 0.. {
        if count_at(&mut base(kind), n).is_none() {
            break;
        }
        for x in COUNTS {
            let mut j = base(kind);
            *count_at(&mut j, n).unwrap() = x;
            all.push(j);
        }
    }
    all.extend(followers(kind));
    for (i, mut j) in all.into_iter().enumerate() {
        j.id = i.to_string();
        writeln!(out, "{}", j.print()).unwrap();
    }
}
