//! Jobs whose variables have followers (request 9): a job of the base generator or of the one with edges, by draws of its own, with followers of both signs:
//! the named surface itself, another variable's, before and after it, those of disabled variables; curvatures about 1e-12; and faults that give 17.
use crate::genjob::{self, G};
use crate::job::*;
use crate::{edges, faults};

pub fn job(seed: u64, num: u64, kind: &str) -> Job {
    let g = &mut G::new(seed, num ^ 9 << 40);
    let mut j = if g.chance(0.5) { genjob::job(seed, num, kind) } else { edges::job(seed, num, kind) };
    let first = g.below(j.vars.len());
    for i in 0..j.vars.len() {
        if i == first || g.chance(0.6) {
            follow(g, &mut j, i);
        }
    }
    for _ in 0..g.below(3) {
        contend(g, &mut j);
    }
    assert_eq!(j.check(), 0, "generated job refused: {}", j.print());
    j
}

/// Variable i gets a follower, and where it is a curvature one time in three bounds about 0, so that it is flat now and then.
fn follow(g: &mut G, j: &mut Job, i: usize) {
    let (named, n) = (j.vars[i].surf, j.surfs.len());
    let surf = match g.below(10) {
        0 => named,
        1..=3 => j.vars[g.below(j.vars.len())].surf,
        _ => (named + 1 + g.below(n.max(2) - 1)) % n,
    };
    let v = &mut j.vars[i];
    v.follower = Some(Follower { surf, minus: matches!(v.ty, 0 | 2) && g.chance(0.6) });
    if v.ty == 0 && g.chance(0.3) {
        v.lo = g.pick(&[-0.05, -1e-3, -1e-12, -2e-12, -1e-13, -0.0, 0.0]);
        v.hi = g.pick(&[0.05, 1e-3, 1e-12, 2e-12, 1e-13, 0.0]);
    }
}

/// A variable of the quantity that another one's follower has, at the follower's surface, before or after it: the later of the two is stored last.
fn contend(g: &mut G, j: &mut Job) {
    let at = g.below(j.vars.len());
    let Some(f) = j.vars[at].follower else { return };
    if j.vars.len() < 8 {
        let v = Var { surf: f.surf, on: g.chance(0.9), follower: None, ..j.vars[at] };
        j.vars.insert(g.below(j.vars.len() + 1), v);
    }
}

/// One fault, of a follower three times in five, another one, or both, so that the order of the numbers shows.
pub fn put_fault(j: &mut Job, g: &mut G) {
    let which = g.below(5);
    if which < 2 {
        faults::put(j, g);
    }
    if which > 0 {
        fault(j, g);
    }
    j.left_out = 0;
}

/// A follower that is refused, or, one time in six, at the last surface.
fn fault(j: &mut Job, g: &mut G) {
    let (n, edge) = (j.surfs.len(), g.below(6) == 0);
    if j.vars.is_empty() || n == 0 {
        return;
    }
    let absent = g.pick(&[n, n + 1, 16, 1 << 40, usize::MAX]);
    let i = g.below(j.vars.len());
    let v = &mut j.vars[i];
    v.follower = Some(match g.below(3) {
        0 if !edge => Follower { surf: g.below(n), minus: true },
        _ => Follower { surf: if edge { n - 1 } else { absent }, minus: matches!(v.ty, 0 | 2) && g.chance(0.5) },
    });
    if v.follower.is_some_and(|f| f.surf < n && f.minus) && !edge && matches!(v.ty, 0 | 2) {
        v.ty = if v.lo > 0.0 { 3 } else { 1 };
    }
    if g.chance(0.5) && j.enabled() > 1 {
        j.vars[i].on = false;
    }
}

/// The same job with no follower: the original's.
pub fn without(j: &Job) -> Job {
    let mut plain = j.clone();
    plain.vars.iter_mut().for_each(|v| v.follower = None);
    plain
}

fn quantity(s: &Surf, ty: u8) -> f64 {
    [s.r, s.t, s.k, s.s][ty as usize]
}

/// Whether a variable stores a quantity of a surface, as its own or as its follower's.
fn stores(v: &Var, ty: u8, surf: usize) -> bool {
    v.on && v.ty == ty && (v.surf == surf || v.follower.is_some_and(|f| f.surf == surf))
}

/// Whether no follower can show: each is a disabled variable's, the named surface itself with plus, or stored over by a later variable that names it. Such a run
/// is the original's without followers.
pub fn idle(j: &Job) -> bool {
    j.vars.iter().enumerate().all(|(i, v)| {
        v.follower.is_none_or(|f| {
            let named_later = j.vars[i + 1..].iter().any(|w| w.on && w.ty == v.ty && w.surf == f.surf);
            !v.on || named_later || (f.surf == v.surf && !f.minus)
        })
    })
}

#[derive(Default)]
pub struct Reached {
    pub plus: bool,
    pub minus: bool,
    pub itself: bool,
    pub disabled: bool,
    pub overwritten: bool,
    pub overwrites: bool,
    pub flat: bool,
    pub negative_zero: bool,
    /// A follower that no other variable stores after it is not its variable's surface over again.
    pub astray: bool,
}

/// What the followers of a run came to; the lens as the job has it is nobody's.
pub fn reached(j: &Job, trail: &[Vec<Surf>]) -> Reached {
    let mut all = Reached::default();
    for (i, v) in j.vars.iter().enumerate() {
        let Some(f) = v.follower else { continue };
        all.disabled |= !v.on;
        if !v.on {
            continue;
        }
        let later = |surf: usize| j.vars[i + 1..].iter().any(|w| stores(w, v.ty, surf));
        all.plus |= !f.minus;
        all.minus |= f.minus;
        all.itself |= f.surf == v.surf;
        all.overwritten |= later(f.surf);
        all.overwrites |= j.vars[..i].iter().any(|w| stores(w, v.ty, f.surf));
        for s in trail.iter().filter(|s| **s != j.surfs) {
            let (named, follower) = (quantity(&s[v.surf], v.ty), quantity(&s[f.surf], v.ty));
            let flat = v.ty == 0 && named.is_infinite();
            let wanted = if f.minus && !flat { -named } else { named };
            if f.surf != v.surf && !later(f.surf) && !later(v.surf) {
                all.astray |= follower.to_bits() != wanted.to_bits();
                all.flat |= flat && f.minus;
                all.negative_zero |= v.ty == 2 && f.minus && follower == 0.0 && follower.is_sign_negative();
            }
        }
    }
    all
}
