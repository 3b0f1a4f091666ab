//! Random lists of calls, refused ones of every number that the book has among them.
use crate::genjob::{self, G};
use crate::{faults, followers};
use std::io::Write;
use std::ops::Range;

fn place(g: &mut G) -> u64 {
    if g.chance(0.04) { g.pick(&[4u64, 5, 255, 1 << 40, u64::MAX]) } else { g.below(4) as u64 }
}

fn length(g: &mut G) -> u64 {
    if g.chance(0.06) { g.pick(&[0u64, 1, 64, 127]) } else { g.pick(&[128u64, 128, 129, 255, 256, 1000]) }
}

/// A short job, one in four with a fault; with followers (request 9) where these are asked for.
fn admission(g: &mut G, seed: u64, number: u64, place: u64, followed: bool) -> String {
    let kind = g.pick(&["damped", "damped", "multi", "anneal"]);
    let mut j = if followed { followers::job(seed, number, kind) } else { genjob::job(seed, number, kind) };
    j.maxit = j.maxit.min(6);
    j.trials = j.trials.min(3);
    j.steps = j.steps.min(5);
    j.cycles = j.cycles.min(4);
    j.left_out = 0;
    // one merit each: places with equally many turns
    if g.chance(0.3) {
        (j.maxit, j.trials, j.steps, j.cycles) = (0, 0, 0, 0);
    }
    if g.chance(0.25) {
        if followed { followers::put_fault(&mut j, g) } else { faults::put(&mut j, g) }
    }
    format!("A {place} {}", j.print())
}

/// Each list begins with the empty bench.
pub fn gen_calls(seed: u64, lists: u64, length_of_list: u64, followed: bool, out: &mut impl Write) {
    let mut number = 0;
    for list in 0..lists {
        let g = &mut G::new(seed ^ 0xca11, list);
        writeln!(out, "Z").unwrap();
        for _ in 0..length_of_list {
            let p = place(g);
            match g.below(20) {
                0..=3 => {
                    number += 1;
                    writeln!(out, "{}", admission(g, seed, number, p, followed)).unwrap()
                }
                4..=12 => {
                    let len = length(g);
                    let times = g.pick(&[1u64, 1, 1, 2, 5, 13, 40, 200, 2000]);
                    writeln!(out, "T {p} {len} {times}").unwrap();
                    if times > 1 && g.chance(0.5) {
                        writeln!(out, "L").unwrap()
                    }
                }
                13..=15 => writeln!(out, "F {p}").unwrap(),
                16 => writeln!(out, "D {p}").unwrap(),
                _ => writeln!(out, "L").unwrap(),
            }
        }
    }
}

/// Lists with dealings (request 8), by draws of their own, so that those above stay. Jobs come to all four places at once too, and most of them to places that are
/// released before, so that dealings find any number of jobs; one dealing in three is followed by others.
pub fn gen_dealings(seed: u64, lists: Range<u64>, length_of_list: u64, out: &mut impl Write) {
    for list in lists {
        let g = &mut G::new(seed ^ 0xdea1, list);
        let mut number = list << 20;
        writeln!(out, "Z").unwrap();
        for _ in 0..length_of_list {
            let p = place(g);
            match g.below(20) {
                0..=5 => {
                    let places = if g.chance(0.3) { vec![0, 1, 2, 3] } else { vec![p] };
                    for p in places {
                        if g.chance(0.8) {
                            writeln!(out, "D {p}").unwrap()
                        }
                        number += 1;
                        writeln!(out, "{}", admission(g, seed, number, p, false)).unwrap()
                    }
                }
                6..=12 => {
                    for _ in 0..if g.chance(0.3) { 2 + g.below(4) } else { 1 } {
                        writeln!(out, "N {} {}", g.pick(&[0, 1, 2, 3, 4, 5, 7, 50, 400, 65_535]), length(g)).unwrap()
                    }
                }
                13..=14 => writeln!(out, "T {p} {} {}", length(g), g.pick(&[1, 1, 2, 5, 13, 40])).unwrap(),
                15..=16 => writeln!(out, "F {p}").unwrap(),
                17 => writeln!(out, "D {p}").unwrap(),
                _ => writeln!(out, "L").unwrap(),
            }
        }
    }
}
