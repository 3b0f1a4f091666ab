//! Leaf lines: what one function answers, floats and small matrices; and lines to ask.
use crate::genjob::G;
use crate::job::hx;
use nalgebra::{DMatrix, DVector};
use optics_optimize::global::Rng64;
use optics_optimize::stand_in::{apply_clamp, e};
use std::io::{BufRead, Write};

/// The words of one draw as a matrix over bits: word i is the draw of the state 2^i, by the original.
fn draw_words() -> [u64; 64] {
    std::array::from_fn(|i| Rng64::new(1 << i).next_u64())
}

/// A matrix at a state: the words at its set bits, xored.
fn times(words: &[u64; 64], state: u64) -> u64 {
    (0..64).filter(|i| state >> i & 1 == 1).fold(0, |sum, i| sum ^ words[i])
}

/// The matrix of one draw, squared again and again: number k is that of 2^k draws.
struct Squares(Vec<[u64; 64]>);
impl Squares {
    fn new() -> Squares {
        let mut all = vec![draw_words()];
        for k in 0..63 {
            all.push(all[k].map(|w| times(&all[k], w)));
        }
        Squares(all)
    }
    fn after(&self, state: u64, n: u64) -> u64 {
        (0..64).filter(|k| n >> k & 1 == 1).fold(state, |x, k| times(&self.0[k], x))
    }
}

/// The state after n draws: by the original's own draws up to 2^20 of them, and by the squares of their matrix, which must agree there.
fn after_draws(squares: &Squares, state: u64, n: u64) -> u64 {
    let x = squares.after(state, n);
    if state != 0 && n <= 1 << 20 {
        let mut r = Rng64::new(state);
        let drawn = (0..n).fold(state, |_, _| r.next_u64());
        assert_eq!(x, drawn, "squares against draws");
    }
    x
}

/// Leaves: each line is answered by itself and its value. CLAMP gives std's clamp and apply's clamp.
pub fn leaf() {
    let squares = Squares::new();
    let f = |x: &str| f64::from_bits(u64::from_str_radix(x, 16).unwrap());
    for l in std::io::stdin().lock().lines() {
        let l = l.unwrap();
        let t: Vec<&str> = l.split_ascii_whitespace().collect();
        if t.is_empty() {
            continue;
        }
        let a = match t[0] {
            "E" => hx(e(f(t[1]))),
            "SQRT" => hx(f(t[1]).sqrt()),
            "ABS" => hx(f(t[1]).abs()),
            "DRAW" => {
                // state (and answer) after n draws from a seed, and the unit draw of that state
                let mut r = Rng64::new(u64::from_str_radix(t[1], 16).unwrap());
                let mut q = r.clone();
                let n: usize = t[2].parse().unwrap();
                let mut x = 0;
                let mut u = 0.0;
                for _ in 0..n {
                    x = r.next_u64();
                    u = q.next_f64();
                }
                format!("{:016x} {}", x, hx(u))
            }
            "JUMP" => {
                let h = |x: &str| u64::from_str_radix(x, 16).unwrap();
                format!("{:016x}", after_draws(&squares, h(t[1]), h(t[2])))
            }
            "UNIFORM" => hx(Rng64::new(u64::from_str_radix(t[1], 16).unwrap()).uniform(f(t[2]), f(t[3]))),
            "CLAMP" => format!("{} {}", hx(f(t[1]).clamp(f(t[2]), f(t[3]))), hx(apply_clamp(f(t[1]), f(t[2]), f(t[3])))),
            // the solution of a system of p unknowns, rows after one another, then the right side
            "SOLVE" => {
                let p: usize = t[1].parse().unwrap();
                let v: Vec<f64> = t[2..].iter().map(|x| f(x)).collect();
                let mut a = DMatrix::<f64>::zeros(p, p);
                for i in 0..p {
                    for j in 0..p {
                        a[(i, j)] = v[i * p + j];
                    }
                }
                match a.lu().solve(&DVector::<f64>::from_row_slice(&v[p * p..p * p + p])) {
                    Some(x) => x.iter().map(|&v| hx(v)).collect::<Vec<_>>().join(" "),
                    None => "none".into(),
                }
            }
            // J^T J by rows, J^T r and its norm, of a Jacobian column after column, then the residuals
            "NORMAL" => {
                let (m, p): (usize, usize) = (t[1].parse().unwrap(), t[2].parse().unwrap());
                let v: Vec<f64> = t[3..].iter().map(|x| f(x)).collect();
                let mut j = DMatrix::<f64>::zeros(m, p);
                for q in 0..p {
                    for i in 0..m {
                        j[(i, q)] = v[q * m + i];
                    }
                }
                let h = j.transpose() * &j;
                let g = j.transpose() * &DVector::<f64>::from_row_slice(&v[p * m..p * m + m]);
                let mut o: Vec<String> = Vec::new();
                for i in 0..p {
                    o.extend((0..p).map(|k| hx(h[(i, k)])));
                }
                o.extend(g.iter().map(|&v| hx(v)));
                o.push(hx(g.norm()));
                o.join(" ")
            }
            _ => panic!("leaf?"),
        };
        println!("{} = {}", l, a);
    }
}

fn g_pick(raw: u64) -> f64 {
    (raw >> 11) as f64 / (1u64 << 50) as f64 - 4.0
}

pub fn gen_leaf(seed: u64, count: u64, out: &mut impl Write) {
    let mut g = G::new(seed, 77);
    for i in 0..count {
        let raw = g.next();
        let any = f64::from_bits(raw);
        match i % 8 {
            0 => writeln!(out, "E {:016x}", g.u(-701.0, 0.1).to_bits()).unwrap(),
            1 => writeln!(out, "E {:016x}", (-g.logu(1e-320, 720.0)).to_bits()).unwrap(),
            2 => writeln!(out, "SQRT {:016x}", raw).unwrap(),
            3 => writeln!(out, "SQRT {:016x}", raw & 0x7fffffffffffffff >> g.below(24)).unwrap(),
            4 => writeln!(out, "DRAW {:016x} {}", if i % 5 == 0 { i / 40 } else { raw }, 1 + g.below(70)).unwrap(),
            5 => {
                let (a, b) = (g.u(-1e9, 1e9), g.logu(1e-9, 1e9));
                let a = if g.chance(0.5) { a } else { -b * g.unit() };
                writeln!(out, "UNIFORM {:016x} {:016x} {:016x}", raw, a.to_bits(), (a + b).min(1e9).to_bits()).unwrap()
            }
            6 => writeln!(out, "ABS {:016x}", raw).unwrap(),
            _ => {
                let lo = g.u(-3.0, 3.0);
                let x = g.pick(&[any, lo, g_pick(raw), f64::NAN, f64::INFINITY, -f64::INFINITY, -0.0, 0.0, lo * 1.5]);
                let (lo, hi) = g.pick(&[(lo, lo + 1.0), (0.0, -0.0), (-0.0, 0.0), (lo, lo), (-1e9, 1e9)]);
                writeln!(out, "CLAMP {:016x} {:016x} {:016x}", x.to_bits(), lo.to_bits(), hi.to_bits()).unwrap()
            }
        }
    }
}

/// Lines ABS of every sort of pattern, with both signs: zeros, subnormals, the ends of binades, infinities, NaNs and any.
pub fn gen_abs(seed: u64, count: u64, out: &mut impl Write) {
    for i in 0..count {
        let g = &mut G::new(seed, i ^ 7 << 40);
        let digits = g.next() >> 12;
        let field = g.next() >> 53;
        let bits = match g.below(8) {
            0 => 0,
            1 => digits,
            2 => 1 << g.below(52),
            3 => field << 52 | g.pick(&[0, 1, (1 << 52) - 1, 1 << 51]),
            4 => 0x7ff << 52,
            5 => 0x7ff << 52 | digits.max(1),
            6 => 0x7ff << 52 | 1 << g.below(52),
            _ => g.next() >> 1,
        };
        let sign = if g.chance(0.5) { 1 << 63 } else { 0 };
        writeln!(out, "ABS {:016x}", sign | bits).unwrap();
    }
}

/// Lines JUMP: states of one bit, 0, all bits, and any; numbers of draws at and beside powers of two, few, and any.
pub fn gen_jump(seed: u64, count: u64, out: &mut impl Write) {
    for i in 0..count {
        let mut g = G::new(seed ^ 0x10b9, i);
        let (any, bit) = (g.next(), 1u64 << g.below(64));
        let state = g.pick(&[any, any, any, bit, bit, 0, u64::MAX]);
        let (any, power, few) = (g.next(), 1u64 << g.below(64), g.below(2000) as u64);
        let shorter = any >> g.below(64);
        let n = g.pick(&[any, any, shorter, shorter, power, power - 1, power + 1, few, 0, 1, 2, 63, 64, u64::MAX, u64::MAX - 1]);
        writeln!(out, "JUMP {:016x} {:016x}", state, n).unwrap();
    }
}

const SPECIAL: [f64; 14] = [0.0, -0.0, 1.0, -1.0, 2.0, f64::INFINITY, -f64::INFINITY, f64::NAN, 1e308, -1e308, 5e-324, -5e-324, 1e-300, 1e200];

/// An entry of a matrix: plain, a small whole number (ties, singular systems), special, of any size, a sign or a zero, or mixed.
fn entry(g: &mut G, style: usize) -> f64 {
    match style {
        0 => g.u(-2.0, 2.0),
        1 => g.below(7) as f64 - 3.0,
        2 => g.pick(&SPECIAL),
        3 => {
            let x = g.logu(1e-200, 1e200);
            g.sign(x)
        }
        4 => g.pick(&[0.0, -0.0, 1.0, -1.0]),
        _ => if g.chance(0.9) { g.u(-2.0, 2.0) } else { g.pick(&SPECIAL) },
    }
}

fn print(out: &mut impl Write, head: String, v: &[f64]) {
    let t: Vec<String> = v.iter().map(|x| format!("{:016x}", x.to_bits())).collect();
    writeln!(out, "{} {}", head, t.join(" ")).unwrap();
}

/// Lines SOLVE and NORMAL: systems of 1 to 8 unknowns, of those some with a row that is another's multiple or nearly, or a column of zeros; Jacobians of 1 to 12 rows.
pub fn gen_normal(seed: u64, count: u64, out: &mut impl Write) {
    for i in 0..count {
        let mut g = G::new(seed ^ 0x4e0a, i);
        let p = 1 + g.below(8);
        let style = g.pick(&[0, 0, 1, 1, 2, 3, 4, 4, 5]);
        if i % 2 == 0 {
            let mut v: Vec<f64> = (0..p * p + p).map(|_| entry(&mut g, style)).collect();
            if g.chance(0.25) {
                let (a, b, by) = (g.below(p), g.below(p), g.pick(&[1.0, -1.0, 2.0, 1.0 + f64::EPSILON, 1.0 - 4.0 * f64::EPSILON]));
                for k in 0..p {
                    v[a * p + k] = v[b * p + k] * by;
                }
            }
            if g.chance(0.1) {
                let c = g.below(p);
                for k in 0..p {
                    v[k * p + c] = g.pick(&[0.0, -0.0]);
                }
            }
            print(out, format!("SOLVE {}", p), &v);
        } else {
            let m = 1 + g.below(12);
            let mut v: Vec<f64> = (0..m * p + m).map(|_| entry(&mut g, style)).collect();
            if g.chance(0.3) {
                let (q, z) = (g.below(p), g.pick(&[0.0, -0.0]));
                v[q * m..(q + 1) * m].fill(z);
            }
            print(out, format!("NORMAL {} {}", m, p), &v);
        }
    }
}
