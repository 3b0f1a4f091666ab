#!/usr/bin/env python3
"""Copies the original Rust into the crates, with only the edits below; writes diffs/*.diff.

Usage: make_src.py [DIR], where DIR holds crates/optics-core and crates/optics-optimize of the
original (default: ../shared/docs/src, beside the repository). The copies and diffs/ are made, never committed."""
import difflib, pathlib, sys
R = pathlib.Path(__file__).resolve().parent
S = pathlib.Path(sys.argv[1]) if len(sys.argv) > 1 else R.parent.parent / 'shared' / 'docs' / 'src'
for crate in 'optics-core', 'optics-optimize':
    if not (S / 'crates' / crate / 'src').is_dir():
        sys.exit(f'make_src.py: no crates/{crate}/src in {S}: run make_src.py DIR, with the folder that holds the original Rust')

def put(crate, name, edits):
    src = (S / 'crates' / crate / 'src' / name).read_text()
    out = src
    for old, new in edits:
        if out.count(old) != 1:
            sys.exit(f'make_src.py: {crate}/{name} is not the version that the edits are for: {out.count(old)} times {old[:60]!r}')
        out = out.replace(old, new)
    (R / 'crates' / crate / 'src' / name).write_text(out)
    (R / 'diffs').mkdir(exist_ok=True)
    d = ''.join(difflib.unified_diff(src.splitlines(True), out.splitlines(True), f'original/{name}', f'oracle/{name}'))
    (R / 'diffs' / f'{crate}--{name}.diff').write_text(d)
    print(f'{crate}/{name}: {len(edits)} edits')

def between(crate, name, first, last):
    """lines first..last (1-based, inclusive) of an original file, as an old string to remove"""
    ls = (S / 'crates' / crate / 'src' / name).read_text().splitlines(True)
    return ''.join(ls[first-1:last])

O, C = 'optics-optimize', 'optics-core'
put(O, 'dls.rs', [])
put(O, 'merit.rs', [("if total_merit.is_finite() { total_merit } else { 1e12 }", "if total_merit.is_finite() { total_merit } else { f64::MAX }")])  # request 6
put(O, 'error.rs', [])
put(C, 'error.rs', [])
put(O, 'global.rs', [("(-delta_merit / temp.max(1e-12)).exp()", "crate::stand_in::e(-delta_merit / temp.max(1e-12))")])
put(O, 'variables.rs', [("raw_val.clamp(var.min_value, var.max_value)", "crate::stand_in::apply_clamp(raw_val, var.min_value, var.max_value)")])
# operands.rs: the arms of the kinds that document 01 leaves out, and their imports
left_out = between(O, 'operands.rs', 229, 361)
assert left_out.lstrip().startswith('OperandType::RmsSpotRadius') and left_out.rstrip().endswith('}')
# request 3 keeps the arm of the least edge, the last one; its sag is the stand-in of optics-core/src/conic.rs
arms_end = between(O, 'operands.rs', 414, 415)
assert arms_end == '            }\n        }\n', arms_end
edge = between(O, 'operands.rs', 410, 415)
assert edge.lstrip().startswith('Ok(edge_thickness - min_edge_mm)'), edge
put(O, 'operands.rs', [
    (between(O, 'operands.rs', 5, 9), ""),
    ("use optics_core::types::{Field, Pupil, Wavelength};\n", ""),
    (left_out, ""),
    (edge, edge.replace(arms_end, '            }\n            _ => unreachable!("left out by document 01"),\n        }\n')),
])
# geometry.rs: only the RefractiveIndex part
g = (S / 'crates' / 'optics-core' / 'src' / 'geometry.rs').read_text()
cut = g[g.index('use serde::{Deserialize, Serialize};'):]
put(C, 'geometry.rs', [(cut, ""), ("use crate::error::OpticsError;\nuse crate::types::{HitRecord, Ray, Vec3};\n\n", "")])
P = 'prescription.rs'
b = lambda i, j: between(C, P, i, j)
ed = []
ed.append((b(18, 28), "use crate::conic::ConicSurface;\nuse crate::error::OpticsError;\nuse crate::geometry::{Air, RefractiveIndex};\nuse crate::surface::EvenAsphere;\n"))
ed.append((b(30, 70), """thread_local! {
    /// Added for the oracle: how many times `resolve` ran (once per merit), and, when asked for, what it was given.
    pub static MERITS: std::cell::Cell<u64> = const { std::cell::Cell::new(0) };
    pub static TRAIL: std::cell::RefCell<Option<Vec<Vec<OpticalSurface>>>> = const { std::cell::RefCell::new(None) };
}

"""))
ed.append(("""    #[serde(with = "f64_infinity_serde")]
    pub radius_mm: f64,""", "    pub radius_mm: f64,"))
ed.append(("""    #[serde(with = "f64_infinity_serde")]
    pub thickness_mm: f64,""", "    pub thickness_mm: f64,"))
ed.append((b(90, 109), ""))      # asphere coefficients, coordinate break, grin, profile, aperture, coating
ed.append((b(122, 127), ""))
ed.append((b(132, 201), ""))     # sag, biconic, toroidal
ed.append((b(256, 267), ""))     # ResolvedSurface: the same fields (asphere stays, always None)
ed.append((b(289, 294), ""))
ed.append((b(303, 335), ""))     # ResolvedSurface::sag, transform
ed.append((b(363, 364), ""))     # global frame
ed.append((b(362, 362), """        MERITS.with(|m| m.set(m.get() + 1));
        TRAIL.with(|t| {
            if let Some(v) = t.borrow_mut().as_mut() {
                v.push(self.surfaces.clone());
            }
        });
""" + b(362, 362)))
ed.append((b(368, 382), ""))
ed.append((b(383, 391), "            let effective_semi_diam = surf.semi_diameter_mm;\n"))
ed.append((b(396, 472), "            let asphere = None;\n"))
ed.append((b(474, 476), """            let material: Arc<dyn RefractiveIndex + Send + Sync> = if trimmed.is_empty() || trimmed.eq_ignore_ascii_case("air") {
"""))
ed.append((b(486, 491), ""))
ed.append((b(498, 498), ""))
ed.append((b(511, 519), ""))     # optical throughput
ed.append((b(522, 533), ""))
ed.append((b(581, 630), ""))     # chief ray
ed.append((b(744, 1022), ""))    # real rays
put(C, P, ed)
