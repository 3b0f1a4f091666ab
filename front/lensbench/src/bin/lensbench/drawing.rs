//! A lens as lines in the plane of its axis, in mm: z along the axis, y across it.
use lensbench::{Lens, Quantity, Ray, Surface};

pub type Point = (f64, f64);

/// Points on a curve from its lower end to its upper.
const STEPS: i32 = 48;
/// Heights of the rays drawn, as parts of the pupil's edge.
const HEIGHTS: [f64; 4] = [-1.0, -0.5, 0.5, 1.0];

fn curvature(s: &Surface) -> f64 {
    Quantity::Curvature.of(s)
}

/// How far a surface lies behind its vertex at a height; beyond its reach it stays as it is there.
fn sag(s: &Surface, y: f64) -> f64 {
    let (c, y) = (curvature(s), y.abs().min(reach(s)));
    let under = (1.0 - (1.0 + s.conic_constant) * c * c * y * y).max(0.0);
    c * y * y / (1.0 + under.sqrt())
}

/// The height to which a surface is drawn: a sphere or ellipsoid ends where its tangent is across the axis.
fn reach(s: &Surface) -> f64 {
    let (c, wide) = (curvature(s).abs(), 1.0 + s.conic_constant);
    if c > 0.0 && wide > 0.0 {
        s.semi_diameter_mm.min(1.0 / (c * wide.sqrt()))
    } else {
        s.semi_diameter_mm
    }
}

/// A lens laid out along its axis.
pub struct Layout<'a> {
    pub lens: &'a Lens,
    pub surfaces: &'a [Surface],
    /// where the vertices are; one more than surfaces, the last where the last thickness ends
    pub at: Vec<f64>,
}

impl<'a> Layout<'a> {
    pub fn new(lens: &'a Lens, surfaces: &'a [Surface]) -> Layout<'a> {
        let mut at = vec![0.0];
        for (i, s) in surfaces.iter().enumerate() {
            at.push(at[i] + s.thickness_mm);
        }
        Layout { lens, surfaces, at }
    }

    /// Whether the medium behind a surface is glass; before the first one there is air.
    fn glass(&self, behind: usize) -> bool {
        self.lens.indices.get(behind).is_some_and(|of| of.iter().any(|n| (n - 1.0).abs() > 1e-3))
    }

    /// A surface from its lower edge to its upper.
    pub fn curve(&self, i: usize) -> Vec<Point> {
        let (s, top) = (&self.surfaces[i], reach(&self.surfaces[i]));
        (-STEPS..=STEPS).map(|k| f64::from(k) / f64::from(STEPS) * top).map(|y| (self.at[i] + sag(s, y), y)).collect()
    }

    /// The glass between a surface and the next: both curves, and an edge at the larger of the two semi-diameters.
    pub fn element(&self, i: usize) -> Option<Vec<Point>> {
        if i + 1 >= self.surfaces.len() || !self.glass(i) {
            return None;
        }
        let (front, mut back) = (self.curve(i), self.curve(i + 1));
        let edge = self.surfaces[i].semi_diameter_mm.max(self.surfaces[i + 1].semi_diameter_mm);
        let (first, last) = (front[0].0, back[0].0);
        back.reverse();
        Some([front, vec![(first, edge), (last, edge)], back, vec![(last, -edge), (first, -edge)]].concat())
    }

    /// Whether the two faces of an element meet before its edge, or its front meets the element before it.
    pub fn crossed(&self, i: usize) -> bool {
        let air_before = i >= 2 && !self.glass(i - 1) && self.glass(i - 2);
        self.meet(i) || (air_before && self.meet(i - 1))
    }

    /// Whether a surface and the next meet within the smaller of their semi-diameters.
    fn meet(&self, i: usize) -> bool {
        let y = reach(&self.surfaces[i]).min(reach(&self.surfaces[i + 1]));
        self.at[i] + sag(&self.surfaces[i], y) > self.at[i + 1] + sag(&self.surfaces[i + 1], y)
    }

    /// A flat last surface in air with nothing behind it: the image.
    pub fn image(&self, i: usize) -> bool {
        let last = i > 0 && i + 1 == self.surfaces.len();
        last && !self.glass(i) && !self.glass(i - 1) && curvature(&self.surfaces[i]) == 0.0 && self.surfaces[i].thickness_mm == 0.0
    }

    /// A surface with air on both sides.
    pub fn in_air(&self, i: usize) -> bool {
        !self.glass(i) && (i == 0 || !self.glass(i - 1))
    }

    /// Where the drawing of rays ends: behind the last thickness, or at the focus where the last surface has none behind it and is no image.
    fn ray_end(&self, rays: &[Ray]) -> f64 {
        let last = self.surfaces.len() - 1;
        let (end, ray) = (self.at[last + 1], rays[last]);
        let focus = -ray.height_mm / ray.slope;
        let size = self.at[last].abs() + 2.0 * self.surfaces.iter().fold(0.0, |most: f64, s| most.max(s.semi_diameter_mm));
        if self.surfaces[last].thickness_mm != 0.0 || self.image(last) {
            return end;
        }
        // a focus far away, or in front, is only hinted at
        if focus > 0.0 && focus < 12.0 * size {
            end + focus
        } else {
            end + size
        }
    }

    /// The paraxial rays of a trace, from `start` on. Each meets the drawn surface at its paraxial height.
    pub fn rays(&self, traced: &[Ray], start: f64) -> Vec<Vec<Point>> {
        HEIGHTS.iter().map(|part| self.ray(traced, start, *part)).collect()
    }

    fn ray(&self, traced: &[Ray], start: f64, part: f64) -> Vec<Point> {
        let mut points = vec![(start, part * traced[0].height_mm)];
        for (i, (s, ray)) in self.surfaces.iter().zip(traced).enumerate() {
            let y = part * ray.height_mm;
            points.push((self.at[i] + sag(s, y), y));
        }
        let last = self.surfaces.len() - 1;
        let end = self.ray_end(traced);
        points.push((end, part * (traced[last].height_mm + (end - self.at[last]) * traced[last].slope)));
        points
    }
}

/// Least and greatest z, and the greatest distance from the axis; none where a number is not finite.
pub fn extent(points: impl Iterator<Item = Point>) -> Option<(f64, f64, f64)> {
    let all = points.fold((f64::INFINITY, f64::NEG_INFINITY, 0.0f64), |(least, most, far), (z, y)| (least.min(z), most.max(z), far.max(y.abs())));
    let (least, most, far) = all;
    (least.is_finite() && most.is_finite() && far.is_finite() && far > 0.0 && most - least + far < 1e12).then_some((least, most, far))
}
