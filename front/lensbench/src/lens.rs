//! A lens, what is wanted of it and what may vary.
pub use crate::ffi::{Ray, Surface};

impl Surface {
    /// A spherical surface; an infinite radius makes it flat.
    pub fn sphere(radius_mm: f64, thickness_mm: f64, semi_diameter_mm: f64) -> Surface {
        Surface { radius_mm, conic_constant: 0.0, thickness_mm, semi_diameter_mm }
    }

    /// A flat surface.
    pub fn flat(thickness_mm: f64, semi_diameter_mm: f64) -> Surface {
        Surface::sphere(f64::INFINITY, thickness_mm, semi_diameter_mm)
    }

    /// The same surface with a conic constant.
    pub fn conic(self, conic_constant: f64) -> Surface {
        Surface { conic_constant, ..self }
    }

    /// The four numbers in the order in which a job file has them: radius, thickness, semi-diameter, conic constant.
    pub fn columns(&self) -> [f64; 4] {
        [self.radius_mm, self.thickness_mm, self.semi_diameter_mm, self.conic_constant]
    }
}

/// Surfaces from the object's side on, with the refractive index behind each in each wavelength slot, and the entrance pupil.
#[derive(Clone, Debug, PartialEq)]
pub struct Lens {
    /// The surfaces, at most 16.
    pub surfaces: Vec<Surface>,
    /// For each surface as many indices as there are slots, of the medium behind it.
    pub indices: Vec<Vec<f64>>,
    /// The number of wavelength slots, 1 to 4.
    pub slots: usize,
    /// Diameter of the entrance pupil.
    pub pupil_mm: f64,
}

impl Lens {
    /// A lens without surfaces yet.
    pub fn new(slots: usize, pupil_mm: f64) -> Lens {
        Lens { surfaces: Vec::new(), indices: Vec::new(), slots, pupil_mm }
    }

    /// The lens with one more surface, and the index behind it in each slot.
    pub fn surface(mut self, surface: Surface, indices: &[f64]) -> Lens {
        self.push(surface, indices);
        self
    }

    /// Adds a surface, and the index behind it in each slot.
    pub fn push(&mut self, surface: Surface, indices: &[f64]) {
        self.surfaces.push(surface);
        self.indices.push(indices.to_vec());
    }
}

/// What a variable changes of its surface.
#[derive(Clone, Copy, Debug, PartialEq, Eq)]
pub enum Quantity {
    /// 1 / radius, in 1/mm.
    Curvature,
    /// Thickness behind the surface, in mm.
    Thickness,
    /// Conic constant.
    Conic,
    /// Semi-diameter, in mm.
    SemiDiameter,
}

impl Quantity {
    /// All of them, in the order of their numbers, from 0.
    pub const ALL: [Quantity; 4] = [Quantity::Curvature, Quantity::Thickness, Quantity::Conic, Quantity::SemiDiameter];

    /// The quantity's value at a surface. A curvature is 0 for an infinite radius or one below 1e-15 in magnitude.
    pub fn of(self, surface: &Surface) -> f64 {
        match self {
            Quantity::Curvature if surface.radius_mm.is_infinite() || surface.radius_mm.abs() < 1e-15 => 0.0,
            Quantity::Curvature => 1.0 / surface.radius_mm,
            Quantity::Thickness => surface.thickness_mm,
            Quantity::Conic => surface.conic_constant,
            Quantity::SemiDiameter => surface.semi_diameter_mm,
        }
    }
}

/// A quantity of a surface that a run may change, within bounds.
#[derive(Clone, Copy, Debug, PartialEq)]
pub struct Variable {
    /// What is changed.
    pub quantity: Quantity,
    /// The surface's number, from 0.
    pub surface: usize,
    /// A variable that is not enabled stays as it is.
    pub enabled: bool,
    /// Least value.
    pub least: f64,
    /// Greatest value.
    pub greatest: f64,
    /// Least step by which a derivative is taken.
    pub step: f64,
    /// A second surface that is changed with it, if any.
    pub follower: Option<Follower>,
}

/// A surface that gets a variable's quantity too, straight after the variable's own surface. Values are read from that one alone.
#[derive(Clone, Copy, Debug, PartialEq, Eq)]
pub enum Follower {
    /// The surface with this number gets the same value.
    Plus(usize),
    /// The surface with this number gets the opposite: of a curvature or a conic, not of a thickness or semi-diameter.
    Minus(usize),
}

impl Follower {
    /// The surface's number, from 0.
    pub fn surface(self) -> usize {
        match self {
            Follower::Plus(surface) | Follower::Minus(surface) => surface,
        }
    }

    /// What the follower gets where the variable's own surface gets this.
    pub fn value(self, of_named: f64) -> f64 {
        match self {
            Follower::Plus(_) => of_named,
            Follower::Minus(_) => -of_named,
        }
    }
}

impl Variable {
    /// An enabled variable with the usual bounds and step of its quantity.
    pub fn new(quantity: Quantity, surface: usize) -> Variable {
        let (least, greatest, step) = match quantity {
            Quantity::Curvature => (-0.5, 0.5, 1e-6),
            Quantity::Thickness => (0.01, 500.0, 1e-4),
            Quantity::Conic => (-10.0, 10.0, 1e-4),
            Quantity::SemiDiameter => (0.1, 500.0, 1e-3),
        };
        Variable { quantity, surface, enabled: true, least, greatest, step, follower: None }
    }

    /// The variable with these bounds. Those of a curvature are in 1/mm: they are no radii.
    pub fn between(self, least: f64, greatest: f64) -> Variable {
        Variable { least, greatest, ..self }
    }

    /// The variable with a second surface that gets the same values.
    pub fn same_at(self, surface: usize) -> Variable {
        Variable { follower: Some(Follower::Plus(surface)), ..self }
    }

    /// The variable with a second surface that gets the opposite values: two curvatures that are each other's mirror image.
    pub fn opposite_at(self, surface: usize) -> Variable {
        Variable { follower: Some(Follower::Minus(surface)), ..self }
    }

    /// The surfaces whose quantity it changes, each once: its own, and its follower.
    pub fn surfaces(&self) -> impl Iterator<Item = usize> {
        let follower = self.follower.map(Follower::surface).filter(|surface| *surface != self.surface);
        [Some(self.surface), follower].into_iter().flatten()
    }
}

/// What an operand looks at.
#[derive(Clone, Copy, Debug, PartialEq)]
pub enum Aim {
    /// Focal length in a slot.
    FocalLength {
        /// The slot's number, from 0.
        slot: usize,
    },
    /// F-number in a slot.
    FNumber {
        /// The slot's number, from 0.
        slot: usize,
    },
    /// The sum of all thicknesses.
    Track,
    /// Back focus in a slot.
    BackFocus {
        /// The slot's number, from 0.
        slot: usize,
    },
    /// Magnification in a slot: back focus over focal length.
    Magnification {
        /// The slot's number, from 0.
        slot: usize,
    },
    /// What a surface's thickness falls short of a limit, as a negative number, or 0.
    LeastCentreThickness {
        /// The surface's number, from 0.
        surface: usize,
        /// The limit.
        limit_mm: f64,
    },
    /// What a surface's thickness passes a limit, or 0.
    GreatestCentreThickness {
        /// The surface's number, from 0.
        surface: usize,
        /// The limit.
        limit_mm: f64,
    },
    /// What the edge between a surface and the next falls short of a limit, as a negative number, or 0. The edge is measured at the smaller of their
    /// semi-diameters; where a surface does not reach so far, or there is no next one, the value is 100,000.
    LeastEdgeThickness {
        /// The surface's number, from 0.
        surface: usize,
        /// The limit.
        limit_mm: f64,
    },
}

impl Aim {
    /// The surface and the limit of an aim that has them.
    pub fn surface_and_limit(&self) -> Option<(usize, f64)> {
        match *self {
            Aim::LeastCentreThickness { surface, limit_mm }
            | Aim::GreatestCentreThickness { surface, limit_mm }
            | Aim::LeastEdgeThickness { surface, limit_mm } => Some((surface, limit_mm)),
            Aim::FocalLength { .. } | Aim::FNumber { .. } | Aim::Track | Aim::BackFocus { .. } | Aim::Magnification { .. } => None,
        }
    }
}

/// One term of the merit: weight × (value - target)².
#[derive(Clone, Copy, Debug, PartialEq)]
pub struct Operand {
    /// What it looks at.
    pub aim: Aim,
    /// The value wanted.
    pub target: f64,
    /// The term's weight, not negative.
    pub weight: f64,
}

impl Operand {
    /// An operand of weight 1.
    pub fn new(aim: Aim, target: f64) -> Operand {
        Operand { aim, target, weight: 1.0 }
    }

    /// The operand with a weight.
    pub fn weight(self, weight: f64) -> Operand {
        Operand { weight, ..self }
    }
}
