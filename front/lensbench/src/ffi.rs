//! The records and calls of include/lensbench.h, field for field, and the only `unsafe` of this crate.
//!
//! What the header asks of a caller, each wrapper below has from its types: a reference is not null, is aligned and reaches the whole record; a slice reaches
//! as many entries as its length says; `&mut` overlaps nothing and is nobody else's while the call runs. The stack a call needs is far below a thread's.
use std::mem::{offset_of, size_of};

/// `LENS_ABI` of the header that the records below were written from.
pub const ABI: u32 = 5;
/// Places of a bench.
pub const PLACES: usize = 4;
/// Surfaces of a job at most.
pub const SURFACES: usize = 16;
/// Wavelength slots of a job at most; it has at least one.
pub const SLOTS: usize = 4;
/// Variables of a job at most.
pub const VARIABLES: usize = 8;
/// Operands of a job at most.
pub const OPERANDS: usize = 12;
/// Numbers of scratch that a turn or a dealing takes.
pub const SCRATCH: usize = 128;
pub const BENCH_WORDS: usize = 2352;
/// `lens_trace` answers it where nothing is refused and there is no trace.
pub const NOT_TRACED: u32 = 100;

/// One surface: radius, conic constant, thickness behind it and semi-diameter. Lengths are in mm; a flat surface has an infinite radius.
#[repr(C)]
#[derive(Clone, Copy, Debug, Default, PartialEq)]
pub struct Surface {
    /// Radius of curvature, positive where the centre lies behind the surface.
    pub radius_mm: f64,
    /// Conic constant; 0 is a sphere.
    pub conic_constant: f64,
    /// Distance along the axis to the next surface.
    pub thickness_mm: f64,
    /// Half the clear diameter.
    pub semi_diameter_mm: f64,
}

#[repr(C)]
#[derive(Clone, Copy, Default)]
pub struct VariableRecord {
    pub kind: u64,
    pub surface_index: u64,
    pub enabled: u64,
    pub min_value: f64,
    pub max_value: f64,
    pub step_size: f64,
    pub follows: u64,
    pub follower: u64,
}

#[repr(C)]
#[derive(Clone, Copy, Default)]
pub struct OperandRecord {
    pub kind: u64,
    pub at: u64,
    pub limit_mm: f64,
    pub target: f64,
    pub weight: f64,
}

#[repr(C)]
#[derive(Clone, Copy, Default)]
pub struct SettingsRecord {
    pub max_iterations: u64,
    pub initial_damping: f64,
    pub relative_merit_tolerance: f64,
    pub gradient_tolerance: f64,
    pub finite_difference_relative_step: f64,
    pub num_trials: u64,
    pub initial_temperature: f64,
    pub cooling_rate: f64,
    pub steps_per_temperature: u64,
    pub max_cooling_cycles: u64,
    pub seed: u64,
}

#[repr(C)]
#[derive(Clone, Copy)]
pub struct JobRecord {
    pub surfaces: [Surface; SURFACES],
    pub indices: [f64; SURFACES * SLOTS],
    pub variables: [VariableRecord; VARIABLES],
    pub operands: [OperandRecord; OPERANDS],
    pub surface_count: u64,
    pub slot_count: u64,
    pub variable_count: u64,
    pub operand_count: u64,
    pub entrance_pupil_diameter_mm: f64,
    pub settings: SettingsRecord,
}

impl Default for JobRecord {
    fn default() -> Self {
        JobRecord {
            surfaces: Default::default(),
            indices: [0.0; SURFACES * SLOTS],
            variables: Default::default(),
            operands: Default::default(),
            surface_count: 0,
            slot_count: 0,
            variable_count: 0,
            operand_count: 0,
            entrance_pupil_diameter_mm: 0.0,
            settings: Default::default(),
        }
    }
}

#[repr(C)]
#[derive(Clone, Copy, Default)]
pub struct RequestRecord {
    pub job: JobRecord,
    pub kind: u64,
    pub given: u64,
}

#[repr(C)]
#[derive(Clone, Copy, Default)]
pub struct ResultRecord {
    pub surfaces: [Surface; SURFACES],
    pub values: [f64; OPERANDS],
    pub residuals: [f64; OPERANDS],
    pub initial_merit: f64,
    pub final_merit: f64,
    pub iterations: u64,
    pub converged: u64,
}

#[repr(C)]
#[derive(Clone, Copy, Default)]
pub struct EvaluationRecord {
    pub values: [f64; OPERANDS],
    pub residuals: [f64; OPERANDS],
    pub total_merit: f64,
}

/// A paraxial ray at a surface.
#[repr(C)]
#[derive(Clone, Copy, Debug, Default, PartialEq)]
pub struct Ray {
    /// Height at the surface, in mm.
    pub height_mm: f64,
    /// Slope behind the surface.
    pub slope: f64,
}

/// The two ends of an interval.
#[repr(C)]
#[derive(Clone, Copy, Debug, Default, PartialEq)]
pub struct Interval {
    /// The least.
    pub low: f64,
    /// The greatest.
    pub high: f64,
}

#[repr(C)]
#[derive(Clone, Copy, Default)]
pub struct ThicknessLimitsRecord {
    pub thicknesses: [Interval; SURFACES],
}

#[repr(C)]
#[derive(Clone, Copy, Default)]
pub struct TraceLimitsRecord {
    pub track: Interval,
    pub heights: [Interval; SURFACES],
    pub slopes: [Interval; SURFACES],
}

#[repr(C)]
#[derive(Clone, Copy, Default)]
pub struct FinishedRecord {
    pub places: [usize; PLACES],
    pub count: usize,
}

#[repr(C)]
pub struct DealtRecord {
    pub dealt: u32,
    pub number: u32,
}

#[repr(C)]
#[derive(Clone)]
pub struct BenchRecord {
    pub words: [u64; BENCH_WORDS],
    pub next_place: usize,
}

// the header's own assertions, in its order
const _: () = assert!(size_of::<usize>() == 8);
const _: () = assert!(size_of::<Surface>() == 32 && size_of::<VariableRecord>() == 64 && size_of::<OperandRecord>() == 40);
const _: () = assert!(size_of::<SettingsRecord>() == 88 && size_of::<JobRecord>() == 2144 && size_of::<RequestRecord>() == 2160);
const _: () = assert!(size_of::<ResultRecord>() == 736 && size_of::<EvaluationRecord>() == 200 && size_of::<Ray>() == 16);
const _: () = assert!(size_of::<Interval>() == 16 && size_of::<ThicknessLimitsRecord>() == 256 && size_of::<TraceLimitsRecord>() == 528);
const _: () = assert!(size_of::<FinishedRecord>() == 40 && size_of::<DealtRecord>() == 8 && size_of::<BenchRecord>() == 18824);
// and where the parts of the larger records begin
const _: () = assert!(offset_of!(JobRecord, indices) == 512 && offset_of!(JobRecord, variables) == 1024 && offset_of!(JobRecord, operands) == 1536);
const _: () =
    assert!(offset_of!(JobRecord, surface_count) == 2016 && offset_of!(JobRecord, settings) == 2056 && offset_of!(RequestRecord, kind) == 2144);
const _: () =
    assert!(offset_of!(ResultRecord, values) == 512 && offset_of!(ResultRecord, initial_merit) == 704 && offset_of!(ResultRecord, iterations) == 720);

extern "C" {
    fn lens_abi() -> u32;
    fn lens_admit(bench: *mut BenchRecord, place: usize, request: *const RequestRecord) -> u32;
    fn lens_turn(bench: *mut BenchRecord, place: usize, scratch: *mut f64, scratch_length: usize) -> u32;
    fn lens_deal(bench: *mut BenchRecord, turns: u16, scratch: *mut f64, scratch_length: usize) -> DealtRecord;
    fn lens_fetch(bench: *const BenchRecord, place: usize, result: *mut ResultRecord) -> u32;
    fn lens_release(bench: *mut BenchRecord, place: usize) -> u32;
    fn lens_finished_places(bench: *const BenchRecord) -> FinishedRecord;
    fn lens_evaluate(job: *const JobRecord, evaluation: *mut EvaluationRecord) -> u32;
    fn lens_trace(job: *const JobRecord, slot: usize, rays: *mut Ray, ray_count: usize) -> u32;
    fn lens_trace_limits(job: *const JobRecord, limits: *const ThicknessLimitsRecord, slot: usize, traced: *mut TraceLimitsRecord) -> u32;
}

pub fn abi() -> u32 {
    // SAFETY: it takes nothing.
    unsafe { lens_abi() }
}

pub fn admit(bench: &mut BenchRecord, place: usize, request: &RequestRecord) -> u32 {
    // SAFETY: by the types, see above.
    unsafe { lens_admit(bench, place, request) }
}

pub fn turn(bench: &mut BenchRecord, place: usize, scratch: &mut [f64]) -> u32 {
    // SAFETY: by the types, see above.
    unsafe { lens_turn(bench, place, scratch.as_mut_ptr(), scratch.len()) }
}

pub fn deal(bench: &mut BenchRecord, turns: u16, scratch: &mut [f64]) -> DealtRecord {
    // SAFETY: by the types, see above.
    unsafe { lens_deal(bench, turns, scratch.as_mut_ptr(), scratch.len()) }
}

pub fn fetch(bench: &BenchRecord, place: usize, result: &mut ResultRecord) -> u32 {
    // SAFETY: by the types, see above.
    unsafe { lens_fetch(bench, place, result) }
}

pub fn release(bench: &mut BenchRecord, place: usize) -> u32 {
    // SAFETY: by the types, see above.
    unsafe { lens_release(bench, place) }
}

pub fn finished_places(bench: &BenchRecord) -> FinishedRecord {
    // SAFETY: by the types, see above.
    unsafe { lens_finished_places(bench) }
}

pub fn evaluate(job: &JobRecord, evaluation: &mut EvaluationRecord) -> u32 {
    // SAFETY: by the types, see above.
    unsafe { lens_evaluate(job, evaluation) }
}

pub fn trace(job: &JobRecord, slot: usize, rays: &mut [Ray]) -> u32 {
    // SAFETY: by the types, see above.
    unsafe { lens_trace(job, slot, rays.as_mut_ptr(), rays.len()) }
}

pub fn trace_limits(job: &JobRecord, limits: &ThicknessLimitsRecord, slot: usize, traced: &mut TraceLimitsRecord) -> u32 {
    // SAFETY: by the types, see above.
    unsafe { lens_trace_limits(job, limits, slot, traced) }
}
