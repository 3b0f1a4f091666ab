//! Why a call was turned down.
use std::fmt;

/// The reason for which a call was turned down: the first that applies. Nothing has changed then.
#[derive(Clone, Copy, Debug, PartialEq, Eq, Hash)]
#[non_exhaustive]
pub enum Refusal {
    /// 1: too many surfaces, variables or operands, no slot or more than four, or a list that is not as long as the others ask.
    Counts,
    /// 2: the place is above 3.
    NoSuchPlace,
    /// 3: a number of the lens itself.
    Lens,
    /// 4: a variable.
    Variable,
    /// 5: an operand, or the slot of a trace.
    Operand,
    /// 6: a setting of the run.
    Setting,
    /// 7: no variable is enabled.
    NoVariable,
    /// 8: there is no operand.
    NoOperand,
    /// 9: the scratch is too short.
    ShortScratch,
    /// 10: the place has a job.
    Taken,
    /// 11: the place has no job.
    Empty,
    /// 12: what the place holds was not left there by these calls; of a dealing, what some place holds, or the place to go next.
    Damaged,
    /// 13: the job is at its end.
    Finished,
    /// 14: the job is not at its end.
    Unfinished,
    /// 17: a variable's follower.
    Follower,
    /// 19: the limits of a trace within limits.
    ThicknessLimits,
    /// A number that this crate has no name for.
    Unlisted(u32),
}

/// In the order of their numbers: from 1 upward, and 17 and 19 behind 14.
const LISTED: [Refusal; 16] = [
    Refusal::Counts,
    Refusal::NoSuchPlace,
    Refusal::Lens,
    Refusal::Variable,
    Refusal::Operand,
    Refusal::Setting,
    Refusal::NoVariable,
    Refusal::NoOperand,
    Refusal::ShortScratch,
    Refusal::Taken,
    Refusal::Empty,
    Refusal::Damaged,
    Refusal::Finished,
    Refusal::Unfinished,
    Refusal::Follower,
    Refusal::ThicknessLimits,
];

/// The numbers of the last two, which do not follow on those before them.
const FOLLOWER: u32 = 17;
const THICKNESS_LIMITS: u32 = 19;

impl Refusal {
    /// All that have a name, in the order of their numbers.
    pub fn listed() -> &'static [Refusal] {
        &LISTED
    }

    /// The number by which the bench, and its C header, know it.
    pub fn number(self) -> u32 {
        match self {
            Refusal::Unlisted(number) => return number,
            Refusal::Follower => return FOLLOWER,
            Refusal::ThicknessLimits => return THICKNESS_LIMITS,
            _ => {}
        }
        LISTED.iter().position(|&r| r == self).map_or(0, |i| i as u32 + 1)
    }

    /// The refusal of a number; none for 0.
    pub fn of_number(number: u32) -> Option<Refusal> {
        if number == 0 {
            return None;
        }
        Some(LISTED.iter().copied().find(|listed| listed.number() == number).unwrap_or(Refusal::Unlisted(number)))
    }

    /// What a person is told.
    pub fn sentence(self) -> &'static str {
        match self {
            Refusal::Counts => "a job has at most 16 surfaces, 1 to 4 slots, at most 8 variables and 12 operands, and an index for each surface and slot",
            Refusal::NoSuchPlace => "a bench has the places 0 to 3",
            Refusal::Lens => {
                "a radius is a number, a conic finite, a thickness within 1e9, the pupil and semi-diameters above 0 and up to 1e9, indices above 0 and up to 10"
            }
            Refusal::Variable => {
                "a variable is of a surface that is there, its bounds within 1e9 and not crossed, its step from 0 to 1e9, a semi-diameter's bounds above 0"
            }
            Refusal::Operand => "an operand is of a slot that is there, its target and limit are within 1e9, its weight is finite and not negative",
            Refusal::Setting => {
                "initial damping is from 0 to 1e8, relative step and cooling rate from 0 to 1, tolerances and temperature finite, counts up to 1000"
            }
            Refusal::NoVariable => "a job has at least one variable that is enabled",
            Refusal::NoOperand => "a job has at least one operand",
            Refusal::ShortScratch => "a turn or a dealing needs a scratch of 128 numbers",
            Refusal::Taken => "the place has a job already",
            Refusal::Empty => "the place has no job",
            Refusal::Damaged => "what the place, or for a dealing some place, holds was not left there by the bench's calls; it can be released",
            Refusal::Finished => "the job is at its end and can be fetched",
            Refusal::Unfinished => "the job is not at its end yet",
            Refusal::Follower => "a variable's follower is a surface that is there, and one with the opposite value is of a curvature or a conic",
            Refusal::ThicknessLimits => "a trace within limits has two surfaces or more, limits that are finite and not crossed, and no end that overflows",
            Refusal::Unlisted(_) => "a number that this version has no name for",
        }
    }

    /// Ok for 0.
    pub(crate) fn answer(number: u32) -> Result<(), Refusal> {
        Refusal::of_number(number).map_or(Ok(()), Err)
    }
}

impl fmt::Display for Refusal {
    fn fmt(&self, f: &mut fmt::Formatter<'_>) -> fmt::Result {
        write!(f, "refused with {}: {}", self.number(), self.sentence())
    }
}

impl std::error::Error for Refusal {}
