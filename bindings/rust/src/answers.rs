//! What a call tells: the answer that crosses, as a `Result`.
use crate::raw;
use crate::{Build, Cause, MOST_OPTIONS};
use std::error::Error;
use std::fmt;

/// Why a sheet is refused, and the byte that this is about, counted from 0.
#[derive(Clone, Copy, PartialEq, Eq, Hash, Debug)]
pub struct Refused {
    pub cause: Cause,
    pub place: usize,
}

impl fmt::Display for Refused {
    fn fmt(&self, f: &mut fmt::Formatter) -> fmt::Result {
        write!(f, "at byte {}: {}", self.place, self.cause)
    }
}

impl Error for Refused {}

impl From<Refused> for Cause {
    fn from(refused: Refused) -> Cause {
        refused.cause
    }
}

/// What a verdict or a search says, a search never `Open`.
#[must_use]
#[derive(Clone, Copy, PartialEq, Eq, Hash, Debug)]
pub enum Verdict {
    /// There is no build.
    None,
    /// The build shown, zero past n.
    Built(Build),
    /// Two live options are stated together.
    Open,
}

impl Verdict {
    /// The build shown, if one is.
    #[must_use]
    pub fn build(self) -> Option<Build> {
        match self {
            Verdict::Built(build) => Some(build),
            Verdict::None | Verdict::Open => None,
        }
    }
}

/// What [`survey`](crate::survey) answers.
#[must_use]
#[derive(Clone, Copy, PartialEq, Eq, Hash, Debug)]
pub struct Survey {
    /// How many builds there are, at most [`u64::MAX`].
    pub count: u64,
    /// There are more builds than `count` says.
    pub more: bool,
    /// Bit `v` of `words[i]`: some build has value `v` at option `i`, options counted from 0; zero past n.
    pub words: [u32; MOST_OPTIONS],
}

/// What [`cut`](crate::cut) answers.
#[must_use]
#[derive(Clone, Copy, PartialEq, Eq, Hash, Debug)]
pub struct Cut {
    /// How many steps the reduction took.
    pub steps: usize,
    /// The verdict of the reduced state.
    pub verdict: Verdict,
}

/// By the number alone. Every number that the library answers is 0 or that of a cause, which is proved.
pub(crate) fn told<T>(number: u8, answer: T) -> Result<T, Cause> {
    match Cause::of(number) {
        Some(cause) => Err(cause),
        None if number == 0 => Ok(answer),
        None => unreachable!("no cause has the number {number}"),
    }
}

/// By the number and the place.
fn told_at<T>(number: u8, place: usize, answer: T) -> Result<T, Refused> {
    told(number, answer).map_err(|cause| Refused { cause, place })
}

/// A kind other than these goes with a refusal.
fn verdict(kind: u8, build: Build) -> Verdict {
    match kind {
        raw::BUILT => Verdict::Built(build),
        raw::OPEN => Verdict::Open,
        _ => Verdict::None,
    }
}

impl raw::Read {
    pub(crate) fn told(self) -> Result<(), Refused> {
        told_at(self.number, self.place, ())
    }
}

impl raw::Stepped {
    pub(crate) fn told(self) -> Result<usize, Cause> {
        told(self.number, self.steps)
    }
}

impl raw::Written {
    pub(crate) fn told(self) -> Result<usize, Cause> {
        told(self.number, self.length)
    }
}

impl raw::Tested {
    pub(crate) fn told(self) -> Result<bool, Cause> {
        told(self.number, self.is_build)
    }
}

impl raw::TestedOrder {
    pub(crate) fn told(self) -> Result<bool, Cause> {
        told(self.number, self.is_good)
    }
}

impl raw::Value {
    pub(crate) fn told(self) -> Result<u8, Cause> {
        told(self.number, self.value)
    }
}

impl raw::Verdict {
    pub(crate) fn told(self) -> Result<Verdict, Cause> {
        told(self.number, verdict(self.kind, self.build))
    }
}

impl raw::Survey {
    pub(crate) fn told(self) -> Result<Survey, Cause> {
        let survey = Survey {
            count: self.count,
            more: self.more,
            words: self.words,
        };
        told(self.number, survey)
    }
}

impl raw::Cut {
    pub(crate) fn told(self) -> Result<Cut, Refused> {
        let cut = Cut {
            steps: self.steps,
            verdict: verdict(self.kind, self.build),
        };
        told_at(self.number, self.place, cut)
    }
}
