//! A stripe's record, and the preview of a loss.

use crate::raw;
use crate::Code;

/// Whether one codeword agrees with every kept symbol, none, or more than one.
#[derive(Clone, Copy, Debug, PartialEq, Eq, Hash)]
pub enum Outcome {
    /// One does: its message is in the message buffer.
    Decided,
    /// None does: refusal 9 of decode.
    Foreign,
    /// More than one does: refusal 10 of decode.
    Undecided,
}

/// A stripe's record, as [`Code::record`] answers it.
#[derive(Clone, Copy, Debug, PartialEq, Eq, Hash)]
pub struct Record {
    /// The stripe's code.
    pub code: Code,
    /// How many slots are lost.
    pub lost: u32,
    /// The guarantee: up to that many lost slots are decoded, whichever they are.
    pub sure: u32,
    /// 0 nothing is lost; else 1 no group has more than one loss; else 2 the number lost is at most
    /// the guarantee; else 3 the kept slots still decide; 4 some two different codewords agree on
    /// them. It goes by the code and the marks: a record of grade 4 is undecided or foreign.
    pub grade: u32,
    /// The first group with two or more losses, if there is one.
    pub first: Option<u32>,
    /// What decoding came to.
    pub outcome: Outcome,
}

/// What would follow from losing a slot, as [`Code::preview`] answers it.
#[derive(Clone, Copy, Debug, PartialEq, Eq, Hash)]
pub struct Preview {
    /// How many slots would be lost.
    pub lost: u32,
    /// The grade that would follow, from 1 to 4, as [`Code::grade`] has it. Under 4 alone the message
    /// would no longer be decided.
    pub grade: u32,
    /// The first group that would have two or more losses, if there is one.
    pub first: Option<u32>,
}

/// What the library answers for the first group where there is none.
const NO_GROUP: u32 = 255;

fn group(first: u32) -> Option<u32> {
    (first != NO_GROUP).then_some(first)
}

impl Preview {
    /// From the three numbers of an accepted call.
    pub(crate) fn from_numbers([lost, grade, first]: [u32; raw::PREVIEW]) -> Preview {
        Preview { lost, grade, first: group(first) }
    }
}

impl Record {
    /// From the ten numbers of an accepted call, whose code is accepted too.
    pub(crate) fn from_numbers(numbers: [u32; raw::RECORD]) -> Record {
        let [field, r, n, k, wiring, lost, sure, grade, first, outcome] = numbers;
        let first = group(first);
        let outcome = match outcome {
            0 => Outcome::Decided,
            9 => Outcome::Foreign,
            10 => Outcome::Undecided,
            other => unreachable!("outcome {other}"),
        };
        Record { code: Code { field, r, n, k, wiring }, lost, sure, grade, first, outcome }
    }
}
