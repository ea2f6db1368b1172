//! The refusals as a type.

use std::fmt;

/// Why an image or a call was turned back.
///
/// Each stands for one of the numbers of `docs/RULES.md`, which are tested in this sequence: 1 to 6 over the whole
/// image, then 13, 8, 9, 10, 11 for redirecting, 12 for the order, 7 and 12 for linking; in a session 20, 13, 22, 21
/// for an import and 20, 22, 21, 7 for a finish. Where in an image a rule is broken is said by `place`, with the
/// feature of that name.
#[derive(Clone, Copy, Debug, PartialEq, Eq, Hash)]
#[non_exhaustive]
pub enum Refusal {
    /// 1: size, edition or total.
    Size,
    /// 2: layout, padding or limit.
    Layout,
    /// 3: a number or code out of range, or a kind barred from its place.
    Range,
    /// 4: a reference that is not to a lower number.
    Reference,
    /// 5: a name that is missing, or names, named numbers or keys that are equal.
    Names,
    /// 6: a rule of scope.
    Scope,
    /// 7: the output is shorter than what is to be written.
    Output,
    /// 8: no function bears the original's name.
    OriginalNotFound,
    /// 9: no function bears the replacement's name.
    ReplacementNotFound,
    /// 10: argument types differ.
    ArgumentTypes,
    /// 11: result types differ.
    ResultTypes,
    /// 12: a ring of calls.
    Ring {
        /// The count of functions from which a chain of calls reaches a ring.
        left: u32,
    },
    /// 13: a number given by the caller lies outside its table.
    NumberGiven,
    /// 20: no source is set.
    NoSource,
    /// 21: the derived image would pass 65,536 bytes, or a table its limit.
    Full,
    /// 22: an import would follow calls, through functions of unknown name, back to one of those.
    UnknownRing,
    /// A number that no rule gives these functions. The archive's contract excludes it.
    Unlisted(u32),
}

impl Refusal {
    /// The refusal that an answer means: its number in the low half, 12's count in the high half.
    pub(crate) fn from_answer(answer: u64) -> Option<Self> {
        let (number, value) = (answer as u32, (answer >> 32) as u32);
        Some(match number {
            0 => return None,
            1 => Refusal::Size,
            2 => Refusal::Layout,
            3 => Refusal::Range,
            4 => Refusal::Reference,
            5 => Refusal::Names,
            6 => Refusal::Scope,
            7 => Refusal::Output,
            8 => Refusal::OriginalNotFound,
            9 => Refusal::ReplacementNotFound,
            10 => Refusal::ArgumentTypes,
            11 => Refusal::ResultTypes,
            12 => Refusal::Ring { left: value },
            13 => Refusal::NumberGiven,
            20 => Refusal::NoSource,
            21 => Refusal::Full,
            22 => Refusal::UnknownRing,
            other => Refusal::Unlisted(other),
        })
    }

    /// Its number, as the archive answers it.
    pub fn number(self) -> u32 {
        match self {
            Refusal::Size => 1,
            Refusal::Layout => 2,
            Refusal::Range => 3,
            Refusal::Reference => 4,
            Refusal::Names => 5,
            Refusal::Scope => 6,
            Refusal::Output => 7,
            Refusal::OriginalNotFound => 8,
            Refusal::ReplacementNotFound => 9,
            Refusal::ArgumentTypes => 10,
            Refusal::ResultTypes => 11,
            Refusal::Ring { .. } => 12,
            Refusal::NumberGiven => 13,
            Refusal::NoSource => 20,
            Refusal::Full => 21,
            Refusal::UnknownRing => 22,
            Refusal::Unlisted(number) => number,
        }
    }

    /// The refusal in a sentence.
    pub fn sentence(self) -> &'static str {
        match self {
            Refusal::Size => "the size, the edition or the total of words is wrong",
            Refusal::Layout => "the layout or the padding is wrong, or a limit is passed",
            Refusal::Range => "a number or a code is out of range, or a kind stands where it is barred",
            Refusal::Reference => "a reference is not to a lower number",
            Refusal::Names => "a name is missing, or names, named numbers or special keys are equal",
            Refusal::Scope => "a rule of scope is broken",
            Refusal::Output => "the output is too short",
            Refusal::OriginalNotFound => "no function bears the original's name",
            Refusal::ReplacementNotFound => "no function bears the replacement's name",
            Refusal::ArgumentTypes => "the original and the replacement have other argument types",
            Refusal::ResultTypes => "the original and the replacement have other result types",
            Refusal::Ring { .. } => "functions call one another in a ring",
            Refusal::NumberGiven => "a number given by the caller lies outside its table",
            Refusal::NoSource => "no source is set",
            Refusal::Full => "the derived image would be too long, or a table of it too large",
            Refusal::UnknownRing => "functions of unknown name call one another in a ring",
            Refusal::Unlisted(_) => "the archive answered a number that is not listed",
        }
    }
}

/// `refused 3: ..`, and with 12 its count: `refused 12 left 2: ..`.
impl fmt::Display for Refusal {
    fn fmt(&self, f: &mut fmt::Formatter) -> fmt::Result {
        write!(f, "refused {}", self.number())?;
        if let Refusal::Ring { left } = self {
            write!(f, " left {left}")?;
        }
        write!(f, ": {}", self.sentence())
    }
}

impl std::error::Error for Refusal {}
