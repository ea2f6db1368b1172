//! A whole session in one call, as the C function has it: steps in, answers and output out.
//!
//! A step is four words, an operation and its three operands; its answer is three words, the refusal (0 for none)
//! and two values. A refused step changes nothing, and the next one follows.

use crate::session::Session;
use crate::Refused;

/// The operations by their numbers.
pub const OPERATIONS: [&str; 15] = [
    "set",
    "clear",
    "map_span",
    "import_type",
    "rename_type",
    "import_const",
    "import_pipeline_override",
    "import_global",
    "import_global_expression",
    "import_function",
    "import_function_if_new",
    "map_function_handle",
    "has_required_special_types",
    "finish",
    "finish_with_entry_points",
];

/// The refusals of each operation, and of a number that is none.
pub const REFUSALS: [&[u32]; OPERATIONS.len() + 1] = [
    &[1, 2, 3, 4, 5, 6, 21],
    &[],
    &[20],
    &[20, 13, 21],
    &[20, 13, 21],
    &[20, 13, 21],
    &[20, 13, 21],
    &[20, 13, 21],
    &[20, 13, 21],
    &[20, 13, 22, 21],
    &[20, 13, 22, 21],
    &[20, 13, 22, 21],
    &[],
    // 21 too, but what was accepted before is never too large.
    &[7],
    &[20, 22, 21, 7],
    &[13],
];

/// Their numbers.
pub mod operation {
    pub const SET: u32 = 0;
    pub const CLEAR: u32 = 1;
    pub const MAP_SPAN: u32 = 2;
    pub const IMPORT_TYPE: u32 = 3;
    pub const RENAME_TYPE: u32 = 4;
    pub const IMPORT_CONST: u32 = 5;
    pub const IMPORT_PIPELINE_OVERRIDE: u32 = 6;
    pub const IMPORT_GLOBAL: u32 = 7;
    pub const IMPORT_GLOBAL_EXPRESSION: u32 = 8;
    pub const IMPORT_FUNCTION: u32 = 9;
    pub const IMPORT_FUNCTION_IF_NEW: u32 = 10;
    pub const MAP_FUNCTION_HANDLE: u32 = 11;
    pub const HAS_REQUIRED_SPECIAL_TYPES: u32 = 12;
    pub const FINISH: u32 = 13;
    pub const FINISH_WITH_ENTRY_POINTS: u32 = 14;
}

/// Words of a step, and of an answer.
pub const STEP: usize = 4;
pub const ANSWER: usize = 3;

/// Runs a session. Words behind the last whole step are not read; answers are written as far as there is room.
/// Answers 0 where every step was accepted, else the first refusal in the low half and that step's number in the
/// high half.
pub fn run(sources: &[u8], steps: &[u32], answers: &mut [u32], output: &mut [u8]) -> u64 {
    let mut session = Session::new();
    let mut first = 0;
    let mut room = answers.iter_mut();
    for (own, words) in steps.chunks_exact(STEP).enumerate() {
        let answer = match step(&mut session, sources, words, output) {
            Ok((one, two)) => [0, one, two],
            Err(refused) => [refused.number, 0, 0],
        };
        if first == 0 && answer[0] != 0 {
            first = (own as u64) << 32 | u64::from(answer[0]);
        }
        room.by_ref().zip(answer).for_each(|(word, value)| *word = value);
    }
    first
}

/// One step, and the two values of its answer.
fn step(
    session: &mut Session,
    sources: &[u8],
    words: &[u32],
    output: &mut [u8],
) -> Result<(u32, u32), Refused> {
    let (number, a, b, c) = (words[0], words[1], words[2], words[3]);
    let one = |value: Result<u32, Refused>| value.map(|value| (value, 0));
    let out = part(output.len(), a, b);
    match number {
        operation::SET => session.set_shader_source(&sources[part(sources.len(), a, b)], c).map(|()| (0, 0)),
        operation::CLEAR => {
            session.clear_shader_source();
            Ok((0, 0))
        }
        operation::MAP_SPAN => session.map_span(a, b),
        operation::IMPORT_TYPE => one(session.import_type(a)),
        operation::RENAME_TYPE => one(session.rename_type(a, b)),
        operation::IMPORT_CONST => one(session.import_const(a)),
        operation::IMPORT_PIPELINE_OVERRIDE => one(session.import_pipeline_override(a)),
        operation::IMPORT_GLOBAL => one(session.import_global(a)),
        operation::IMPORT_GLOBAL_EXPRESSION => one(session.import_global_expression(a)),
        operation::IMPORT_FUNCTION => one(session.import_function(a)),
        operation::IMPORT_FUNCTION_IF_NEW => one(session.import_function_if_new(a)),
        operation::MAP_FUNCTION_HANDLE => one(session.map_function_handle(a)),
        operation::HAS_REQUIRED_SPECIAL_TYPES => Ok((u32::from(session.has_required_special_types()), 0)),
        operation::FINISH => one(session.finish(&mut output[out])),
        operation::FINISH_WITH_ENTRY_POINTS => one(session.finish_with_entry_points(&mut output[out])),
        _ => Err(Refused::of(13, "an operation is 0 to 14")),
    }
}

/// A part of so many bytes from a start, cut at the end of all.
fn part(all: usize, start: u32, length: u32) -> std::ops::Range<usize> {
    let start = all.min(start as usize);
    start..all.min(start + length as usize)
}
