//! A whole session compared: the answer of the call, every answer of a step, and every byte of the output and around.

use std::fmt::Write;

use plain::generate_session::Generated;
use plain::random::Random;
use plain::steps::{operation, ANSWER, OPERATIONS, STEP};

use crate::archive::{self, Memory};
use crate::guarded::{difference, Guarded, BYTE, WORD};

/// What is asked of a session beside its sources and steps, drawn.
pub struct Asked {
    /// Words of room for answers.
    room: usize,
    /// Words behind the last whole step.
    behind: usize,
    /// Guards more in front of what is lent.
    more: usize,
}

impl Asked {
    /// Mostly room for every answer; else fewer or more words.
    pub fn draw(random: &mut Random, steps: &[u32]) -> Self {
        let all = steps.len() / STEP * ANSWER;
        let room = match random.below(8) {
            0 => random.below(all + 1),
            1 => all + random.between(1, 9),
            _ => all,
        };
        let behind = if random.once_in(4) { random.between(1, STEP - 1) } else { 0 };
        Asked { room, behind, more: random.below(8) }
    }
}

/// A step and the refusal, or 0, that both answer.
pub type Answered = (u32, u32);

/// What a session answers and leaves: the answer of the call, those of the steps, and the output.
struct Told {
    first: u64,
    answers: Vec<u32>,
    output: Vec<u8>,
}

/// Compares a session, in memory of its own and in memory that is lent, and tells what is answered to each step, as far
/// as there was room.
pub fn agrees(session: &Generated, asked: &Asked, memory: &mut Memory) -> Result<Vec<Answered>, String> {
    let mut steps = session.steps.clone();
    steps.extend(vec![operation::CLEAR; asked.behind]);
    let mut expected = Told { first: 0, answers: vec![WORD; asked.room], output: vec![BYTE; session.output] };
    let (answers, output) = (&mut expected.answers, &mut expected.output);
    expected.first = plain::steps::run(&session.sources, &steps, answers, output);

    same(session, asked, &expected, |sources, answers, output| {
        archive::session(sources, &steps, answers, output)
    })?;
    same(session, asked, &expected, |sources, answers, output| {
        archive::session_in(sources, &steps, answers, output, memory)
    })
    .map_err(|message| format!("in lent memory: {message}"))?;
    if !memory.intact() {
        return Err("what is around the lent memory changed".to_owned());
    }
    let steps = session.steps.chunks_exact(STEP).map(|step| step[0]);
    Ok(steps.zip(expected.answers.chunks_exact(ANSWER).map(|answer| answer[0])).collect())
}

/// Runs a session by a call of the archive and compares what it tells.
fn same(
    session: &Generated,
    asked: &Asked,
    expected: &Told,
    call: impl FnOnce(&[u8], &mut [u32], &mut [u8]) -> u64,
) -> Result<(), String> {
    let sources = Guarded::holding(BYTE, &session.sources, asked.more);
    let mut answers = Guarded::fresh(WORD, asked.room, asked.more);
    let mut output = Guarded::fresh(BYTE, session.output, asked.more);
    let first = call(sources.content(), answers.lent(), output.lent());
    same_answers(&session.steps, answers.content(), &expected.answers)?;
    if first != expected.first {
        return Err(format!("the archive answers {first:#x}, the plain reading {:#x}", expected.first));
    }
    if let Some(at) = difference(output.content(), &expected.output) {
        let (archive, expected) = (output.content()[at], expected.output[at]);
        return Err(format!(
            "byte {at} of the output is {archive} by the archive, {expected} by the plain reading"
        ));
    }
    if !answers.intact() || !output.intact() {
        return Err("what is around the answers or the output changed".to_owned());
    }
    Ok(())
}

fn same_answers(steps: &[u32], archive: &[u32], expected: &[u32]) -> Result<(), String> {
    let Some(at) = difference(archive, expected) else { return Ok(()) };
    let own = at / ANSWER;
    let step = steps.chunks_exact(STEP).nth(own).map_or("behind the steps".to_owned(), shown);
    let answer = |all: &[u32]| format!("{:?}", &all[ANSWER * own..all.len().min(ANSWER * own + ANSWER)]);
    Err(format!(
        "step {own}, {step}: the archive answers {}, the plain reading {}",
        answer(archive),
        answer(expected)
    ))
}

/// A step by its operation's name.
fn shown(step: &[u32]) -> String {
    format!("{} {} {} {}", name(step[0]), step[1], step[2], step[3])
}

/// An operation by its name.
pub fn name(operation: u32) -> String {
    OPERATIONS.get(operation as usize).map_or(format!("operation {operation}"), |name| (*name).to_owned())
}

/// A session as the vectors write it, with the answers of the plain reading: its steps and the length of its output.
pub fn text(session: &Generated) -> String {
    let mut answers = vec![0; session.steps.len() / STEP * ANSWER];
    let mut output = vec![0; session.output];
    plain::steps::run(&session.sources, &session.steps, &mut answers, &mut output);
    let mut text = format!("# output of {} bytes, all {BYTE} before\n", session.output);
    let words = |words: &[u32]| words.iter().map(u32::to_string).collect::<Vec<String>>().join(" ");
    for (step, answer) in session.steps.chunks_exact(STEP).zip(answers.chunks_exact(ANSWER)) {
        writeln!(text, "{} = {} # {}", words(step), words(answer), name(step[0]))
            .expect("a string takes all");
    }
    text
}

/// The session that such a text and its sources tell.
pub fn read(what: String, text: &str, sources: Vec<u8>) -> Option<Generated> {
    let mut lines = text.lines();
    let output = lines.next()?.split(' ').nth(3)?.parse().ok()?;
    let mut steps = Vec::new();
    for line in lines {
        for word in line.split_once('=')?.0.split_whitespace() {
            steps.push(word.parse().ok()?);
        }
    }
    Some(Generated { what, sources, steps, output })
}
