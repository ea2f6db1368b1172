//! Sessions: every vector's answers and output, through the raw call and through a session that is put together by name;
//! and what a session does where its caller asks for much.
//!
//! The vectors are read from the repository's `vectors/` and, where WULDGISP_VECTORS names a folder, from there too.

use std::path::{Path, PathBuf};

use wuldgisp::{run_steps, Answers, Linker, Refusal, Session, Ticket, TooLong};

/// A session of the vectors, and what it is to answer.
struct Vector {
    file: PathBuf,
    sources: Vec<u8>,
    steps: Vec<[u32; 4]>,
    answers: Vec<[u32; 3]>,
    output: Vec<u8>,
}

/// The bytes of an output that nothing has written.
const BEFORE: u8 = 165;

fn vectors() -> Vec<Vector> {
    let own = Path::new(env!("CARGO_MANIFEST_DIR")).join("../../vectors");
    let folders = std::env::var_os("WULDGISP_VECTORS").map(PathBuf::from).into_iter().chain([own]);
    let files =
        folders.flat_map(|folder| std::fs::read_dir(folder).unwrap().map(|entry| entry.unwrap().path()));
    let steps = files.filter(|file| file.extension().is_some_and(|extension| extension == "steps"));
    let vectors: Vec<Vector> = steps.map(vector).collect();
    assert!(vectors.len() >= 70, "{}", vectors.len());
    vectors
}

/// The first line tells the output's length; each other line has the words of a step, `=`, and the words of its answer.
fn vector(file: PathBuf) -> Vector {
    let read = |extension| std::fs::read(file.with_extension(extension)).unwrap();
    let text = String::from_utf8(read("steps")).unwrap();
    let (first, lines) = text.split_once('\n').unwrap();
    let mut output = read("output");
    output.resize(first.split(' ').nth(3).unwrap().parse().unwrap(), BEFORE);
    let numbers =
        |text: &str| -> Vec<u32> { text.split_whitespace().map(|word| word.parse().unwrap()).collect() };
    let (mut steps, mut answers) = (Vec::new(), Vec::new());
    for line in lines.lines() {
        let (step, answer) = line.split_once('#').unwrap().0.split_once('=').unwrap();
        steps.push(numbers(step).try_into().unwrap());
        answers.push(numbers(answer).try_into().unwrap());
    }
    Vector { sources: read("sources"), steps, answers, output, file }
}

/// The number that a session answers to these.
fn first_refusal(answers: &[[u32; 3]]) -> u64 {
    let first = answers.iter().position(|answer| answer[0] != 0);
    first.map_or(0, |step| (step as u64) << 32 | u64::from(answers[step][0]))
}

/// A call that runs steps: sources, steps, answers and output.
type Call<'a> = &'a mut dyn FnMut(&[u8], &[u32], &mut [u32], &mut [u8]) -> u64;

fn vectors_agree_through(call: Call) {
    for vector in vectors() {
        let mut answers = vec![[165; 3]; vector.steps.len()];
        let mut output = vec![BEFORE; vector.output.len()];
        let (steps, words) = (vector.steps.as_flattened(), answers.as_flattened_mut());
        let first = call(&vector.sources, steps, words, &mut output);
        assert_eq!(answers, vector.answers, "{:?}", vector.file);
        assert_eq!(first, first_refusal(&vector.answers), "{:?}", vector.file);
        assert!(output == vector.output, "{:?}: other bytes", vector.file);
    }
}

#[test]
fn vectors_agree_through_the_raw_call() {
    vectors_agree_through(&mut run_steps);
}

#[test]
fn vectors_agree_in_memory_that_is_made_once() {
    let mut linker = Linker::new();
    vectors_agree_through(&mut |sources, steps, answers, output| {
        linker.run_steps(sources, steps, answers, output)
    });
}

/// The ticket of a step; of a finish with the part of the vector's output that is its.
enum Asked {
    Done(Ticket<()>),
    Span(Ticket<(u32, u32)>),
    Number(Ticket<u32>),
    Whether(Ticket<bool>),
    Image(usize, Ticket<Vec<u8>>),
}

impl Asked {
    /// The answer in three words; an image is written to its part of an output.
    fn words(&self, answers: &Answers, output: &mut [u8]) -> [u32; 3] {
        let accepted = match self {
            Asked::Done(ticket) => answers.get(*ticket).map(|()| [0, 0, 0]),
            Asked::Span(ticket) => answers.get(*ticket).map(|(start, end)| [0, start, end]),
            Asked::Number(ticket) => answers.get(*ticket).map(|number| [0, number, 0]),
            Asked::Whether(ticket) => answers.get(*ticket).map(|whether| [0, whether.into(), 0]),
            Asked::Image(start, ticket) => answers.get(*ticket).map(|image| {
                output[*start..][..image.len()].copy_from_slice(&image);
                [0, image.len() as u32, 0]
            }),
        };
        accepted.unwrap_or_else(|refusal| [refusal.number(), 0, 0])
    }
}

/// A part of so many bytes, cut at their end.
fn part(all: usize, start: u32, length: u32) -> std::ops::Range<usize> {
    let start = all.min(start as usize);
    start..all.min(start + length as usize)
}

/// Adds a step by its name; there is none for a number that is no operation's.
fn by_name(session: &mut Session, vector: &Vector, [operation, a, b, c]: [u32; 4]) -> Option<Asked> {
    if let 13 | 14 = operation {
        let part = part(vector.output.len(), a, b);
        session.room(part.len());
        let ticket = match operation {
            13 => session.finish(),
            _ => session.finish_with_entry_points(),
        };
        return Some(Asked::Image(part.start, ticket));
    }
    Some(match operation {
        0 => Asked::Done(session.set(&vector.sources[part(vector.sources.len(), a, b)], c)),
        1 => Asked::Done(session.clear()),
        2 => Asked::Span(session.map_span(a, b)),
        3 => Asked::Number(session.import_type(a)),
        4 => Asked::Number(session.rename_type(a, b)),
        5 => Asked::Number(session.import_const(a)),
        6 => Asked::Number(session.import_pipeline_override(a)),
        7 => Asked::Number(session.import_global(a)),
        8 => Asked::Number(session.import_global_expression(a)),
        9 => Asked::Number(session.import_function(a)),
        10 => Asked::Number(session.import_function_if_new(a)),
        11 => Asked::Number(session.map_function_handle(a)),
        12 => Asked::Whether(session.has_required_special_types()),
        _ => return None,
    })
}

/// That a session answers alike when it is put together by name. Answers how many steps have a name, and how many none.
fn agrees_by_name(vector: &Vector) -> (usize, usize) {
    let (mut session, mut asked, mut expected) = (Session::new(), Vec::new(), Vec::new());
    for (step, answer) in vector.steps.iter().zip(&vector.answers) {
        match by_name(&mut session, vector, *step) {
            Some(own) => {
                asked.push(own);
                expected.push(*answer);
            }
            // It is refused, and so changes nothing.
            None => assert_eq!(*answer, [13, 0, 0]),
        }
    }
    let answers = session.run().unwrap();
    let mut output = vec![BEFORE; vector.output.len()];
    let words: Vec<[u32; 3]> = asked.iter().map(|own| own.words(&answers, &mut output)).collect();
    assert_eq!(words, expected, "{:?}", vector.file);
    assert!(output == vector.output, "{:?}: other bytes", vector.file);

    let refused: Vec<(usize, u32)> =
        answers.refusals().map(|(step, refusal)| (step, refusal.number())).collect();
    let refusals = expected.iter().enumerate().filter(|(_, answer)| answer[0] != 0);
    assert_eq!(refused, refusals.map(|(step, answer)| (step, answer[0])).collect::<Vec<_>>());
    let first = answers.first_refusal();
    let first = first.map_or(0, |(step, refusal)| (step as u64) << 32 | u64::from(refusal.number()));
    assert_eq!(first, first_refusal(&expected), "{:?}", vector.file);
    (asked.len(), vector.steps.len() - asked.len())
}

#[test]
fn vectors_agree_by_name() {
    let counts: Vec<(usize, usize)> = vectors().iter().map(agrees_by_name).collect();
    let (named, unnamed): (Vec<usize>, Vec<usize>) = counts.into_iter().unzip();
    let (named, unnamed): (usize, usize) = (named.iter().sum(), unnamed.iter().sum());
    assert!(named > 1000 && unnamed > 0, "{named} {unnamed}");
}

#[test]
fn generated_sessions_agree_by_name() {
    for seed in 0..300 {
        let generated = plain::generate_session::session(&mut plain::random::Random::new(seed));
        let steps: Vec<[u32; 4]> =
            generated.steps.chunks_exact(4).map(|step| step.try_into().unwrap()).collect();
        let mut vector = Vector {
            file: format!("seed {seed}").into(),
            answers: vec![[0; 3]; steps.len()],
            output: vec![BEFORE; generated.output],
            sources: generated.sources,
            steps,
        };
        let (steps, answers) = (vector.steps.as_flattened(), vector.answers.as_flattened_mut());
        plain::steps::run(&vector.sources, steps, answers, &mut vector.output);
        agrees_by_name(&vector);
    }
}

/// An image with one function, and that image without it.
fn one_function() -> (Vec<u8>, Vec<u8>) {
    let text =
        "wuldgisp-text 1 names { \"tone\" } functions { function name=0 { body { } } } special_types { }";
    (plain::assemble(text).unwrap(), plain::assemble("wuldgisp-text 1 special_types { }").unwrap())
}

#[test]
fn a_session_is_run_again_with_more_steps() {
    let (image, empty) = one_function();
    let mut session = Session::new();
    session.set(&image, 0);
    let tone = session.import_function(0);
    assert_eq!(session.run().unwrap().get(tone), Ok(0));
    let (again, first, second) = (session.import_function_if_new(0), session.finish(), session.finish());
    let answers = session.run().unwrap();
    assert_eq!((answers.get(tone), answers.get(again)), (Ok(0), Ok(0)));
    assert_eq!((answers.get(first), answers.get(second)), (Ok(image), Ok(empty)));
    assert_eq!((tone.step(), again.step(), second.step()), (1, 2, 4));
    assert_eq!(answers.first_refusal(), None);
}

#[test]
fn room_is_for_the_finishes_that_follow() {
    let (image, _) = one_function();
    let mut session = Session::new();
    session.set(&image, 0);
    session.import_function(0);
    session.room(image.len() - 1);
    let short = session.finish();
    session.room(image.len());
    let exact = session.finish();
    let answers = session.run().unwrap();
    assert_eq!((answers.get(short), answers.get(exact)), (Err(Refusal::Output), Ok(image)));
    assert_eq!(answers.first_refusal(), Some((2, Refusal::Output)));
}

#[test]
fn a_session_without_steps_is_run() {
    let answers = Session::new().run().unwrap();
    assert_eq!((answers.first_refusal(), answers.refusals().count()), (None, 0));
}

#[test]
fn too_much_room_is_no_room() {
    let mut session = Session::new();
    session.room(usize::MAX);
    for _ in 0..65_536 {
        session.finish();
    }
    let told = "a session has at most 4,294,967,295 steps, bytes of sources and bytes of room";
    assert_eq!((session.run().unwrap_err(), TooLong.to_string()), (TooLong, told.to_owned()));
    // It stays so, whatever follows.
    session.room(0);
    session.finish();
    assert!(session.run().is_err());
}
