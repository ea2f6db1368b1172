//! Generated sessions: what is finished passes intake, a refused step changes nothing, and every refusal is met.

use std::collections::{BTreeSet, HashSet};

use plain::fields::limit;
use plain::generate_session::{session, Generated};
use plain::module::Name;
use plain::random::Random;
use plain::steps::{run, ANSWER, OPERATIONS, REFUSALS, STEP};

/// A session that was run.
struct Ran {
    first: u64,
    answers: Vec<u32>,
    output: Vec<u8>,
}

fn ran(generated: &Generated, steps: &[u32]) -> Ran {
    let mut answers = vec![165; steps.len() / STEP * ANSWER];
    let mut output = vec![165; generated.output];
    let first = run(&generated.sources, steps, &mut answers, &mut output);
    Ran { first, answers, output }
}

/// The steps with their answers.
fn answered<'a>(generated: &'a Generated, all: &'a Ran) -> impl Iterator<Item = (&'a [u32], &'a [u32])> {
    generated.steps.chunks(STEP).zip(all.answers.chunks(ANSWER))
}

/// That the first refusal is told with its step.
fn first_refusal_is_told(all: &Ran) {
    let refused = all.answers.chunks(ANSWER).position(|answer| answer[0] != 0);
    let first = refused.map_or(0, |own| (own as u64) << 32 | u64::from(all.answers[ANSWER * own]));
    assert_eq!(all.first, first);
}

/// That the steps that were accepted give the same answers and the same output without those that were refused.
fn refusals_change_nothing(generated: &Generated, all: &Ran) {
    let (mut steps, mut answers) = (Vec::new(), Vec::new());
    for (step, answer) in answered(generated, all) {
        if answer[0] == 0 {
            steps.extend(step);
            answers.extend(answer);
        } else {
            assert_eq!(answer[1..], [0, 0]);
        }
    }
    let accepted = ran(generated, &steps);
    assert_eq!(accepted.first, 0);
    assert_eq!(accepted.answers, answers);
    assert!(accepted.output == all.output, "other output without the refused steps");
}

/// That intake accepts every finished image, or turns it back by 5 for function names that stand twice and for
/// nothing else; and that nothing else is written. Answers how many were turned back.
fn finished_images_are_valid(generated: &Generated, all: &Ran) -> usize {
    let mut turned_back = 0;
    let mut expected = vec![165; generated.output];
    for (own, (step, answer)) in answered(generated, all).enumerate() {
        if OPERATIONS.get(step[0] as usize).is_some_and(|name| name.starts_with("finish")) && answer[0] == 0 {
            let output = ran(generated, &generated.steps[..STEP * (own + 1)]).output;
            let written = step[1] as usize..(step[1] + answer[1]) as usize;
            let image = &output[written.clone()];
            if let Err(refused) = plain::intake(image) {
                assert_eq!(refused.number, 5, "{refused}");
                with_names_apart(image)
                    .into_iter()
                    .for_each(|image| assert_eq!(plain::intake(&image), Ok(())));
                turned_back += 1;
            }
            expected[written].copy_from_slice(image);
        }
    }
    assert!(all.output == expected, "bytes outside the finished images are written");
    turned_back
}

/// The image with a fresh name for each function whose name stands before it, if there is room for them.
fn with_names_apart(image: &[u8]) -> Option<Vec<u8>> {
    let mut module = plain::read(image).expect("a finished image is read");
    let mut seen = HashSet::new();
    for (own, function) in module.functions.iter_mut().enumerate() {
        if !seen.insert(function.name.value) {
            module.names.push(Name { at: 0, bytes: format!("fresh {own}").into_bytes() });
            function.name = (module.names.len() as u32).into();
        }
    }
    assert!(seen.len() < module.functions.len(), "no function name stands twice");
    let image = plain::write(&module);
    (module.names.len() <= limit::RECORDS as usize && image.len() <= limit::BYTES).then_some(image)
}

#[test]
fn sessions_keep_their_promises() {
    // Which operation (15 for any other) gave which answer.
    let (mut met, mut turned_back) = (BTreeSet::new(), 0);
    for seed in 0..4000 {
        let generated = session(&mut Random::new(seed));
        let all = ran(&generated, &generated.steps);
        for (step, answer) in answered(&generated, &all) {
            met.insert((step[0].min(15), answer[0]));
        }
        first_refusal_is_told(&all);
        refusals_change_nothing(&generated, &all);
        turned_back += finished_images_are_valid(&generated, &all);
    }
    assert!(turned_back > 100, "{turned_back}");
    let mut expected = refusals();
    expected.extend((0..15).map(|operation| (operation, 0)));
    assert_eq!(met, expected);
}

/// Each operation with each of its refusals.
fn refusals() -> BTreeSet<(u32, u32)> {
    let of_one = |(operation, refusals): (usize, &&[u32])| {
        refusals.iter().map(|refusal| (operation as u32, *refusal)).collect::<Vec<_>>()
    };
    REFUSALS.iter().enumerate().flat_map(of_one).collect()
}

#[test]
fn there_is_a_session_for_each_refusal() {
    let mut met = BTreeSet::new();
    for (generated, operation, refusal) in plain::refused::sessions() {
        let all = ran(&generated, &generated.steps);
        let (step, answer) = answered(&generated, &all).last().unwrap();
        assert_eq!((step[0], answer[0]), (operation, refusal), "{}", generated.what);
        met.insert((operation, refusal));
    }
    assert_eq!(met, refusals());
}

#[test]
fn limits_are_met_and_passed() {
    for (generated, expected) in plain::fill::limits() {
        let all = ran(&generated, &generated.steps);
        let (last, before) =
            all.answers.rchunks(ANSWER).next().zip(all.answers.rchunks(ANSWER).nth(1)).unwrap();
        assert_eq!((before[0], last[0]), (0, expected), "{}", generated.what);
    }
}

#[test]
fn answers_are_written_as_far_as_there_is_room() {
    for seed in 0..40 {
        let mut random = Random::new(seed);
        let generated = session(&mut random);
        let all = ran(&generated, &generated.steps);
        // Words behind the last whole step are not read.
        let mut steps = generated.steps.clone();
        steps.extend(vec![9; random.below(STEP)]);
        let room = random.below(all.answers.len() + 9);
        let mut answers = vec![165; room];
        let mut output = vec![165; generated.output];
        let first = run(&generated.sources, &steps, &mut answers, &mut output);
        let written = room.min(all.answers.len());
        assert_eq!(first, all.first);
        assert_eq!(answers[..written], all.answers[..written]);
        assert!(answers[written..].iter().all(|word| *word == 165));
        assert!(output == all.output);
    }
}
