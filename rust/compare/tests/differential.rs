//! A small differential run, so that `cargo test` compares the archive with the plain reading too; and that a run which
//! compares nothing fails.

use std::process::Command;

use compare::run::{Run, Settings};
use compare::session;
use plain::generate_session;
use plain::random::Random;

#[test]
fn archive_and_plain_reading_agree() {
    let output =
        Command::new(env!("CARGO_BIN_EXE_differential")).args(["--short", "--count", "40"]).output().unwrap();
    let text = String::from_utf8_lossy(&output.stdout);
    assert!(output.status.success(), "{text}");
    assert!(text.trim_end().ends_with(", 0 failed"), "{text}");
    for operation in ["intake", "order", "redirect", "link", "session"] {
        assert!(text.contains(&format!("    {operation} answers: 0 (")), "{text}");
    }
}

#[test]
fn a_run_without_an_answer_fails() {
    let settings = Settings { seed: 1, count: 0, short: true, keep: None };
    let mut run = Run::new(settings);
    run.every_answer_came_up();
    let refusals = plain::steps::REFUSALS.iter().map(|refusals| refusals.len()).sum::<usize>();
    assert_eq!(run.failed, 9 + plain::steps::OPERATIONS.len() + refusals);
}

#[test]
fn a_session_is_written_so_that_it_can_be_repeated() {
    for seed in 0..20 {
        let session = generate_session::session(&mut Random::new(seed));
        let text = session::text(&session);
        let again = session::read(session.what.clone(), &text, session.sources.clone()).unwrap();
        assert_eq!((again.steps, again.output), (session.steps, session.output), "{text}");
    }
}
