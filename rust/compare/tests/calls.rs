//! What the header says of every call: null pointers may be given with length 0, and several threads may call at once,
//! with lent memory of their own.

use std::ptr::{null, null_mut};

use compare::archive::{self, Memory};
use plain::generate_session;
use plain::random::Random;
use plain::steps::{ANSWER, STEP};

#[test]
fn null_pointers_of_length_0_are_no_bytes() {
    use wuldgisp_sys::memory::*;
    let mut words = [WORDS, LOG, STARTS, MAPS, STACKS].map(|length| vec![7u32; length]);
    let [words, log, starts, maps, stacks] = words.each_mut().map(|array| array.as_mut_ptr());
    let (mut tags, mut classes, mut marks) = (vec![7u8; TAGS], vec![7u8; CLASSES], vec![7u16; MARKS]);
    let (tags, classes, marks) = (tags.as_mut_ptr(), classes.as_mut_ptr(), marks.as_mut_ptr());
    // SAFETY: every length is 0, and the memory that is lent is as long as the header asks.
    unsafe {
        assert_eq!(wuldgisp_sys::wuldgisp_intake(null(), 0), 1);
        assert_eq!(wuldgisp_sys::wuldgisp_order(null(), 0, null_mut(), 0), 1);
        assert_eq!(wuldgisp_sys::wuldgisp_redirect(null_mut(), 0, 0, 0, null(), 0), 1);
        assert_eq!(wuldgisp_sys::wuldgisp_link(null(), 0, null_mut(), 0), 1);
        let linked = wuldgisp_sys::wuldgisp_link_in(
            null(),
            0,
            null_mut(),
            0,
            words,
            tags,
            log,
            classes,
            starts,
            maps,
            marks,
            stacks,
        );
        assert_eq!(linked, 1);
        assert_eq!(wuldgisp_sys::wuldgisp_session(null(), 0, null(), 0, null_mut(), 0, null_mut(), 0), 0);
        let first = wuldgisp_sys::wuldgisp_session_in(
            null(),
            0,
            null(),
            0,
            null_mut(),
            0,
            null_mut(),
            0,
            words,
            tags,
            log,
            classes,
            starts,
            maps,
            marks,
            stacks,
        );
        assert_eq!(first, 0);
    }
}

/// The answers and the output of drawn sessions, and the links of their sources, each both ways, one after the other.
fn answers() -> Vec<(u64, Vec<u32>, Vec<u8>)> {
    let mut all = Vec::new();
    let mut memory = Memory::new();
    for seed in 0..60 {
        let session = generate_session::session(&mut Random::new(seed));
        let mut answers = vec![0; session.steps.len() / STEP * ANSWER];
        let mut output = vec![0; session.output];
        let first = archive::session(&session.sources, &session.steps, &mut answers, &mut output);
        let (mut answers_in, mut output_in) = (vec![0; answers.len()], vec![0; output.len()]);
        let (sources, steps) = (&session.sources, &session.steps);
        let first_in = archive::session_in(sources, steps, &mut answers_in, &mut output_in, &mut memory);
        assert_eq!((first_in, &answers_in), (first, &answers), "seed {seed}: in lent memory");
        assert!(output_in == output, "seed {seed}: not what a session writes");
        all.push((first, answers, output));
        let mut output = vec![0; session.sources.len()];
        let linked = archive::link(&session.sources, &mut output);
        let mut lent = vec![0; session.sources.len()];
        assert_eq!(archive::link_in(&session.sources, &mut lent, &mut memory), linked);
        assert!(lent == output, "seed {seed}: not what link writes");
        all.push((linked, Vec::new(), output));
    }
    all
}

#[test]
fn several_threads_call_at_once() {
    // Imports that nest want more stack than a thread has by itself.
    let start = || std::thread::Builder::new().stack_size(4 << 20).spawn(answers).unwrap();
    let threads: Vec<_> = (0..4).map(|_| start()).collect();
    let mut all = threads.into_iter().map(|thread| thread.join().unwrap());
    let first = all.next().unwrap();
    assert!(all.all(|other| other == first), "threads disturb each other");
}
