//! Every call runs in a stack of a size that is told, on every image that the other tests know to be hard.
//!
//! The program `stack` measures the smallest sizes. A stack that is too small ends the test, and all tests with it.

use compare::archive::{self, Memory};
use compare::scripts::Script;
use plain::steps::operation;
use plain::{cases, deep, heavy};

/// What a thread of Rust's library has by itself.
const THREAD: usize = 2 << 20;

/// Images at and past each limit, and those made to be slow or deep.
fn images() -> Vec<(String, Vec<u8>)> {
    [cases::limits(), cases::worst(), heavy::images(), deep::images()].into_iter().flatten().collect()
}

/// Runs a check of every image in a thread with such a stack.
fn in_stack(size: usize, check: fn(&str, Vec<u8>)) {
    of_these(images(), size, check);
}

fn of_these(images: Vec<(String, Vec<u8>)>, size: usize, check: fn(&str, Vec<u8>)) {
    let all = move || images.into_iter().for_each(|(name, image)| check(&name, image));
    std::thread::Builder::new().stack_size(size).spawn(all).unwrap().join().unwrap();
}

#[test]
fn intake_order_and_redirect_run_in_the_recommended_stack() {
    in_stack(wuldgisp::STACK, |name, mut image| {
        let intake = wuldgisp::intake(&image).is_ok();
        let order = wuldgisp::order(&image).is_ok();
        let redirect = wuldgisp::redirect(&mut image, 0, 1, &[0; 512]).is_ok();
        assert!(intake || !order && !redirect, "{name}");
    });
}

#[test]
fn link_runs_in_a_thread_of_the_library() {
    in_stack(THREAD, |name, image| {
        let ordered = wuldgisp::order(&image).is_ok();
        let linked = archive::link(&image, &mut vec![0; image.len()]) as u32 == 0;
        assert_eq!(linked, ordered, "{name}");
        let lent = archive::link_in(&image, &mut vec![0; image.len()], &mut Memory::new()) as u32 == 0;
        assert_eq!(lent, ordered, "{name}");
    });
}

#[test]
fn sessions_run_in_the_recommended_stack() {
    in_stack(wuldgisp::LINK_STACK, |name, image| {
        let mut linked = vec![0; image.len()];
        let answer = archive::link(&image, &mut linked);
        if answer as u32 != 0 {
            return;
        }
        let mut script = Script::in_order(&image);
        assert_eq!(script.run(&image), 0, "{name}");
        let length = (answer >> 32) as usize;
        assert!(script.output()[..length] == linked[..length], "{name}: not what link writes");
        assert_eq!(script.run_in(&image, &mut Memory::new()), 0, "{name}");
        assert!(
            script.output()[..length] == linked[..length],
            "{name}: not what link writes, in lent memory"
        );
        for number in [operation::IMPORT_FUNCTION, operation::MAP_FUNCTION_HANDLE] {
            assert_eq!(Script::nested(&image, number).run(&image), 0, "{name}");
        }
        assert_eq!(Script::entered(&image).run(&image), 0, "{name}");
    });
}

/// 256 functions, each of which calls another: imported by one step, they nest 256 deep.
#[test]
fn functions_nest_256_deep_in_a_thread_of_the_library() {
    let mut chains = images();
    chains.retain(|(name, _)| name.starts_with("256 functions, each calls the one"));
    assert_eq!(chains.len(), 3);
    of_these(chains, THREAD, |name, image| {
        for number in [operation::IMPORT_FUNCTION, operation::MAP_FUNCTION_HANDLE] {
            assert_eq!(Script::nested(&image, number).run(&image), 0, "{name}");
        }
    });
}
