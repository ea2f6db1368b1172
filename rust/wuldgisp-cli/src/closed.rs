//! Which standard streams were closed when the program was started.
//!
//! Before `main` Rust's runtime opens /dev/null in their place, so that what is written there is lost without a
//! word and what is read there is nothing. This looks before the runtime does.

use std::sync::atomic::{AtomicBool, Ordering::Relaxed};

static INPUT: AtomicBool = AtomicBool::new(false);
static OUTPUT: AtomicBool = AtomicBool::new(false);

extern "C" {
    fn fcntl(descriptor: i32, command: i32, ...) -> i32;
}

/// Reads the flags of a descriptor, which fails where it is closed.
const F_GETFD: i32 = 1;

extern "C" fn look() {
    // SAFETY: fcntl with this command takes no third argument and touches no memory.
    let closed = |descriptor| unsafe { fcntl(descriptor, F_GETFD) } == -1;
    INPUT.store(closed(0), Relaxed);
    OUTPUT.store(closed(1), Relaxed);
}

/// The loader calls what this section lists before it calls `main`.
#[used]
#[link_section = ".init_array"]
static LOOK: extern "C" fn() = look;

/// Whether there is no standard input.
pub fn input() -> bool {
    INPUT.load(Relaxed)
}

/// Whether there is no standard output.
pub fn output() -> bool {
    OUTPUT.load(Relaxed)
}
