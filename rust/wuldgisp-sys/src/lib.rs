//! The C functions of the proved archive, as `include/wuldgisp.h` declares them.
//!
//! Nothing checks such a declaration against the archive, so they stand in this file alone, and a test compares
//! this file with the header, which says what each takes and answers. The crate `wuldgisp` is the safe wrapper.
//!
//! The build script finds the archive and links it. A crate that depends on this one directly is told its folder
//! as `DEP_WULDGISP_FOLDER`.

/// The stack that a calling thread should have at least, in bytes.
pub const WULDGISP_STACK: usize = 262144;

/// The same for link and sessions.
pub const WULDGISP_LINK_STACK: usize = 4194304;

/// How many numbers each array holds that is lent to `wuldgisp_link_in` and `wuldgisp_session_in`, the rows of an array
/// together.
pub mod memory {
    pub const WORDS: usize = 16384;
    pub const TAGS: usize = 16384;
    pub const LOG: usize = 16384;
    pub const CLASSES: usize = 16384;
    pub const STARTS: usize = 8 * 512;
    pub const MAPS: usize = 6 * 512;
    pub const MARKS: usize = 16384;
    pub const STACKS: usize = 4 * 16384;
}

extern "C" {
    pub fn wuldgisp_intake(image: *const u8, image_len: usize) -> u32;
    pub fn wuldgisp_order(image: *const u8, image_len: usize, order: *mut u32, order_len: usize) -> u64;
    pub fn wuldgisp_redirect(
        image: *mut u8,
        image_len: usize,
        original: u32,
        replacement: u32,
        omit: *const u32,
        omit_len: usize,
    ) -> u64;
    pub fn wuldgisp_link(image: *const u8, image_len: usize, output: *mut u8, output_len: usize) -> u64;
    pub fn wuldgisp_link_in(
        image: *const u8,
        image_len: usize,
        output: *mut u8,
        output_len: usize,
        words: *mut u32,
        tags: *mut u8,
        log: *mut u32,
        classes: *mut u8,
        starts: *mut u32,
        maps: *mut u32,
        marks: *mut u16,
        stacks: *mut u32,
    ) -> u64;
    pub fn wuldgisp_session(
        sources: *const u8,
        sources_len: usize,
        steps: *const u32,
        steps_len: usize,
        answers: *mut u32,
        answers_len: usize,
        output: *mut u8,
        output_len: usize,
    ) -> u64;
    pub fn wuldgisp_session_in(
        sources: *const u8,
        sources_len: usize,
        steps: *const u32,
        steps_len: usize,
        answers: *mut u32,
        answers_len: usize,
        output: *mut u8,
        output_len: usize,
        words: *mut u32,
        tags: *mut u8,
        log: *mut u32,
        classes: *mut u8,
        starts: *mut u32,
        maps: *mut u32,
        marks: *mut u16,
        stacks: *mut u32,
    ) -> u64;
}
