//! Link and session of the archive, with the answers that C gets.

use wuldgisp_sys::memory;

use crate::guarded::{Guarded, BYTE, WORD};

/// As `plain::steps::run`.
pub use wuldgisp::run_steps as session;

/// As `plain::link`, with the answer that `plain::link::answer` makes of it.
pub fn link(image: &[u8], output: &mut [u8]) -> u64 {
    // SAFETY: both pointers and lengths are those of slices that outlive the call; the image is only read, and the
    // output, which is written, is lent by no one else.
    unsafe { wuldgisp_sys::wuldgisp_link(image.as_ptr(), image.len(), output.as_mut_ptr(), output.len()) }
}

/// The memory that is lent to `link_in` and `session_in`, each array between guards. At first it holds what guards are, and then what the
/// calls before have left: it is never cleared.
pub struct Memory {
    words: Guarded<u32>,
    tags: Guarded<u8>,
    log: Guarded<u32>,
    classes: Guarded<u8>,
    starts: Guarded<u32>,
    maps: Guarded<u32>,
    marks: Guarded<u16>,
    stacks: Guarded<u32>,
}

impl Memory {
    pub fn new() -> Self {
        let bytes = |length| Guarded::fresh(BYTE, length, 0);
        let words = |length| Guarded::fresh(WORD, length, 0);
        Memory {
            words: words(memory::WORDS),
            tags: bytes(memory::TAGS),
            log: words(memory::LOG),
            classes: bytes(memory::CLASSES),
            starts: words(memory::STARTS),
            maps: words(memory::MAPS),
            marks: Guarded::fresh(WORD as u16, memory::MARKS, 0),
            stacks: words(memory::STACKS),
        }
    }

    /// Whether no guard has changed.
    pub fn intact(&self) -> bool {
        let words = [&self.words, &self.log, &self.starts, &self.maps, &self.stacks];
        let bytes = [&self.tags, &self.classes];
        words.iter().all(|array| array.intact())
            && bytes.iter().all(|array| array.intact())
            && self.marks.intact()
    }
}

impl Default for Memory {
    fn default() -> Self {
        Memory::new()
    }
}

/// As `link`, in memory that is lent.
pub fn link_in(image: &[u8], output: &mut [u8], memory: &mut Memory) -> u64 {
    // SAFETY: as of `link`; the eight arrays are as long as the header asks, and each is lent by no one else.
    unsafe {
        wuldgisp_sys::wuldgisp_link_in(
            image.as_ptr(),
            image.len(),
            output.as_mut_ptr(),
            output.len(),
            memory.words.lent().as_mut_ptr(),
            memory.tags.lent().as_mut_ptr(),
            memory.log.lent().as_mut_ptr(),
            memory.classes.lent().as_mut_ptr(),
            memory.starts.lent().as_mut_ptr(),
            memory.maps.lent().as_mut_ptr(),
            memory.marks.lent().as_mut_ptr(),
            memory.stacks.lent().as_mut_ptr(),
        )
    }
}

/// As `session`, in memory that is lent.
pub fn session_in(
    sources: &[u8],
    steps: &[u32],
    answers: &mut [u32],
    output: &mut [u8],
    memory: &mut Memory,
) -> u64 {
    // SAFETY: the pointers and lengths are those of slices that outlive the call; sources and steps are only read, and
    // answers and output, which are written, are lent by no one else; the eight arrays are as in `link_in`.
    unsafe {
        wuldgisp_sys::wuldgisp_session_in(
            sources.as_ptr(),
            sources.len(),
            steps.as_ptr(),
            steps.len(),
            answers.as_mut_ptr(),
            answers.len(),
            output.as_mut_ptr(),
            output.len(),
            memory.words.lent().as_mut_ptr(),
            memory.tags.lent().as_mut_ptr(),
            memory.log.lent().as_mut_ptr(),
            memory.classes.lent().as_mut_ptr(),
            memory.starts.lent().as_mut_ptr(),
            memory.maps.lent().as_mut_ptr(),
            memory.marks.lent().as_mut_ptr(),
            memory.stacks.lent().as_mut_ptr(),
        )
    }
}
