//! Linking and sessions in memory that is made once: for a caller that links many images or runs many sessions.

use std::fmt;

use wuldgisp_sys::memory;

use crate::{accepted, Refusal, LONGEST};

/// A linker with memory of its own, 476 KiB, which is made once and used in every call. It answers and writes what
/// [`link`], [`link_into`] and [`run_steps`] do, which clear as much in every call; nothing goes over from one call to
/// the next. A [`Session`] runs in it by [`run_in`].
///
/// Threads that link at the same time have a linker each. The stack of a calling thread is that of [`link`],
/// [`LINK_STACK`].
///
/// [`link`]: crate::link
/// [`link_into`]: crate::link_into
/// [`run_steps`]: crate::run_steps
/// [`Session`]: crate::Session
/// [`run_in`]: crate::Session::run_in
/// [`LINK_STACK`]: crate::LINK_STACK
///
/// ```
/// use wuldgisp::{Image, Linker, Refusal};
///
/// // In both images the first function calls the second; a linked image has the second first.
/// let image = |names: &str| {
///     let functions = "function name=0 { body { Call function=1 arguments=[] } } function name=1 { body { } }";
///     plain::assemble(&format!(
///         "wuldgisp-text 1 names {{ {names} }} functions {{ {functions} }} special_types {{ }}"
///     ))
/// };
/// let mut linker = Linker::new();
/// let linked = linker.link(&image(r#""a" "b""#)?)?;
/// assert_eq!(Image::new(&linked)?.functions().collect::<Vec<_>>(), [b"b", b"a"]);
///
/// assert_eq!(linker.link(b"no image"), Err(Refusal::Size));
///
/// let linked = linker.link(&image(r#""shade" "tone""#)?)?;
/// assert_eq!(Image::new(&linked)?.functions().collect::<Vec<_>>(), [&b"tone"[..], b"shade"]);
/// assert_eq!(linker.link(&linked)?, linked);
/// # Ok::<(), Box<dyn std::error::Error>>(())
/// ```
pub struct Linker {
    words: Vec<u32>,
    tags: Vec<u8>,
    log: Vec<u32>,
    classes: Vec<u8>,
    starts: Vec<u32>,
    maps: Vec<u32>,
    marks: Vec<u16>,
    stacks: Vec<u32>,
}

impl Linker {
    pub fn new() -> Self {
        Linker {
            words: vec![0; memory::WORDS],
            tags: vec![0; memory::TAGS],
            log: vec![0; memory::LOG],
            classes: vec![0; memory::CLASSES],
            starts: vec![0; memory::STARTS],
            maps: vec![0; memory::MAPS],
            marks: vec![0; memory::MARKS],
            stacks: vec![0; memory::STACKS],
        }
    }

    /// The image linked, as [`link`](crate::link) does it.
    pub fn link(&mut self, image: &[u8]) -> Result<Vec<u8>, Refusal> {
        // An image that is longer than an image may be is refused by its size: no room is made for it.
        let mut output = vec![0; image.len().min(LONGEST)];
        let count = self.link_into(image, &mut output)?;
        output.truncate(count);
        Ok(output)
    }

    /// The same into an output that is lent, as [`link_into`](crate::link_into) does it.
    pub fn link_into(&mut self, image: &[u8], output: &mut [u8]) -> Result<usize, Refusal> {
        // SAFETY: the pointers and lengths of image and output are those of slices that outlive the call; the image is
        // only read, and the output, which is written, is lent by no one else. The eight arrays are as long as the
        // header asks, and each is a vector of its own that is lent by no one else.
        let answer = unsafe {
            wuldgisp_sys::wuldgisp_link_in(
                image.as_ptr(),
                image.len(),
                output.as_mut_ptr(),
                output.len(),
                self.words.as_mut_ptr(),
                self.tags.as_mut_ptr(),
                self.log.as_mut_ptr(),
                self.classes.as_mut_ptr(),
                self.starts.as_mut_ptr(),
                self.maps.as_mut_ptr(),
                self.marks.as_mut_ptr(),
                self.stacks.as_mut_ptr(),
            )
        };
        Ok(accepted(answer)? as usize)
    }

    /// The steps of a session, as [`run_steps`](crate::run_steps) runs them.
    ///
    /// ```
    /// let mut answers = [9; 6];
    /// let first = wuldgisp::Linker::new().run_steps(&[], &[12, 0, 0, 0, 2, 5, 9, 0], &mut answers, &mut []);
    /// assert_eq!(answers, [0, 0, 0, 20, 0, 0]);
    /// assert_eq!(first, 1 << 32 | 20);
    /// ```
    pub fn run_steps(
        &mut self,
        sources: &[u8],
        steps: &[u32],
        answers: &mut [u32],
        output: &mut [u8],
    ) -> u64 {
        // SAFETY: the pointers and lengths are those of slices that outlive the call; sources and steps are only read,
        // and answers and output, which are written, are lent by no one else; the eight arrays are as in `link_into`.
        unsafe {
            wuldgisp_sys::wuldgisp_session_in(
                sources.as_ptr(),
                sources.len(),
                steps.as_ptr(),
                steps.len(),
                answers.as_mut_ptr(),
                answers.len(),
                output.as_mut_ptr(),
                output.len(),
                self.words.as_mut_ptr(),
                self.tags.as_mut_ptr(),
                self.log.as_mut_ptr(),
                self.classes.as_mut_ptr(),
                self.starts.as_mut_ptr(),
                self.maps.as_mut_ptr(),
                self.marks.as_mut_ptr(),
                self.stacks.as_mut_ptr(),
            )
        }
    }
}

impl Default for Linker {
    fn default() -> Self {
        Linker::new()
    }
}

/// Its memory holds nothing that is worth a look.
impl fmt::Debug for Linker {
    fn fmt(&self, out: &mut fmt::Formatter) -> fmt::Result {
        out.debug_struct("Linker").finish_non_exhaustive()
    }
}
