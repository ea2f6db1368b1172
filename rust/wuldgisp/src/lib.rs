//! Module images, checked, ordered, redirected, linked and put together by a proved archive.
//!
//! The functions here are thin: they lend their slices to the C functions of `libwuldgisp.a` and give the answers
//! a type. What the answers are is said, and proved, where the archive is made; an image is at most 65,536 bytes
//! of little-endian words, and every byte slice, of any length and content, has an answer. `docs/RULES.md` of the
//! repository has the rules that the answers follow, and `docs/IMAGE.md` the image word by word.
//!
//! [`Image`] reads names and looks functions up by name; [`redirect_by_name`] redirects by name; a [`Linker`] links many
//! images, and runs many sessions, in memory that is made once; a [`Session`] draws records and functions of several images into new ones. With the
//! feature `place` there is `place`, which says where in an image a rule is broken. A thread that calls should have a
//! stack of at least [`STACK`] bytes, or [`LINK_STACK`].
//!
//! ```
//! // fog and tone; shade calls fog, and fog calls tone.
//! let mut image = plain::assemble(
//!     r#"wuldgisp-text 1
//!     names { "shade" "tone" "fog" }
//!     functions {
//!       function name=0 { body { Call function=2 arguments=[] } }
//!       function name=1 { body { } }
//!       function name=2 { body { Call function=1 arguments=[] } }
//!     }
//!     special_types { }"#,
//! )?;
//! wuldgisp::intake(&image)?;
//! assert_eq!(wuldgisp::order(&image)?, [1, 2, 0]);
//!
//! // Calls of fog become calls of tone.
//! let redirected = wuldgisp::redirect_by_name(&mut image, "fog", "tone", &[])?;
//! assert_eq!((redirected.original, redirected.replacement), (2, 1));
//! assert_eq!(wuldgisp::order(&image)?, [1, 0, 2]);
//! # Ok::<(), Box<dyn std::error::Error>>(())
//! ```

mod image;
mod linker;
#[cfg(feature = "place")]
mod place;
mod refusal;
mod session;

pub use image::Image;
pub use linker::Linker;
#[cfg(feature = "place")]
pub use place::{place, Place};
pub use refusal::Refusal;
pub use session::{run_steps, Answers, Session, Ticket, TooLong};

/// The stack that a calling thread should have at least, in bytes. Threads of Rust's library have more by themselves.
pub const STACK: usize = wuldgisp_sys::WULDGISP_STACK;

/// The same for [`link`], [`link_into`], [`run_steps`], a [`Linker`] and [`Session::run_in`], which go as deep as an image
/// nests. Every link that was measured ran in the 2 MiB that a thread of Rust's library has by itself. [`Session::run`]
/// has a thread of its own.
pub const LINK_STACK: usize = wuldgisp_sys::WULDGISP_LINK_STACK;

/// The most functions of an image, and so the longest order.
const FUNCTIONS: usize = 256;

/// The most bytes of an image.
const LONGEST: usize = 65_536;

/// Whether an image is accepted: the tests 1 to 6 (`docs/RULES.md`, 6.1 to 6.6).
///
/// ```
/// use wuldgisp::Refusal;
///
/// let refusal = wuldgisp::intake(b"no image").unwrap_err();
/// assert_eq!(refusal, Refusal::Size);
/// assert_eq!(refusal.number(), 1);
/// assert_eq!(refusal.to_string(), "refused 1: the size, the edition or the total of words is wrong");
/// ```
pub fn intake(image: &[u8]) -> Result<(), Refusal> {
    // SAFETY: the pointer and the length are those of a slice that is only read and outlives the call.
    let answer = unsafe { wuldgisp_sys::wuldgisp_intake(image.as_ptr(), image.len()) };
    accepted(answer.into()).map(|_| ())
}

/// The source number of each function in output order: by rank, then by source number.
///
/// ```
/// use wuldgisp::Refusal;
///
/// let ring = plain::assemble(
///     r#"wuldgisp-text 1
///     names { "self" }
///     functions { function name=0 { body { Call function=0 arguments=[] } } }
///     special_types { }"#,
/// )?;
/// assert_eq!(wuldgisp::order(&ring), Err(Refusal::Ring { left: 1 }));
/// # Ok::<(), plain::TextError>(())
/// ```
pub fn order(image: &[u8]) -> Result<Vec<u32>, Refusal> {
    let mut order = [0; FUNCTIONS];
    // SAFETY: both pointers and lengths are those of slices that outlive the call; the image is only read, and the
    // order, which is written, is lent by no one else.
    let answer =
        unsafe { wuldgisp_sys::wuldgisp_order(image.as_ptr(), image.len(), order.as_mut_ptr(), order.len()) };
    let count = accepted(answer)? as usize;
    Ok(order[..count].to_vec())
}

/// What a redirect found: the numbers of both functions.
#[derive(Clone, Copy, Debug, PartialEq, Eq, Hash)]
pub struct Redirected {
    pub original: u32,
    pub replacement: u32,
}

/// Makes calls of one function calls of another, in the image itself.
///
/// Functions are given by the numbers of their names. The replacement's own body and the functions with an
/// omitted name keep their calls; entry points never do. A refused call changes no byte.
///
/// ```
/// use wuldgisp::Refusal;
///
/// let mut image = plain::assemble("wuldgisp-text 1 names { \"tone\" } special_types { }")?;
/// assert_eq!(wuldgisp::redirect(&mut image, 0, 1, &[]), Err(Refusal::NumberGiven));
/// assert_eq!(wuldgisp::redirect(&mut image, 0, 0, &[]), Err(Refusal::OriginalNotFound));
/// # Ok::<(), plain::TextError>(())
/// ```
pub fn redirect(
    image: &mut [u8],
    original: u32,
    replacement: u32,
    omit: &[u32],
) -> Result<Redirected, Refusal> {
    // SAFETY: both pointers and lengths are those of slices that outlive the call; the image, which is written, is
    // lent by no one else, and the omitted names are only read.
    let answer = unsafe {
        wuldgisp_sys::wuldgisp_redirect(
            image.as_mut_ptr(),
            image.len(),
            original,
            replacement,
            omit.as_ptr(),
            omit.len(),
        )
    };
    let both = accepted(answer)?;
    Ok(Redirected { original: both % 65_536, replacement: both / 65_536 })
}

/// The same with functions given by their names. An original or a replacement that no function bears is refused by
/// 8 or 9, whether it is among the names of the image or not; an omitted name that no function bears is passed over.
///
/// ```
/// use wuldgisp::Refusal;
///
/// let mut image = plain::assemble("wuldgisp-text 1 names { \"tone\" } special_types { }")?;
/// let refusal = wuldgisp::redirect_by_name(&mut image, "tone", "fog", &["mist"]).unwrap_err();
/// assert_eq!(refusal, Refusal::OriginalNotFound);
/// # Ok::<(), plain::TextError>(())
/// ```
pub fn redirect_by_name<N: AsRef<[u8]> + ?Sized>(
    image: &mut [u8],
    original: &N,
    replacement: &N,
    omit: &[&N],
) -> Result<Redirected, Refusal> {
    let read = Image::new(image)?;
    let bears = |name: &&N| read.function(name).and_then(|_| read.name_number(name));
    let original = bears(&original).ok_or(Refusal::OriginalNotFound)?;
    let replacement = bears(&replacement).ok_or(Refusal::ReplacementNotFound)?;
    let omit: Vec<u32> = omit.iter().filter_map(bears).collect();
    redirect(image, original, replacement, &omit)
}

/// The image linked: its functions in output order, callees first, each with what it refers to. For many images, one
/// after the other, take a [`Linker`].
///
/// ```
/// use wuldgisp::Refusal;
///
/// // a calls b; the linked image has b first.
/// let image = plain::assemble(
///     r#"wuldgisp-text 1
///     names { "a" "b" }
///     functions {
///       function name=0 { body { Call function=1 arguments=[] } }
///       function name=1 { body { } }
///     }
///     special_types { }"#,
/// )?;
/// let linked = wuldgisp::link(&image)?;
/// assert_eq!(wuldgisp::Image::new(&linked)?.functions().collect::<Vec<_>>(), [b"b", b"a"]);
/// assert_eq!(wuldgisp::link(&linked)?, linked);
///
/// assert_eq!(wuldgisp::link(b"no image"), Err(Refusal::Size));
/// # Ok::<(), Box<dyn std::error::Error>>(())
/// ```
pub fn link(image: &[u8]) -> Result<Vec<u8>, Refusal> {
    // An image that is longer than an image may be is refused by its size: no room is made for it.
    let mut output = vec![0; image.len().min(LONGEST)];
    let count = link_into(image, &mut output)?;
    output.truncate(count);
    Ok(output)
}

/// The same into an output that is lent, which has to be as long as the image; answers the count of bytes written. The
/// bytes behind them, and all where it is refused, stay as they were.
pub fn link_into(image: &[u8], output: &mut [u8]) -> Result<usize, Refusal> {
    // SAFETY: both pointers and lengths are those of slices that outlive the call; the image is only read, and the
    // output, which is written, is lent by no one else.
    let answer = unsafe {
        wuldgisp_sys::wuldgisp_link(image.as_ptr(), image.len(), output.as_mut_ptr(), output.len())
    };
    Ok(accepted(answer)? as usize)
}

/// The value of an accepted answer, or the refusal.
fn accepted(answer: u64) -> Result<u32, Refusal> {
    match Refusal::from_answer(answer) {
        None => Ok((answer >> 32) as u32),
        Some(refusal) => Err(refusal),
    }
}
