//! A plain reading of module images, written from the rules (`docs/RULES.md`) and from nothing else.
//!
//! It is the other opinion: the proved archive is compared with it on many images, so it is written to be
//! read beside the document, not to be fast. An image is read into a [`Module`] once ([`read`], tests 1 and
//! 2); tests 3 to 6 ([`intake`]), [`order`] and [`redirect`] then look at that tree. A [`session`] derives a module
//! from others, [`steps`] runs one in a single call, and [`link`](link::link) is the session that puts one image in
//! order. Around it stand the tools that need no proof: a [`listing`], a [`text`] form that is read back, a
//! [generator](generate) of valid images, a [mutator](mutate) that breaks one thing at a time, and a
//! [generator of sessions](generate_session).
//!
//! ```
//! // The shortest image: an edition, a total, nine empty sections and three special types that are none.
//! let mut words = vec![1, 23];
//! for _section in 0..9 {
//!     words.extend([0, 20]);
//! }
//! words.extend([0, 0, 0]);
//! let image = plain::bytes(&words);
//! assert_eq!(plain::intake(&image), Ok(()));
//! assert_eq!(plain::intake(&image[4..]).unwrap_err().number, 1);
//! ```

pub mod bodies;
pub mod cases;
pub mod deep;
mod derive;
pub mod fields;
pub mod fill;
mod finish;
pub mod generate;
pub mod generate_session;
pub mod heavy;
mod intake;
pub mod link;
pub mod listing;
mod localize;
pub mod module;
pub mod mutate;
mod order;
mod parse;
pub mod random;
pub mod raw;
mod read;
mod redirect;
pub mod refused;
mod rings;
mod scope;
pub mod session;
pub mod steps;
pub mod text;
pub mod twins;
pub mod walk;
mod write;

pub use derive::{Map, Maps};
pub use intake::{admit, intake};
pub use link::link;
pub use module::Module;
pub use order::{order, order_of};
pub use parse::{assemble, number, string, Place, TextError};
pub use read::{laid_out, read};
pub use redirect::redirect;
pub use rings::{rings, Rings};
pub use write::write;

/// Why an image or a call was turned back: the refusal's number, the rule in words, and where it was found.
#[derive(Clone, Copy, Debug, PartialEq, Eq)]
pub struct Refused {
    /// Document 01's number: 1 to 13, or 20 to 22.
    pub number: u32,
    /// The word of the image at which the rule failed, where a rule is about a word.
    pub at: Option<usize>,
    /// The rule, in words.
    pub rule: &'static str,
    /// With 12, the count of functions from which a chain reaches a ring; else 0.
    pub left: u32,
}

impl Refused {
    /// A refusal that was found at a word.
    pub(crate) fn at(number: u32, at: usize, rule: &'static str) -> Self {
        let at = Some(at);
        Refused { number, at, rule, left: 0 }
    }

    /// A refusal that is about no single word.
    pub(crate) fn of(number: u32, rule: &'static str) -> Self {
        Refused { number, at: None, rule, left: 0 }
    }
}

impl std::fmt::Display for Refused {
    fn fmt(&self, f: &mut std::fmt::Formatter) -> std::fmt::Result {
        write!(f, "refused {}", self.number)?;
        if self.number == 12 {
            write!(f, " left {}", self.left)?;
        }
        write!(f, ": {}", self.rule)?;
        match self.at {
            Some(at) => write!(f, " (word {at})"),
            None => Ok(()),
        }
    }
}

impl std::error::Error for Refused {}

/// The words of an image as its bytes, the lowest byte first.
pub fn bytes(words: &[u32]) -> Vec<u8> {
    words.iter().flat_map(|word| word.to_le_bytes()).collect()
}

/// The bytes of an image as its words; bytes behind the last whole word are left out.
pub fn words(image: &[u8]) -> Vec<u32> {
    let word = |four: &[u8]| u32::from_le_bytes([four[0], four[1], four[2], four[3]]);
    image.chunks_exact(4).map(word).collect()
}
