//! `redirect`: calls of one function become calls of another, and the image is written where it was told to.

use std::fmt;

use wuldgisp::{Image, Redirected, Refusal};

use crate::arguments::Given;
use crate::files::{Input, Output, Status};
use crate::names::numbers;
use crate::{check, Answer};

pub fn run(given: &Given, input: &Input, _many: bool, output: &mut Output) -> Answer {
    let before = input.image()?;
    let names = match Image::new(&before) {
        Ok(image) => image,
        Err(refusal) => {
            for line in check::told(input, &before, refusal) {
                output.tell(&line);
            }
            return Ok(Status::Refused);
        }
    };
    let numbers = |option| numbers(given, option, &names);
    let (original, replacement) = (numbers("--original")?[0], numbers("--replacement")?[0]);
    let mut image = before.clone();
    match redirect(&mut image, original, replacement, &numbers("--omit")?) {
        Ok(change) => {
            let to = given.target();
            to.write(input, output, &image)?;
            if to.tells() {
                output.line(&format!("{input}: {change}"));
            }
            Ok(Status::Accepted)
        }
        Err(refusal) => {
            output.tell(&format!("{input}: {refusal}"));
            Ok(Status::Refused)
        }
    }
}

/// What a redirect did to an image.
pub struct Change {
    pub both: Redirected,
    /// How many words it changed.
    pub words: usize,
}

impl fmt::Display for Change {
    fn fmt(&self, f: &mut fmt::Formatter) -> fmt::Result {
        let Redirected { original, replacement } = self.both;
        write!(f, "function {original} becomes {replacement}, {} words changed", self.words)
    }
}

/// Redirects calls in the image, and tells what that did.
pub fn redirect(image: &mut [u8], original: u32, replacement: u32, omit: &[u32]) -> Result<Change, Refusal> {
    let before = image.to_vec();
    let both = wuldgisp::redirect(image, original, replacement, omit)?;
    let differs = |(old, new): &(&[u8], &[u8])| old != new;
    let words = before.chunks(4).zip(image.chunks(4)).filter(differs).count();
    Ok(Change { both, words })
}
