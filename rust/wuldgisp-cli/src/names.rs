//! Names on their way in and out: as an option gives them, and as a line shows them.

use std::ffi::{OsStr, OsString};
use std::os::unix::ffi::OsStrExt;

use wuldgisp::Image;

use crate::arguments::Given;

/// A name as it was given: `@` and a number, or the bytes of a name.
pub struct NameGiven(pub OsString);

impl NameGiven {
    /// Its number among the names of an image.
    pub fn number(&self, image: &Image) -> Result<u32, String> {
        let given = self.0.as_bytes();
        if let Some(digits) = self.0.to_str().and_then(|text| text.strip_prefix('@')) {
            return digits
                .parse()
                .map_err(|_| format!("'@{}' is no number of a name", digits.escape_debug()));
        }
        let missing = || format!("there is no name {} in the image", plain::text::quoted(given));
        image.name_number(given).ok_or_else(missing)
    }
}

/// The numbers of names as an option gives them.
pub fn numbers(given: &Given, option: &str, image: &Image) -> Result<Vec<u32>, String> {
    given.values(option).map(|name| NameGiven(name.clone()).number(image)).collect()
}

/// The numbers of two names that an equals sign parts. Names may have such signs too: then the one is meant that has
/// a name of the image on either side.
pub fn pair(word: &OsStr, image: &Image) -> Result<(u32, u32), String> {
    let bytes = word.as_bytes();
    let number = |bytes| NameGiven(OsStr::from_bytes(bytes).to_owned()).number(image);
    let signs = (0..bytes.len()).filter(|at| bytes[*at] == b'=');
    let parted = |at: usize| Ok((number(&bytes[..at])?, number(&bytes[at + 1..])?));
    let mut readings: Vec<Result<(u32, u32), String>> = signs.map(parted).collect();
    if readings.len() > 1 {
        readings.retain(Result::is_ok);
    }
    let shown = plain::text::quoted(bytes);
    match readings.len() {
        0 => Err(format!("no equals sign in {shown} parts two names of the image")),
        1 => readings.remove(0),
        _ => Err(format!("{shown} can be two pairs of names of the image: give @ and their numbers")),
    }
}

/// A name as it is where a terminal and a reader of lines can take it, else between quotes.
pub fn shown(name: &[u8]) -> String {
    match std::str::from_utf8(name) {
        Ok(text) if !text.starts_with('"') && !text.contains(moves) => text.to_owned(),
        _ => plain::text::quoted(name),
    }
}

/// Whether a character ends a line, moves the cursor or turns the direction of writing.
pub fn moves(c: char) -> bool {
    c.is_control() || matches!(c, '\u{2028}'..='\u{202e}' | '\u{2066}'..='\u{2069}')
}
