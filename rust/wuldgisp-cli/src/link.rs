//! `link`: calls redirected and the image linked in one step, and written where it was told to.

use std::ffi::OsString;
use std::fmt;
use std::os::unix::ffi::OsStrExt;

use wuldgisp::{Image, Refusal};

use crate::arguments::Given;
use crate::commands::Inputs;
use crate::files::{Input, Output, Status};
use crate::json::Json;
use crate::names::{numbers, pair};
use crate::redirect::{redirect, Change};
use crate::{check, Answer};

/// How many inputs it takes: many where each image has a file of its own to go to.
pub fn inputs(given: &Given) -> Inputs {
    if given.values("--redirect").any(|word| !word.as_bytes().contains(&b'=')) {
        return Inputs::Barred("--redirect wants ORIGINAL=REPLACEMENT");
    }
    if given.has("--json") && !given.target().tells() {
        return Inputs::Barred("--json wants --output, --in-place or --folder");
    }
    match given.has("--in-place") || given.has("--folder") {
        true => Inputs::Files,
        false => Inputs::One,
    }
}

pub fn run(given: &Given, input: &Input, _many: bool, output: &mut Output) -> Answer {
    let mut image = input.image()?;
    match linked(given, &mut image) {
        Ok(linked) => {
            let to = given.target();
            to.write(input, output, &linked.image)?;
            if to.tells() {
                output.line(&match given.has("--json") {
                    true => linked.json(input).to_string(),
                    false => format!("{input}: {linked}"),
                });
            }
            Ok(Status::Accepted)
        }
        Err(Unlinked::Refused(refusal, by)) => {
            refused(given, input, &image, refusal, by, output);
            Ok(Status::Refused)
        }
        Err(Unlinked::Misuse(message)) => Err(message),
    }
}

/// A linked image, and what was done on the way.
struct Linked {
    image: Vec<u8>,
    functions: usize,
    changes: Vec<Change>,
}

/// Why an image was not linked.
enum Unlinked {
    /// It was refused, and by the redirect of this word where it was by one.
    Refused(Refusal, Option<OsString>),
    Misuse(String),
}

impl From<Refusal> for Unlinked {
    fn from(refusal: Refusal) -> Self {
        Unlinked::Refused(refusal, None)
    }
}

impl From<String> for Unlinked {
    fn from(message: String) -> Self {
        Unlinked::Misuse(message)
    }
}

/// Intake, the redirects, which change the image itself, and the linking.
fn linked(given: &Given, image: &mut [u8]) -> Result<Linked, Unlinked> {
    let names = Image::new(image)?;
    let functions = names.functions().count();
    let omit = numbers(given, "--omit", &names)?;
    let words: Vec<&OsString> = given.values("--redirect").collect();
    let pairs = words.iter().map(|word| pair(word, &names)).collect::<Result<Vec<_>, _>>()?;
    let mut changes = Vec::new();
    for (word, (original, replacement)) in words.into_iter().zip(pairs) {
        let change = redirect(image, original, replacement, &omit);
        changes.push(change.map_err(|refusal| Unlinked::Refused(refusal, Some(word.clone())))?);
    }
    Ok(Linked { image: wuldgisp::link(image)?, functions, changes })
}

impl fmt::Display for Linked {
    fn fmt(&self, f: &mut fmt::Formatter) -> fmt::Result {
        for change in &self.changes {
            write!(f, "{change}; ")?;
        }
        write!(f, "linked, {} functions, {} bytes", self.functions, self.image.len())
    }
}

impl Linked {
    fn json(&self, input: &Input) -> Json {
        let change = |change: &Change| {
            Json::object([
                ("original", change.both.original.into()),
                ("replacement", change.both.replacement.into()),
                ("words", Json::number(change.words)),
            ])
        };
        check::accepted(input).and([
            ("functions", Json::number(self.functions)),
            ("bytes", Json::number(self.image.len())),
            ("redirects", Json::list(&self.changes, change)),
        ])
    }
}

/// Tells a refusal of the image as the redirects before it left it.
fn refused(
    given: &Given,
    input: &Input,
    image: &[u8],
    refusal: Refusal,
    by: Option<OsString>,
    output: &mut Output,
) {
    let by = by.as_ref().map(|word| word.as_bytes());
    if given.has("--json") {
        let object = check::refused(input, image, refusal);
        let object = match by {
            Some(word) => object.and([("redirect", Json::name(word))]),
            None => object,
        };
        return output.line(&object.to_string());
    }
    match by {
        Some(word) => output.tell(&format!("{input}: redirect {}: {refusal}", plain::text::quoted(word))),
        None => check::told(input, image, refusal).iter().for_each(|line| output.tell(line)),
    }
}
