//! `inspect`: an image as a listing, as text that is read back, as raw words, or as JSON.

use crate::arguments::Given;
use crate::files::{self, Input, Output, Status};
use crate::{check, module_json, Answer};

pub fn run(given: &Given, input: &Input, many: bool, output: &mut Output) -> Answer {
    let image = input.image()?;
    if given.has("--text") && files::is_cut(&image) {
        return Err("it is longer than an image may be, and has no text form".to_owned());
    }
    let answer = wuldgisp::intake(&image);
    if given.has("--json") {
        let object = match answer {
            Ok(()) => check::accepted(input),
            Err(refusal) => check::refused(input, &image, refusal),
        };
        output.line(&module_json::image(object, &image).to_string());
    } else {
        if many {
            output.line(&format!("== {input}"));
        }
        let options = plain::listing::Options { spans: given.has("--spans") };
        output.text(&match (given.has("--text"), given.has("--raw")) {
            (true, _) => plain::text::text(&image),
            (_, true) => plain::raw::raw(&image),
            _ => plain::listing::listing_with(&image, options),
        });
    }
    Ok(answer.map_or(Status::Refused, |()| Status::Accepted))
}
