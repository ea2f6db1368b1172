//! `assemble`: from the text form to an image.

use plain::fields::limit;

use crate::arguments::Given;
use crate::files::{Input, Output, Status};
use crate::{check, Answer};

pub fn run(given: &Given, input: &Input, _many: bool, output: &mut Output) -> Answer {
    let image = plain::assemble(&input.text()?).map_err(|error| error.to_string())?;
    given.target().write(input, output, &image)?;
    let Err(refusal) = wuldgisp::intake(&image) else { return Ok(Status::Accepted) };
    if image.len() > limit::BYTES {
        let (size, most) = (image.len(), limit::BYTES);
        output.tell(&format!("{input}: the image has {size} bytes, and the limit is {most}"));
    }
    for line in check::told(input, &image, refusal) {
        output.tell(&line);
    }
    Ok(Status::Refused)
}
