//! `order`: the functions of an image in output order.

use wuldgisp::{Image, Refusal};

use crate::arguments::Given;
use crate::files::{Input, Output, Status};
use crate::json::Json;
use crate::names::shown;
use crate::{check, Answer};

pub fn run(given: &Given, input: &Input, many: bool, output: &mut Output) -> Answer {
    let bytes = input.image()?;
    let (order, image) = match wuldgisp::order(&bytes).and_then(|order| Ok((order, Image::new(&bytes)?))) {
        Ok(both) => both,
        Err(refusal) => {
            refused(given, input, many, &bytes, refusal, output);
            return Ok(Status::Refused);
        }
    };
    let name = |source: &u32| image.function_name(*source).unwrap_or_default();
    if given.has("--json") {
        let function = |(new, source): (usize, &u32)| {
            Json::object([
                ("new", Json::number(new)),
                ("source", (*source).into()),
                ("name", Json::name(name(source))),
            ])
        };
        let functions = Json::list(order.iter().enumerate(), function);
        output.line(&check::accepted(input).and([("functions", functions)]).to_string());
    } else if many {
        let shown: Vec<String> = order.iter().map(|source| plain::listing::shown(name(source))).collect();
        let line = format!("{input}: functions {}: {}", order.len(), shown.join(" "));
        output.line(line.trim_end_matches(": "));
    } else {
        let mut text = format!("functions {}\n", order.len());
        for (new, source) in order.iter().enumerate() {
            text += &format!("{new} {source} {}\n", shown(name(source)));
        }
        output.text(&text);
    }
    Ok(Status::Accepted)
}

/// A refusal: one image's as the program `order` prints it, with its sentence on standard error.
fn refused(given: &Given, input: &Input, many: bool, image: &[u8], refusal: Refusal, output: &mut Output) {
    if given.has("--json") {
        return output.line(&check::refused(input, image, refusal).to_string());
    }
    if !many {
        let number = match refusal {
            Refusal::Ring { left } => format!("refused 12 left {left}"),
            _ => format!("refused {}", refusal.number()),
        };
        output.line(&number);
    }
    for line in check::told(input, image, refusal) {
        match many {
            true => output.line(&line),
            false => output.tell(&line),
        }
    }
}
