//! `check`: whether an image is accepted, and of a refusal all that is known: number, sentence, rule and place.

use plain::{listing, Rings};
use wuldgisp::Refusal;

use crate::arguments::Given;
use crate::files::{Input, Output, Status};
use crate::json::Json;
use crate::Answer;

pub fn run(given: &Given, input: &Input, _many: bool, output: &mut Output) -> Answer {
    let image = input.image()?;
    let answer = match given.has("--rings") {
        false => wuldgisp::intake(&image),
        true => wuldgisp::order(&image).map(|_| ()),
    };
    match (answer, given.has("--json")) {
        (Ok(()), true) => output.line(&accepted(input).to_string()),
        (Ok(()), false) => output.line(&format!("{input}: accepted")),
        (Err(refusal), true) => output.line(&refused(input, &image, refusal).to_string()),
        (Err(refusal), false) => {
            for line in told(input, &image, refusal) {
                output.line(&line);
            }
        }
    }
    Ok(answer.map_or(Status::Refused, |()| Status::Accepted))
}

/// A refusal in a line, and with a ring the functions left and one ring in a line each.
pub fn told(input: &Input, image: &[u8], refusal: Refusal) -> Vec<String> {
    let mut lines = vec![format!("{input}: {refusal}{}", detail(image, refusal))];
    if let Some((module, rings)) = rings(image, refusal) {
        lines.extend(listing::rings_told(&module, &rings).map(|told| format!("  {told}")));
    }
    lines
}

/// The rule that failed and its word.
pub fn detail(image: &[u8], refusal: Refusal) -> String {
    match wuldgisp::place(image) {
        Some(place) if place.number == refusal.number() => match place.word {
            Some(word) => format!(" (word {word}; rule: {})", place.rule),
            None => format!(" (rule: {})", place.rule),
        },
        // Intake accepts what a later test refuses, and then the sentence says it all.
        None if refusal.number() > 6 => String::new(),
        _ => " (but the plain reading answers otherwise: please report this image)".to_owned(),
    }
}

/// What a ring refuses.
fn rings(image: &[u8], refusal: Refusal) -> Option<(plain::Module, Rings)> {
    let Refusal::Ring { .. } = refusal else { return None };
    let module = plain::read(image).ok()?;
    let rings = plain::rings(&module)?;
    Some((module, rings))
}

/// The object of an accepted image, to which a command adds its answer.
pub fn accepted(input: &Input) -> Json {
    Json::object([("file", Json::text(input.file())), ("accepted", Json::Bool(true))])
}

/// The object of a refused image or call.
pub fn refused(input: &Input, image: &[u8], refusal: Refusal) -> Json {
    refused_of(Json::object([("file", Json::text(input.file()))]), image, refusal)
}

/// What is known of a refusal, behind the members of an object.
pub fn refused_of(object: Json, image: &[u8], refusal: Refusal) -> Json {
    let object = object.and([
        ("accepted", Json::Bool(false)),
        ("refusal", refusal.number().into()),
        ("sentence", Json::text(refusal.sentence())),
    ]);
    let number = |number: Option<usize>| number.map_or(Json::Null, Json::number);
    if let Some((module, rings)) = rings(image, refusal) {
        let named = |own: &u32| crate::module_json::function(&module, *own);
        return object.and([
            ("left", Json::number(rings.left.len())),
            ("functions_left", Json::list(&rings.left, named)),
            ("ring", Json::list(&rings.ring, named)),
        ]);
    }
    match wuldgisp::place(image).filter(|place| place.number == refusal.number()) {
        None => object,
        Some(place) => object.and([
            ("rule", Json::text(place.rule)),
            ("word", number(place.word)),
            ("section", place.section.map_or(Json::Null, Json::text)),
            ("record", number(place.record)),
        ]),
    }
}
