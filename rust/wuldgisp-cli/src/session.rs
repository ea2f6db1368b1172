//! `session`: a plan is run, its steps' answers are told, and the images that it finishes are written.

use plain::TextError;
use wuldgisp::{Answers, Refusal};

use crate::arguments::Given;
use crate::files::{self, Input, Output, Status};
use crate::json::Json;
use crate::line::error;
use crate::plan::{Asked, Finished, Plan, Step};
use crate::{check, Answer};

pub fn run(given: &Given, input: &Input, _many: bool, output: &mut Output) -> Answer {
    let plan = match Plan::read(&input.text()?, input.folder()) {
        Ok(plan) => plan,
        Err(wrong) => return Ok(misuse(input, output, &wrong)),
    };
    let answers = plan.session.run().map_err(|error| error.to_string())?;
    if let Some(wrong) = plan.misread(&answers) {
        return Ok(misuse(input, output, &wrong));
    }
    // All is written before anything is told, since a reader of standard output may leave.
    let written: Vec<Result<(), TextError>> = plan.steps.iter().map(|step| write(step, &answers)).collect();
    let mut status = Status::Accepted;
    for (number, (step, written)) in plan.steps.iter().zip(written).enumerate() {
        status = status.max(match written {
            Err(wrong) => misuse(input, output, &wrong),
            Ok(()) => {
                let told = told(step, &answers);
                output.line(&match given.has("--json") {
                    true => json(input, number, step, &told).to_string(),
                    false => format!("{}: {}: {}", step.line, step.text, text(step, &told)),
                });
                told.map_or(Status::Refused, |told| told.status)
            }
        });
    }
    Ok(status)
}

/// Tells what is wrong with a plan.
fn misuse(input: &Input, output: &mut Output, wrong: &TextError) -> Status {
    output.complain(&format!("wuldgisp: {input}:{}:{}: {}", wrong.line, wrong.column, wrong.message));
    Status::Misuse
}

/// Writes the image that a step finished.
fn write(step: &Step, answers: &Answers) -> Result<(), TextError> {
    let Asked::Image(ticket, finished) = &step.asked else { return Ok(()) };
    let Ok(image) = answers.get(*ticket) else { return Ok(()) };
    files::replace(&finished.path, &image).map_err(|message| error(finished.file.place, message))
}

/// What an accepted step answered, in words and as members of an object.
struct Told {
    words: String,
    members: Json,
    status: Status,
}

/// The answer of a step.
fn told(step: &Step, answers: &Answers) -> Result<Told, Refusal> {
    let (words, members) = match &step.asked {
        Asked::Set(ticket, _) | Asked::Clear(ticket) => {
            answers.get(*ticket)?;
            ("accepted".to_owned(), Json::object([]))
        }
        Asked::Span(ticket) => {
            let (start, end) = answers.get(*ticket)?;
            (format!("span {start}..{end}"), Json::object([("start", start.into()), ("end", end.into())]))
        }
        Asked::Record(table, ticket) => {
            let (record, number) = (table.record(), answers.get(*ticket)?);
            (format!("{record} {number}"), Json::object([(&record.replace(' ', "_"), number.into())]))
        }
        Asked::Whether(ticket) => {
            let whether = answers.get(*ticket)?;
            let words = if whether { "yes" } else { "no" };
            (words.to_owned(), Json::object([("special_types", Json::Bool(whether))]))
        }
        Asked::Image(ticket, finished) => return Ok(told_of(finished, &answers.get(*ticket)?)),
    };
    Ok(Told { words, members, status: Status::Accepted })
}

/// An image that was finished. Where a function's name stands twice intake refuses it.
fn told_of(finished: &Finished, image: &[u8]) -> Told {
    let file = String::from_utf8_lossy(&finished.file.bytes);
    let words = format!("{} bytes", image.len());
    let members = Json::object([("output", Json::text(file)), ("bytes", Json::number(image.len()))]);
    match wuldgisp::intake(image) {
        Ok(()) => Told { words, members, status: Status::Accepted },
        Err(refusal) => Told {
            words: format!("{words}, and the image is {refusal}{}", check::detail(image, refusal)),
            members: members.and([("image_refusal", refusal.number().into())]),
            status: Status::Refused,
        },
    }
}

/// The answer for people.
fn text(step: &Step, told: &Result<Told, Refusal>) -> String {
    match (told, &step.asked) {
        (Ok(told), _) => told.words.clone(),
        (Err(refusal), Asked::Set(_, Some(image))) => format!("{refusal}{}", check::detail(image, *refusal)),
        (Err(refusal), _) => refusal.to_string(),
    }
}

/// The answer as an object.
fn json(input: &Input, number: usize, step: &Step, told: &Result<Told, Refusal>) -> Json {
    let object = Json::object([
        ("file", Json::text(input.file())),
        ("line", Json::number(step.line)),
        ("step", Json::number(number)),
        ("operation", Json::text(&step.operation)),
    ]);
    match (told, &step.asked) {
        (Ok(told), _) => object.and([("accepted", Json::Bool(true))]).join(told.members.clone()),
        (Err(refusal), Asked::Set(_, Some(image))) => check::refused_of(object, image, *refusal),
        (Err(refusal), _) => check::refused_of(object, &[], *refusal),
    }
}
