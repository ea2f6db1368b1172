//! The command line `wuldgisp`: what `commands` lists, on files, folders or standard input.
//!
//! The answers come from the proved archive; the plain reading adds words to them (which rule, which word), and
//! makes listings and texts. The exit status is 0, 1 where an image was refused, or 2 for misuse: a command that
//! is not understood, a file that cannot be read or written, a name that is not in the image.

mod arguments;
mod assemble;
mod check;
mod closed;
mod commands;
mod files;
mod help;
mod inspect;
mod json;
mod line;
mod link;
mod module_json;
mod names;
mod order;
mod plan;
mod redirect;
mod session;
mod written;

use std::process::ExitCode;

use arguments::{Given, Wanted};
use commands::{Command, Inputs};
use files::{Input, Output, Status};

/// What a command came to on one input, or a message about misuse.
type Answer = Result<Status, String>;

fn main() -> ExitCode {
    let status = match arguments::parse(std::env::args_os().skip(1).collect()) {
        Ok(Wanted::Text(text)) => {
            Output::new(false, 0).text(&text);
            Status::Accepted
        }
        Ok(Wanted::Run(command, given)) => run(command, &given),
        Err(message) => {
            Output::new(false, 0).complain(&format!("wuldgisp: {message}"));
            Status::Misuse
        }
    };
    ExitCode::from(status as u8)
}

/// A command on each of its inputs.
fn run(command: &Command, given: &Given) -> Status {
    let (inputs, wrong) = inputs(command, given);
    let mut output = Output::new(given.has("--quiet"), inputs.len());
    let mut status = Status::Accepted;
    for message in wrong {
        output.complain(&message);
        status = Status::Misuse;
    }
    if let Err(message) = given.target().admits(&inputs) {
        output.complain(&format!("wuldgisp: {message}"));
        return Status::Misuse;
    }
    let many = inputs.len() > 1;
    for input in &inputs {
        let answer = (command.run)(given, input, many, &mut output).unwrap_or_else(|message| {
            output.complain(&format!("wuldgisp: {input}: {message}"));
            Status::Misuse
        });
        status = status.max(answer);
        output.step();
    }
    output.done(status)
}

/// The inputs that the words stand for, and what is wrong with those that stand for none.
fn inputs(command: &Command, given: &Given) -> (Vec<Input>, Vec<String>) {
    let words = match given.words.is_empty() {
        true => vec!["-".into()],
        false => given.words.clone(),
    };
    let words = words.into_iter().map(Input::new);
    if (command.inputs)(given) == Inputs::One {
        return (words.collect(), Vec::new());
    }
    let (mut inputs, mut wrong) = (Vec::new(), Vec::new());
    for word in words {
        match word.clone().images() {
            Ok(images) => inputs.extend(images),
            Err(message) => wrong.push(format!("wuldgisp: {word}: {message}")),
        }
    }
    (inputs, wrong)
}
