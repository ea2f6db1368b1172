//! What `--help` prints, and the page `docs/COMMANDS.md`, made from the table of commands.

use std::fmt::Write;

use crate::commands::{Command, Opt, COMMANDS, COMMON};

/// Lines are at most so long.
const WIDTH: usize = 100;

const INPUTS: &str = "A FILE of - or no FILE is standard input; a folder stands for the files in and below it \
                      that end in .img. Behind -- every word is a FILE. A word behind an option may also stand \
                      behind an equals sign, as in --output=FILE.";
const STATUS: &str = "Exit status: 0 accepted; 1 an image, a redirect, a link or a step was refused; 2 misuse: a \
                      command that is not understood, a file that cannot be read or written, a text that is not of the \
                      form, a name that is not in the image.";

/// The help of all.
pub fn all() -> String {
    let mut text =
        "wuldgisp: module images, checked, ordered, redirected, linked and put together by a proved archive\n\n".to_owned();
    for command in COMMANDS {
        usage(&mut text, 2, command);
        paragraph(&mut text, 8, 8, command.summary);
    }
    text.push_str("  wuldgisp help [COMMAND], wuldgisp --help, wuldgisp --version\n\n");
    text + &common()
}

/// The help of one command.
pub fn of(command: &Command) -> String {
    format!("{}\n{}", own(command), common())
}

/// What a command's help does not share with the others.
fn own(command: &Command) -> String {
    let mut text = String::new();
    usage(&mut text, 0, command);
    text.push('\n');
    paragraph(&mut text, 0, 0, &sentence(command.summary));
    for about in command.about {
        text.push('\n');
        for line in about.lines() {
            let indent = line.len() - line.trim_start().len();
            paragraph(&mut text, indent, indent, line);
        }
    }
    text.push('\n');
    let options: Vec<(String, &str)> =
        command.options.iter().chain(COMMON).map(|option| (spelled(option), option.about)).collect();
    let widest = options.iter().map(|(spelled, _)| spelled.len()).fold(22, usize::max);
    for (spelled, about) in options {
        writeln!(text, "  {spelled:<widest$}  {about}").expect("a string takes all");
    }
    text
}

/// What all help ends with.
fn common() -> String {
    let mut text = String::new();
    paragraph(&mut text, 0, 0, INPUTS);
    text.push('\n');
    paragraph(&mut text, 0, 0, STATUS);
    text
}

/// `docs/COMMANDS.md`.
pub fn page() -> String {
    let mut text = "# The command line\n\n\
                    What `wuldgisp help` prints, and then what the help of each command says before it ends in the \
                    same way. `wuldgisp help --page` writes this page.\n\n"
        .to_owned();
    let mut fenced = |help: &str| write!(text, "```text\n{help}```\n\n").expect("a string takes all");
    fenced(&all());
    for command in COMMANDS {
        fenced(&own(command));
    }
    text.trim_end().to_owned() + "\n"
}

/// An option as it is written.
fn spelled(option: &Opt) -> String {
    let short = option.short.map_or(String::new(), |short| format!("{short}, "));
    let value = option.value.map_or(String::new(), |value| format!(" {value}"));
    format!("{short}{}{value}", option.long)
}

/// A summary as a sentence.
fn sentence(summary: &str) -> String {
    let mut chars = summary.chars();
    let first = chars.next().map_or(String::new(), |first| first.to_uppercase().to_string());
    format!("{first}{}.", chars.as_str())
}

/// How a command is called.
fn usage(text: &mut String, indent: usize, command: &Command) {
    paragraph(text, indent, indent + 4, &format!("wuldgisp {} {}", command.name, command.usage));
}

/// Words in lines of which the first and the others begin so far to the right.
fn paragraph(text: &mut String, first: usize, others: usize, words: &str) {
    let mut line = " ".repeat(first);
    let mut empty = true;
    for word in words.split_whitespace() {
        if !empty && line.chars().count() + 1 + word.chars().count() > WIDTH {
            writeln!(text, "{line}").expect("a string takes all");
            line = " ".repeat(others);
            empty = true;
        }
        if !empty {
            line.push(' ');
        }
        line.push_str(word);
        empty = false;
    }
    writeln!(text, "{line}").expect("a string takes all");
}
