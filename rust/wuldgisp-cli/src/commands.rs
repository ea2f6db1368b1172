//! The table of commands. What is understood, what is run, what `--help` prints and what `docs/COMMANDS.md` says all
//! come from here, so that a command is added in one place.

use crate::arguments::Given;
use crate::files::Output;
use crate::{assemble, check, inspect, link, order, redirect, session, Answer, Input};

/// One command.
pub struct Command {
    pub name: &'static str,
    /// What stands behind the name.
    pub usage: &'static str,
    /// What it does, in a line.
    pub summary: &'static str,
    /// The rest of its help, a paragraph to a string; lines in it stay lines.
    pub about: &'static [&'static str],
    pub options: &'static [Opt],
    /// Of these options one may be given.
    pub excluding: &'static [&'static str],
    /// How many inputs it takes.
    pub inputs: fn(&Given) -> Inputs,
    /// What it does to one of its inputs, of which there may be many.
    pub run: fn(given: &Given, input: &Input, many: bool, output: &mut Output) -> Answer,
}

/// An option of a command.
pub struct Opt {
    pub long: &'static str,
    pub short: Option<&'static str>,
    /// What the word behind it is, where it wants one.
    pub value: Option<&'static str>,
    pub times: Times,
    pub about: &'static str,
}

/// How often an option is given.
#[derive(Clone, Copy, PartialEq, Eq)]
pub enum Times {
    AtMostOnce,
    Once,
    Any,
}

/// The inputs that a command takes.
#[derive(Clone, Copy, PartialEq, Eq)]
pub enum Inputs {
    /// One file or standard input.
    One,
    /// Files, folders and standard input.
    Many,
    /// Files and folders.
    Files,
    /// None, since the options do not go together: why.
    Barred(&'static str),
}

/// An option without a word behind it.
const fn flag(long: &'static str, about: &'static str) -> Opt {
    Opt { long, short: None, value: None, times: Times::Any, about }
}

const QUIET: Opt = Opt {
    long: "--quiet",
    short: Some("-q"),
    value: None,
    times: Times::Any,
    about: "print no answers: the exit status tells; misuse is still told",
};
const JSON: Opt = flag("--json", "a JSON object on a line for each image");
const OUTPUT: Opt = Opt {
    long: "--output",
    short: Some("-o"),
    value: Some("FILE"),
    times: Times::AtMostOnce,
    about: "write the image to FILE, in one stroke, instead of standard output",
};
const IN_PLACE: Opt = flag("--in-place", "write each image back to its file, in one stroke");

/// An option with a name behind it.
const fn name(long: &'static str, times: Times, about: &'static str) -> Opt {
    Opt { long, short: None, value: Some("NAME"), times, about }
}

/// The steps of a plan.
const STEPS: &str = "  set FILE [offset NUMBER]
  clear
  map_span START END
  import_type TYPE
  rename_type TYPE as NAME
  import_const CONSTANT
  import_pipeline_override OVERRIDE
  import_global GLOBAL
  import_global_expression NUMBER
  import_function FUNCTION
  import_function_if_new FUNCTION
  map_function_handle FUNCTION
  has_required_special_types
  finish FILE
  finish_with_entry_points FILE";

/// Options of every command.
pub const COMMON: &[Opt] = &[
    QUIET,
    Opt { long: "--help", short: Some("-h"), value: None, times: Times::Any, about: "print this help" },
];

/// The commands.
pub const COMMANDS: &[Command] = &[
    Command {
        name: "check",
        usage: "[--rings] [--json] [FILE...]",
        summary: "a line for each image: accepted, or refused with its number, the rule and the word",
        about: &[
            "The number is that of the first of the tests 1 to 6 that fails (docs/RULES.md). Behind it stand its \
             sentence, the word of the image that breaks a rule, and the rule.",
            "A JSON object has `file`, `accepted` and, where it is false, `refusal`, `sentence`, `rule`, `word`, \
             `section` and `record`; with a ring `left`, `functions_left` and `ring`.",
        ],
        options: &[flag("--rings", "refuse a ring of calls too, by 12, and name the functions left and one ring"), JSON],
        excluding: &[],
        inputs: |_| Inputs::Many,
        run: check::run,
    },
    Command {
        name: "order",
        usage: "[--json] [FILE...]",
        summary: "the functions in output order, callees first; of many images a line each",
        about: &[
            "For one image: the count, then for each function a line with its new number, its source number and its \
             name. A refusal is `refused 5`, or `refused 12 left 2` for a ring of calls; standard error is told its \
             sentence, the functions left and one ring.",
            "A name with control characters, or that is no UTF-8, stands between quotes with its bytes as \\xNN.",
            "A JSON object has `file`, `accepted` and `functions`, a list of `new`, `source` and `name`, or the \
             members of a refusal as check has them.",
        ],
        options: &[JSON],
        excluding: &[],
        inputs: |_| Inputs::Many,
        run: order::run,
    },
    Command {
        name: "redirect",
        usage: "--original NAME --replacement NAME [--omit NAME]... [--output FILE | --in-place] [FILE...]",
        summary: "calls of the original become calls of the replacement, in the image itself",
        about: &[
            "The image goes to standard output, to --output, or with --in-place back to each file. The replacement \
             and the omitted functions keep their calls; entry points never do. Where it is refused nothing is written.",
            "A NAME is a name of the image, or @ and its number.",
        ],
        options: &[
            name("--original", Times::Once, "the function whose calls are redirected"),
            name("--replacement", Times::Once, "the function that is called instead"),
            name("--omit", Times::Any, "a function that keeps its calls"),
            OUTPUT,
            IN_PLACE,
        ],
        excluding: &["--output", "--in-place"],
        inputs: |given| if given.has("--in-place") { Inputs::Files } else { Inputs::One },
        run: redirect::run,
    },
    Command {
        name: "link",
        usage: "[--redirect ORIGINAL=REPLACEMENT]... [--omit NAME]... [--output FILE | --in-place | --folder DIR] \
                [--json] [FILE...]",
        summary: "calls redirected as told, and the image linked: its functions callees first, each with what it \
                  refers to",
        about: &[
            "An image is taken in; then the redirects are made in the order given, each as redirect makes it; then \
             it is linked (docs/RULES.md). The omitted functions keep their calls in every redirect.",
            "One linked image goes to standard output or to --output. Of many, each goes with --in-place back to its \
             file, or with --folder to DIR under its file's name, and of a folder under its path below that. Two that \
             would be the same file in DIR are misuse, and so is one that would be written over another input; then \
             nothing is written.",
            "Where standard output takes no image, a line for each tells what each redirect did, and the functions \
             and bytes of the linked image. Of an image that is refused, by a test, by a redirect or for a ring of \
             calls, nothing is written; standard error is told the sentence, with the word and the rule, the redirect, \
             or the functions left and one ring.",
            "A NAME is a name of the image, or @ and its number; so are ORIGINAL and REPLACEMENT. Names may have \
             equals signs: the one that parts the two has a name of the image on either side, and where several have, \
             the names are to be given as @ and their numbers.",
            "A JSON object has `file`, `accepted`, `functions` and `bytes`, both counts of the linked image, and \
             `redirects`, a list of `original` and `replacement`, which are numbers of functions, and `words`, the \
             count of words changed; or the members of a refusal as check has them, and `redirect` where one was \
             refused.",
        ],
        options: &[
            Opt {
                long: "--redirect",
                short: None,
                value: Some("ORIGINAL=REPLACEMENT"),
                times: Times::Any,
                about: "calls of the original become calls of the replacement",
            },
            name("--omit", Times::Any, "a function that keeps its calls"),
            OUTPUT,
            IN_PLACE,
            Opt {
                long: "--folder",
                short: None,
                value: Some("DIR"),
                times: Times::AtMostOnce,
                about: "write each image to DIR, which is made where it is not there",
            },
            JSON,
        ],
        excluding: &["--output", "--in-place", "--folder"],
        inputs: link::inputs,
        run: link::run,
    },
    Command {
        name: "session",
        usage: "[--json] [FILE]",
        summary: "the steps of a plan: records and functions of several images drawn into new ones",
        about: &[
            "FILE is a plan, a step a line; # starts a comment (docs/PLAN.md):",
            STEPS,
            "A record is given by its number, by its name or by @ and the number of its name; names are those of the \
             source that is set last. Relative paths start at the plan's folder.",
            "For each step a line with its line in the plan, the step and its answer. A refused step changes nothing,              and the next one follows. A finish that is accepted writes its FILE, in one stroke; that intake refuses \
             the image, since a function was imported twice, is told behind its bytes.",
            "What is wrong with a plan is told with line and column; then no answer is told and nothing is written.",
            "A JSON object has `file`, `line`, `step` (counted from 0), `operation`, `accepted` and the answer: `start`              and `end`, the record's number under `type`, `constant`, `override`, `global`, `global_expression` or              `function`, `special_types`, or `output`, `bytes` and, where intake refuses the image, `image_refusal`; or \
             the members of a refusal as check has them.",
        ],
        options: &[flag("--json", "a JSON object on a line for each step")],
        excluding: &[],
        inputs: |_| Inputs::One,
        run: session::run,
    },
    Command {
        name: "inspect",
        usage: "[--spans] [--text | --raw | --json] [FILE...]",
        summary: "a listing for people; or the text form, the raw words, or JSON",
        about: &[
            "A listing shows all that the image holds, what is referred to by number and name, literals by value and \
             bits. Of an image that is refused it shows the rule and the word, and what was laid out before the fault.",
            "The text form is read back by assemble, byte for byte (docs/TEXT.md).",
            "A JSON object has the members that check's has, then `bytes`, `words`, `complete` (whether all was laid \
             out), `sections`, the tables under the keys of the text form, and `order`. An optional number is null or \
             the number; a name is a string, or an object with its bytes as `hex` where they are no UTF-8.",
        ],
        options: &[
            flag("--spans", "show spans too"),
            flag("--text", "the text form of one image"),
            flag("--raw", "header, sections and records word by word, with nothing read into them"),
            JSON,
        ],
        excluding: &["--text", "--raw", "--json"],
        inputs: |given| if given.has("--text") { Inputs::One } else { Inputs::Many },
        run: inspect::run,
    },
    Command {
        name: "assemble",
        usage: "[--output FILE] [FILE]",
        summary: "the image of a text form",
        about: &[
            "The image is written even where intake refuses it; that is then told on standard error, and the exit \
             status is 1. A text that is not of the form is told with line and column (docs/TEXT.md).",
        ],
        options: &[OUTPUT],
        excluding: &[],
        inputs: |_| Inputs::One,
        run: assemble::run,
    },
];

/// A command by its name.
pub fn command(name: &str) -> Option<&'static Command> {
    COMMANDS.iter().find(|command| command.name == name)
}
