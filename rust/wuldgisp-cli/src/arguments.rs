//! The words of the command line, understood by the table of commands.

use std::collections::VecDeque;
use std::ffi::{OsStr, OsString};
use std::os::unix::ffi::OsStrExt;
use std::path::PathBuf;

use crate::commands::{command, Command, Inputs, Opt, Times, COMMON};
use crate::files::{self, Input, Output};
use crate::help;

/// What was asked for.
pub enum Wanted {
    /// A text to print.
    Text(String),
    Run(&'static Command, Given),
}

/// The options and the files of a command.
#[derive(Default)]
pub struct Given {
    options: Vec<(&'static str, OsString)>,
    pub words: Vec<OsString>,
}

impl Given {
    /// Whether an option was given.
    pub fn has(&self, option: &str) -> bool {
        self.options.iter().any(|(own, _)| *own == option)
    }

    /// The words behind an option.
    pub fn values<'a>(&'a self, option: &'a str) -> impl Iterator<Item = &'a OsString> {
        self.options.iter().filter(move |(own, _)| *own == option).map(|(_, value)| value)
    }

    /// The word behind an option that is given once.
    pub fn value(&self, option: &str) -> Option<&OsString> {
        self.options.iter().find(|(own, _)| *own == option).map(|(_, value)| value)
    }

    /// Where an image goes.
    pub fn target(&self) -> Target {
        match (self.value("--output"), self.value("--folder"), self.has("--in-place")) {
            (Some(path), _, _) => Target::File(path.into()),
            (_, Some(folder), _) => Target::Folder(folder.into()),
            (_, _, true) => Target::InPlace,
            _ => Target::Standard,
        }
    }
}

/// Where an image goes.
pub enum Target {
    Standard,
    File(PathBuf),
    InPlace,
    Folder(PathBuf),
}

impl Target {
    pub fn write(&self, input: &Input, output: &mut Output, image: &[u8]) -> Result<(), String> {
        match self {
            Target::Standard => output.image(image),
            Target::File(path) => files::replace(path, image),
            Target::InPlace => input.replace(image),
            Target::Folder(folder) => input.put(folder, image),
        }
    }

    /// That the images of these inputs can all go there.
    pub fn admits(&self, inputs: &[Input]) -> Result<(), String> {
        match self {
            Target::Folder(folder) => files::apart(folder, inputs),
            _ => Ok(()),
        }
    }

    /// Whether a line can tell what was done: standard output is not taken by the image.
    pub fn tells(&self) -> bool {
        !matches!(self, Target::Standard)
    }
}

/// Understands the words behind the program's name. An error says, too, which help to see.
pub fn parse(words: Vec<OsString>) -> Result<Wanted, String> {
    let mut words = VecDeque::from(words);
    let Some(first) = words.pop_front() else { return Err(see("a command is missing", None)) };
    match first.to_str() {
        Some("--help" | "-h") => Ok(Wanted::Text(help::all())),
        Some("help") => helped(words),
        Some("--version" | "-V") => {
            Ok(Wanted::Text(concat!("wuldgisp ", env!("CARGO_PKG_VERSION"), "\n").to_owned()))
        }
        _ => {
            let command = named(&first)?;
            understood(command, words).map_err(|message| see(&message, Some(command)))
        }
    }
}

/// A message about misuse, and the help that says more.
fn see(message: &str, command: Option<&Command>) -> String {
    match command {
        Some(command) => format!("{message} (see wuldgisp {} --help)", command.name),
        None => format!("{message} (see wuldgisp --help)"),
    }
}

fn named(word: &OsStr) -> Result<&'static Command, String> {
    let missing = || see(&format!("there is no command '{}'", told(word)), None);
    word.to_str().and_then(command).ok_or_else(missing)
}

/// A word in a message.
fn told(word: &OsStr) -> String {
    word.to_string_lossy().escape_debug().to_string()
}

/// What stands behind `help`.
fn helped(mut words: VecDeque<OsString>) -> Result<Wanted, String> {
    match words.pop_front() {
        None => Ok(Wanted::Text(help::all())),
        Some(word) if word == "--page" => Ok(Wanted::Text(help::page())),
        Some(word) => Ok(Wanted::Text(help::of(named(&word)?))),
    }
}

/// The options and files of a command.
fn understood(command: &'static Command, mut words: VecDeque<OsString>) -> Result<Wanted, String> {
    let mut given = Given::default();
    let mut only_files = false;
    while let Some(word) = words.pop_front() {
        let is_option = word.as_bytes().starts_with(b"-") && word != "-";
        if only_files || !is_option {
            given.words.push(word);
        } else if word == "--" {
            only_files = true;
        } else {
            take(command, &word, &mut words, &mut given)?;
        }
    }
    if given.has("--help") {
        return Ok(Wanted::Text(help::of(command)));
    }
    admissible(command, &given)?;
    Ok(Wanted::Run(command, given))
}

/// An option, and its word behind an equals sign or as the next word.
fn take(
    command: &Command,
    word: &OsStr,
    words: &mut VecDeque<OsString>,
    given: &mut Given,
) -> Result<(), String> {
    let bytes = word.as_bytes();
    let equals = bytes.iter().position(|byte| *byte == b'=').filter(|_| bytes.starts_with(b"--"));
    let name = OsStr::from_bytes(&bytes[..equals.unwrap_or(bytes.len())]);
    let behind = equals.map(|at| OsStr::from_bytes(&bytes[at + 1..]).to_owned());
    let bears = |option: &&Opt| name == option.long || option.short.is_some_and(|short| name == short);
    let option = command.options.iter().chain(COMMON).find(bears);
    let option = option.ok_or_else(|| format!("{} has no option '{}'", command.name, told(name)))?;
    let value = match (option.value, behind) {
        (Some(_), Some(behind)) => behind,
        (Some(_), None) => words.pop_front().ok_or(format!("{} wants a word behind it", option.long))?,
        (None, Some(_)) => return Err(format!("{} takes no word behind it", option.long)),
        (None, None) => OsString::new(),
    };
    if option.times != Times::Any && given.has(option.long) {
        return Err(format!("{} is given twice", option.long));
    }
    given.options.push((option.long, value));
    Ok(())
}

/// That options and files go together.
fn admissible(command: &Command, given: &Given) -> Result<(), String> {
    let several: Vec<&str> = command.excluding.iter().copied().filter(|option| given.has(option)).collect();
    if let [one, other, ..] = several[..] {
        return Err(format!("{one} and {other} exclude one another"));
    }
    let missing = |option: &&Opt| option.times == Times::Once && !given.has(option.long);
    if let Some(option) = command.options.iter().find(missing) {
        return Err(format!("{} wants {} {}", command.name, option.long, option.value.unwrap_or_default()));
    }
    let standard =
        given.words.iter().filter(|word| *word == "-").count() + usize::from(given.words.is_empty());
    match (command.inputs)(given) {
        Inputs::One if given.words.len() > 1 => Err(format!("{} takes one file here", command.name)),
        Inputs::Files if standard > 0 => Err(format!("{} wants files", several.concat())),
        Inputs::Barred(why) => Err(why.to_owned()),
        _ if standard > 1 => Err("standard input can be read once".to_owned()),
        _ => Ok(()),
    }
}
