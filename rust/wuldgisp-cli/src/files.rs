//! Files, folders, standard input and output, and the progress line.

use std::collections::HashMap;
use std::ffi::OsString;
use std::fmt;
use std::fs::File;
use std::io::{self, IsTerminal, Read, Write};
use std::path::{Path, PathBuf};
use std::time::{Duration, Instant};

use crate::{closed, names};

/// One byte more than an image has: what is longer is refused by its size, however long it is.
const IMAGE: u64 = 65_537;
/// The longest text that is read.
const TEXT: u64 = 16 << 20;
/// From so many inputs on there is a progress line.
const MANY: usize = 20;

/// Whether an image was too long to be read whole.
pub fn is_cut(image: &[u8]) -> bool {
    image.len() as u64 == IMAGE
}

/// The exit status.
#[derive(Clone, Copy, PartialEq, Eq, PartialOrd, Ord)]
pub enum Status {
    Accepted = 0,
    Refused = 1,
    Misuse = 2,
}

/// A file, or standard input.
#[derive(Clone)]
pub struct Input {
    path: Option<PathBuf>,
    /// Its path below the folder that stood for it, or its name alone.
    below: PathBuf,
}

impl fmt::Display for Input {
    fn fmt(&self, f: &mut fmt::Formatter) -> fmt::Result {
        match &self.path {
            Some(path) => write!(f, "{}", shown(path)),
            None => write!(f, "standard input"),
        }
    }
}

/// A path for people: what a terminal would take for a command is escaped.
fn shown(path: &Path) -> String {
    let path = path.display().to_string();
    match path.contains(names::moves) {
        true => format!("\"{}\"", path.escape_debug()),
        false => path,
    }
}

impl Input {
    /// `-` is standard input.
    pub fn new(word: OsString) -> Self {
        match word == "-" {
            true => Input { path: None, below: word.into() },
            false => Input::at(word.into()),
        }
    }

    /// The file at a path.
    pub fn at(path: PathBuf) -> Self {
        let below = path.file_name().map(PathBuf::from).unwrap_or_default();
        Input { path: Some(path), below }
    }

    /// The folder that it is in: of standard input the one that the program was started in.
    pub fn folder(&self) -> &Path {
        self.path.as_deref().and_then(Path::parent).unwrap_or(Path::new(""))
    }

    /// As JSON names it.
    pub fn file(&self) -> String {
        self.path.as_ref().map_or("-".to_owned(), |path| path.to_string_lossy().into_owned())
    }

    /// The images that a word stands for: of a folder those in it and below it.
    pub fn images(self) -> Result<Vec<Self>, String> {
        let Some(folder) = self.path.as_ref().filter(|path| path.is_dir()) else { return Ok(vec![self]) };
        let mut images = Vec::new();
        images_in(folder, &mut images).map_err(|error| plainly(&error))?;
        match images.is_empty() {
            true => Err("there is no .img file in this folder".to_owned()),
            false => Ok(images.into_iter().map(|path| Input::in_folder(folder, path)).collect()),
        }
    }

    /// A file in or below a folder.
    fn in_folder(folder: &Path, path: PathBuf) -> Self {
        let below = path.strip_prefix(folder).unwrap_or(&path).to_path_buf();
        Input { path: Some(path), below }
    }

    /// The first bytes, at most so many.
    fn bytes(&self, most: u64) -> Result<Vec<u8>, String> {
        let mut bytes = Vec::new();
        let read = match &self.path {
            Some(path) => File::open(path).and_then(|file| file.take(most).read_to_end(&mut bytes)),
            None if closed::input() => return Err("it is closed".to_owned()),
            None => io::stdin().lock().take(most).read_to_end(&mut bytes),
        };
        read.map_err(|error| plainly(&error))?;
        Ok(bytes)
    }

    pub fn image(&self) -> Result<Vec<u8>, String> {
        self.bytes(IMAGE)
    }

    pub fn text(&self) -> Result<String, String> {
        let bytes = self.bytes(TEXT + 1)?;
        if bytes.len() as u64 > TEXT {
            return Err(format!("a text has at most {TEXT} bytes"));
        }
        String::from_utf8(bytes).map_err(|error| {
            let good = &error.as_bytes()[..error.utf8_error().valid_up_to()];
            let line = good.iter().filter(|byte| **byte == b'\n').count() + 1;
            format!("line {line}: the text is no UTF-8")
        })
    }

    /// Writes an image back to where it came from.
    pub fn replace(&self, image: &[u8]) -> Result<(), String> {
        match &self.path {
            Some(path) => replace(path, image),
            None => Err("standard input cannot be written".to_owned()),
        }
    }

    /// Writes an image to a folder, which is made where it is not there.
    pub fn put(&self, folder: &Path, image: &[u8]) -> Result<(), String> {
        let path = folder.join(&self.below);
        let folder = path.parent().unwrap_or(folder);
        std::fs::create_dir_all(folder)
            .map_err(|error| format!("the folder {} cannot be made: {}", shown(folder), unmade(&error)))?;
        replace(&path, image)
    }
}

/// That in a folder each input has a file of its own, and none that another input is read from.
pub fn apart(folder: &Path, inputs: &[Input]) -> Result<(), String> {
    let real = |path: &Path| path.canonicalize().unwrap_or(path.to_path_buf());
    let mut takers = HashMap::new();
    for input in inputs {
        if let Some(other) = takers.insert(real(&folder.join(&input.below)), input) {
            return Err(format!("{other} and {input} would be the same file in {}", shown(folder)));
        }
    }
    for input in inputs {
        let taker = input.path.as_ref().and_then(|path| takers.get(&real(path)));
        if let Some(other) = taker.filter(|other| !std::ptr::eq(**other, input)) {
            return Err(format!("{other} would be written over {input}, which is to be read"));
        }
    }
    Ok(())
}

/// The files of a folder, and of the folders in it, that end in `.img`, by their names. Links to folders are not
/// followed, so that this ends.
fn images_in(folder: &Path, images: &mut Vec<PathBuf>) -> io::Result<()> {
    let mut paths: Vec<PathBuf> =
        std::fs::read_dir(folder)?.map(|entry| entry.map(|entry| entry.path())).collect::<io::Result<_>>()?;
    paths.sort();
    for path in paths {
        if path.is_dir() && !path.is_symlink() {
            images_in(&path, images)?;
        } else if path.is_file() && path.extension().is_some_and(|extension| extension == "img") {
            images.push(path);
        }
    }
    Ok(())
}

/// Puts a file in the place of another in one stroke, so that a failure leaves the old one whole. It keeps the old
/// one's permissions, and a link goes on pointing to it. What is no regular file, a device or a pipe, is written as
/// it is.
pub fn replace(path: &Path, bytes: &[u8]) -> Result<(), String> {
    let say = |error: io::Error| format!("{} cannot be written: {}", shown(path), unwritten(path, &error));
    if path.exists() && !path.is_file() {
        return std::fs::write(path, bytes).map_err(say);
    }
    let target = path.canonicalize().unwrap_or(path.to_path_buf());
    let mut beside = target.as_os_str().to_owned();
    beside.push(format!(".{}.part", std::process::id()));
    let put = || {
        std::fs::write(&beside, bytes)?;
        if let Ok(old) = std::fs::metadata(&target) {
            std::fs::set_permissions(&beside, old.permissions())?;
        }
        std::fs::rename(&beside, &target)
    };
    put().map_err(|error| {
        // What could not be put in place is of no use to anyone.
        let _ = std::fs::remove_file(&beside);
        say(error)
    })
}

/// Why a file cannot be written. Where none is found, it is its folder that is missing.
fn unwritten(path: &Path, error: &io::Error) -> String {
    match (error.kind(), path.parent()) {
        (io::ErrorKind::NotFound, Some(folder)) if folder.as_os_str().is_empty() => plainly(error),
        (io::ErrorKind::NotFound, Some(folder)) => format!("there is no folder {}", shown(folder)),
        (io::ErrorKind::NotADirectory, Some(folder)) => format!("{} is no folder", shown(folder)),
        _ => plainly(error),
    }
}

/// Why a folder cannot be made.
fn unmade(error: &io::Error) -> String {
    match error.kind() {
        io::ErrorKind::AlreadyExists | io::ErrorKind::NotADirectory => "a file is in its way".to_owned(),
        _ => plainly(error),
    }
}

/// An error without its number.
fn plainly(error: &io::Error) -> String {
    match error.kind() {
        io::ErrorKind::NotFound => "no such file".to_owned(),
        io::ErrorKind::PermissionDenied => "permission denied".to_owned(),
        io::ErrorKind::IsADirectory => "it is a folder".to_owned(),
        io::ErrorKind::StorageFull => "no space left".to_owned(),
        _ => error.to_string(),
    }
}

/// Standard output and error, with a progress line on a terminal when there are many inputs.
pub struct Output {
    quiet: bool,
    inputs: usize,
    done: usize,
    progress: bool,
    shown: bool,
    last: Instant,
    /// Whether something could not be written to standard error.
    lost: bool,
}

impl Output {
    pub fn new(quiet: bool, inputs: usize) -> Self {
        let progress = !quiet && inputs >= MANY && io::stderr().is_terminal();
        Output { quiet, inputs, done: 0, progress, shown: false, last: Instant::now(), lost: false }
    }

    /// A line of an answer to standard output, unless quiet was asked for.
    pub fn line(&mut self, line: &str) {
        self.text(&format!("{line}\n"));
    }

    /// An answer to standard output, unless quiet was asked for.
    pub fn text(&mut self, text: &str) {
        if !self.quiet {
            self.bytes(text.as_bytes());
        }
    }

    /// Bytes to standard output. A reader that has gone away (`| head`) ends the program without a word.
    fn bytes(&mut self, bytes: &[u8]) {
        self.clear();
        let mut out = io::stdout().lock();
        let written = out.write_all(bytes).and_then(|()| out.flush());
        let why = match written {
            Ok(()) if closed::output() => "it is closed".to_owned(),
            Ok(()) => return,
            Err(error) if error.kind() == io::ErrorKind::BrokenPipe => String::new(),
            Err(error) => plainly(&error),
        };
        if !why.is_empty() {
            self.complain(&format!("wuldgisp: standard output: {why}"));
        }
        std::process::exit(Status::Misuse as i32);
    }

    /// An image to standard output, unless people are looking.
    pub fn image(&mut self, image: &[u8]) -> Result<(), String> {
        if io::stdout().is_terminal() {
            return Err("an image is not shown on a terminal: give --output FILE".to_owned());
        }
        self.bytes(image);
        Ok(())
    }

    /// A line about an answer to standard error, unless quiet was asked for.
    pub fn tell(&mut self, line: &str) {
        if !self.quiet {
            self.complain(line);
        }
    }

    /// A line about misuse to standard error.
    pub fn complain(&mut self, line: &str) {
        self.clear();
        self.lost |= writeln!(io::stderr(), "{line}").is_err();
    }

    /// One more input is done.
    pub fn step(&mut self) {
        self.done += 1;
        if self.progress && self.last.elapsed() > Duration::from_millis(100) {
            // Nobody is the worse off without it.
            let _ = write!(io::stderr(), "\r{} of {} files", self.done, self.inputs);
            self.shown = true;
            self.last = Instant::now();
        }
    }

    /// The status when every input is done: what could not be told on standard error counts as misuse.
    pub fn done(&mut self, status: Status) -> Status {
        self.clear();
        match self.lost {
            true => Status::Misuse,
            false => status,
        }
    }

    /// Takes the progress line away.
    fn clear(&mut self) {
        if self.shown {
            let _ = write!(io::stderr(), "\r\x1b[K");
            self.shown = false;
        }
    }
}
