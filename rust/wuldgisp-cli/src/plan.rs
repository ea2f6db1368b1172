//! A plan: a session as text, a step a line (`docs/PLAN.md`).
//!
//! It is read from top to bottom. Sources are read where they are set, and names are looked up in the source that is
//! set last, so that what is wrong is told before anything is run.

use std::ffi::OsStr;
use std::os::unix::ffi::OsStrExt;
use std::path::{Path, PathBuf};

use plain::module::Word;
use plain::text::quoted;
use plain::{Module, Place, TextError};
use wuldgisp::{Answers, Refusal, Session, Ticket};

use crate::files::Input;
use crate::line::{error, Line, Parsed, Token};
use crate::written::{Table, Which, Written};

/// A plan that was read.
pub struct Plan {
    pub session: Session,
    pub steps: Vec<Step>,
    /// Where relative paths start.
    folder: PathBuf,
    source: Option<Source>,
    /// The names that were looked up.
    names: Vec<LookedUp>,
}

/// A step of a plan.
pub struct Step {
    pub line: usize,
    pub operation: String,
    /// The step as it is written, without comment.
    pub text: String,
    pub asked: Asked,
}

/// The ticket of a step, and what its answer is told with.
pub enum Asked {
    /// With the bytes of the source, where intake refuses them.
    Set(Ticket<()>, Option<Vec<u8>>),
    Clear(Ticket<()>),
    Span(Ticket<(u32, u32)>),
    Record(Table, Ticket<u32>),
    Whether(Ticket<bool>),
    Image(Ticket<Vec<u8>>, Finished),
}

/// Where a derived image goes: the file as it is written, and its path.
pub struct Finished {
    pub file: Token,
    pub path: PathBuf,
}

/// The source that is set last, and its module where intake accepts it.
struct Source {
    file: String,
    set: Ticket<()>,
    module: Result<Module, Refusal>,
}

/// A name that was looked up: where it stands, in which file, and the step that sets that.
struct LookedUp {
    place: Place,
    file: String,
    set: Ticket<()>,
}

impl Plan {
    /// The plan of a text, whose relative paths start at a folder.
    pub fn read(text: &str, folder: &Path) -> Parsed<Self> {
        let mut plan = Plan {
            session: Session::new(),
            steps: Vec::new(),
            folder: folder.to_path_buf(),
            source: None,
            names: Vec::new(),
        };
        for (above, text) in text.lines().enumerate() {
            let mut line = Line::new(above + 1, text)?;
            if line.is_empty() {
                continue;
            }
            let text = line.shown();
            let (operation, written) = Written::read(&mut line)?;
            let asked = plan.add(written)?;
            plan.steps.push(Step { line: above + 1, operation, text, asked });
        }
        Ok(plan)
    }

    /// The first name that was looked up in a source which, as the answers tell, was not set.
    pub fn misread(&self, answers: &Answers) -> Option<TextError> {
        let misread = |name: &LookedUp| Some(unread(name.place, &name.file, answers.get(name.set).err()?));
        self.names.iter().find_map(misread)
    }

    /// Adds a step to the session.
    fn add(&mut self, written: Written) -> Parsed<Asked> {
        Ok(match written {
            Written::Set { file, offset } => self.set(&file, offset)?,
            Written::Clear => {
                self.source = None;
                Asked::Clear(self.session.clear())
            }
            Written::MapSpan { start, end } => Asked::Span(self.session.map_span(start, end)),
            Written::Import(import, which) => {
                let number = self.record(import.table, which)?;
                Asked::Record(import.table, (import.add)(&mut self.session, number))
            }
            Written::RenameType { ty, name } => {
                let (ty, name) = (self.record(Table::Type, ty)?, self.name(&name)?);
                Asked::Record(Table::Type, self.session.rename_type(ty, name))
            }
            Written::HasRequiredSpecialTypes => Asked::Whether(self.session.has_required_special_types()),
            Written::Finish { file, entry_points } => self.finish(file, entry_points)?,
        })
    }

    fn set(&mut self, file: &Token, offset: u32) -> Parsed<Asked> {
        let path = self.path(file);
        if let Some(line) = self.finished_in(&path) {
            let message = format!("line {line} finishes {}, and only another plan can set it", file.shown());
            return Err(error(file.place, message));
        }
        let input = Input::at(path);
        let image = input.image().map_err(|message| error(file.place, format!("{input}: {message}")))?;
        let set = self.session.set(&image, offset);
        let module = wuldgisp::intake(&image).map(|()| plain::laid_out(&image).0);
        let refused = module.is_err().then_some(image);
        self.source = Some(Source { file: file.shown(), set, module });
        Ok(Asked::Set(set, refused))
    }

    /// Behind a finish no source is set.
    fn finish(&mut self, file: Token, entry_points: bool) -> Parsed<Asked> {
        let path = self.path(&file);
        if let Some(line) = self.finished_in(&path) {
            return Err(error(file.place, format!("line {line} finishes {} already", file.shown())));
        }
        self.source = None;
        let ticket = match entry_points {
            false => self.session.finish(),
            true => self.session.finish_with_entry_points(),
        };
        Ok(Asked::Image(ticket, Finished { file, path }))
    }

    fn path(&self, file: &Token) -> PathBuf {
        self.folder.join(OsStr::from_bytes(&file.bytes))
    }

    /// The line that finishes an image to a path.
    fn finished_in(&self, path: &Path) -> Option<usize> {
        // `./a` and `a` are the same.
        let here = |path: &Path| Path::new(".").join(path);
        let same =
            |step: &&Step| matches!(&step.asked, Asked::Image(_, own) if here(&own.path) == here(path));
        self.steps.iter().find(same).map(|step| step.line)
    }

    /// The number of a record of the source.
    fn record(&mut self, table: Table, which: Which) -> Parsed<u32> {
        let (place, told) = match &which {
            Which::Number(number) => return Ok(*number),
            Which::NameNumber(place, name) => (*place, format!("name {name}")),
            Which::Name(token) => (token.place, format!("the name {}", quoted(&token.bytes))),
        };
        let name = self.name(&which)?;
        let (file, module) = self.module(place)?;
        let names = names(table, module).into_iter().enumerate();
        let borne: Vec<usize> =
            names.filter(|(_, own)| own.optional() == Some(name)).map(|(own, _)| own).collect();
        let record = table.record();
        match borne[..] {
            [number] => Ok(number as u32),
            [] => Err(error(place, format!("no {record} of {file} bears {told}"))),
            [first, second, ..] => {
                let both = format!("{record} {first} and {record} {second}");
                Err(error(place, format!("{both} of {file} bear {told}: give a number")))
            }
        }
    }

    /// The number of a name of the source.
    fn name(&mut self, which: &Which) -> Parsed<u32> {
        let token = match which {
            Which::Number(number) | Which::NameNumber(_, number) => return Ok(*number),
            Which::Name(token) => token,
        };
        let (file, module) = self.module(token.place)?;
        let number = module.names.iter().position(|name| name.bytes == token.bytes);
        let missing = || error(token.place, format!("there is no name {} in {file}", quoted(&token.bytes)));
        number.map(|number| number as u32).ok_or_else(missing)
    }

    /// The source and its file, to look a name up that stands at a place.
    fn module(&mut self, place: Place) -> Parsed<(&str, &Module)> {
        let missing = || error(place, "no source is set here to look a name up in");
        let source = self.source.as_ref().ok_or_else(missing)?;
        let module = source.module.as_ref().map_err(|refusal| unread(place, &source.file, *refusal))?;
        self.names.push(LookedUp { place, file: source.file.clone(), set: source.set });
        Ok((&source.file, module))
    }
}

/// The names of the records of a table.
fn names(table: Table, module: &Module) -> Vec<Word> {
    match table {
        Table::Type => module.types.iter().map(|own| own.name).collect(),
        Table::Constant => module.constants.iter().map(|own| own.name).collect(),
        Table::Override => module.overrides.iter().map(|own| own.name).collect(),
        Table::Global => module.globals.iter().map(|own| own.name).collect(),
        Table::GlobalExpression => Vec::new(),
        Table::Function => module.functions.iter().map(|own| own.name).collect(),
    }
}

/// The error that a name is one of a source that is refused.
fn unread(place: Place, file: &str, refusal: Refusal) -> TextError {
    let number = refusal.number();
    error(place, format!("{file} is refused {number}, and no name is looked up in it: give a number"))
}
