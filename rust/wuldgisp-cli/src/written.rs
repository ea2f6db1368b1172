//! A step of a plan as it is written: an operation and its operands, before names are looked up.

use plain::Place;
use wuldgisp::{Session, Ticket};

use crate::line::{error, Line, Parsed, Token};

/// A step as it is written.
pub enum Written {
    Set { file: Token, offset: u32 },
    Clear,
    MapSpan { start: u32, end: u32 },
    Import(&'static Import, Which),
    RenameType { ty: Which, name: Which },
    HasRequiredSpecialTypes,
    Finish { file: Token, entry_points: bool },
}

/// Which record: by its number, by `@` and the number of its name, or by its name.
pub enum Which {
    Number(u32),
    NameNumber(Place, u32),
    Name(Token),
}

/// The tables whose records are imported.
#[derive(Clone, Copy, PartialEq, Eq)]
pub enum Table {
    Type,
    Constant,
    Override,
    Global,
    GlobalExpression,
    Function,
}

impl Table {
    /// What a record of it is called.
    pub fn record(self) -> &'static str {
        match self {
            Table::Type => "type",
            Table::Constant => "constant",
            Table::Override => "override",
            Table::Global => "global",
            Table::GlobalExpression => "global expression",
            Table::Function => "function",
        }
    }
}

/// An operation that takes the number of a record and answers a derived one.
pub struct Import {
    operation: &'static str,
    pub table: Table,
    pub add: fn(&mut Session, u32) -> Ticket<u32>,
}

const fn import(operation: &'static str, table: Table, add: fn(&mut Session, u32) -> Ticket<u32>) -> Import {
    Import { operation, table, add }
}

const IMPORTS: &[Import] = &[
    import("import_type", Table::Type, Session::import_type),
    import("import_const", Table::Constant, Session::import_const),
    import("import_pipeline_override", Table::Override, Session::import_pipeline_override),
    import("import_global", Table::Global, Session::import_global),
    import("import_global_expression", Table::GlobalExpression, Session::import_global_expression),
    import("import_function", Table::Function, Session::import_function),
    import("import_function_if_new", Table::Function, Session::import_function_if_new),
    import("map_function_handle", Table::Function, Session::map_function_handle),
];

impl Written {
    /// The operation of a line, and the step.
    pub fn read(line: &mut Line) -> Parsed<(String, Self)> {
        let unknown = line.expects("an operation (see wuldgisp session --help)");
        let operation = line.next("an operation")?;
        let operation = operation.word().unwrap_or_default();
        let import = IMPORTS.iter().find(|import| import.operation == operation);
        let written = match (operation, import) {
            (_, Some(import)) => Written::Import(import, record(line, import.table)?),
            ("set", _) => set(line)?,
            ("clear", _) => Written::Clear,
            ("map_span", _) => {
                Written::MapSpan { start: line.number("a start")?, end: line.number("an end")? }
            }
            ("rename_type", _) => rename_type(line)?,
            ("has_required_special_types", _) => Written::HasRequiredSpecialTypes,
            ("finish", _) => Written::Finish { file: line.next("a file")?, entry_points: false },
            ("finish_with_entry_points", _) => {
                Written::Finish { file: line.next("a file")?, entry_points: true }
            }
            _ => return Err(unknown),
        };
        line.end()?;
        Ok((operation.to_owned(), written))
    }
}

fn set(line: &mut Line) -> Parsed<Written> {
    let file = line.next("a file")?;
    if line.is_empty() {
        return Ok(Written::Set { file, offset: 0 });
    }
    line.keyword("offset")?;
    Ok(Written::Set { file, offset: line.number("an offset")? })
}

fn rename_type(line: &mut Line) -> Parsed<Written> {
    let ty = record(line, Table::Type)?;
    line.keyword("as")?;
    Ok(Written::RenameType { ty, name: which(line, "a name or its number")? })
}

/// A record of a table. Global expressions have no names.
fn record(line: &mut Line, table: Table) -> Parsed<Which> {
    match table {
        Table::GlobalExpression => line.number("the number of a global expression").map(Which::Number),
        _ => which(line, &format!("the {}'s number or name", table.record())),
    }
}

/// A word that begins with a digit is a number, and one that begins with `@` is the number of a name.
fn which(line: &mut Line, expected: &str) -> Parsed<Which> {
    let token = line.next(expected)?;
    let place = token.place;
    let Some(word) = token.word() else { return Ok(Which::Name(token)) };
    let told = word.escape_debug();
    if let Some(digits) = word.strip_prefix('@') {
        let wrong = || error(place, format!("'{told}' is no number of a name"));
        return plain::number(digits).map(|number| Which::NameNumber(place, number)).ok_or_else(wrong);
    }
    if word.starts_with(|c: char| c.is_ascii_digit()) {
        let wrong = format!("'{told}' is no number below 4294967296; a name like this stands between quotes");
        return plain::number(word).map(Which::Number).ok_or_else(|| error(place, wrong));
    }
    Ok(Which::Name(token))
}
