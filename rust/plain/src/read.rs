//! Tests 1 and 2: from bytes to a [`Module`], by laying out every record from left to right.
//!
//! A record that does not fit is refused by 2. A code that decides a layout and is none of the listed leaves the
//! rest of its table record without a layout: that record then gives 3 and no 2. As each test is made over the
//! whole image before the next, a 2 anywhere goes before a 3 anywhere. Numbers are compared as `usize` (64 bits),
//! so no sum of two words wraps round.

use crate::fields::{limit, statement, Field, Row, CASE_VALUES, EXPRESSIONS, SECTIONS, STATEMENTS};
use crate::module::*;
use crate::{words, Refused};

type Read<T> = Result<T, Refused>;

/// Words of the header.
const HEADER: usize = 20;

/// Reads an image that tests 1 and 2 accept and that has no unknown kind or variant.
pub fn read(image: &[u8]) -> Read<Module> {
    test_1(image)?;
    let words = words(image);
    let sections = sections(&words)?;
    tables(&words, &sections)
}

/// What of an image is laid out before the first word that fits no layout: whole records, section by section, and the
/// function that holds the word, as far as it was read. Of an image that can be read the module is all of it.
pub fn laid_out(image: &[u8]) -> (Module, Option<Function>) {
    let (mut module, mut begun) = (Module::default(), None);
    match lay_out(image, &mut module, &mut begun) {
        Ok(()) => (module, None),
        // Which word it is, and why, is told by `read`.
        Err(_) => (module, begun),
    }
}

fn lay_out(image: &[u8], module: &mut Module, begun: &mut Option<Function>) -> Read<()> {
    test_1(image)?;
    let words = words(image);
    let sections = sections(&words)?;
    part(&words, &sections[0], &mut module.names, name)?;
    part(&words, &sections[1], &mut module.types, ty)?;
    part(&words, &sections[2], &mut module.constants, constant)?;
    part(&words, &sections[3], &mut module.overrides, override_record)?;
    part(&words, &sections[4], &mut module.globals, global)?;
    part(&words, &sections[5], &mut module.expressions, expression)?;
    part(&words, &sections[6], &mut module.functions, |cursor| {
        let function = begun.insert(Function::default());
        function_fields(cursor, function).map(|()| function.clone())
    })?;
    *begun = None;
    part(&words, &sections[7], &mut module.entry_points, |cursor| {
        let mut entry = entry_head(cursor)?;
        let function = begun.insert(Function::default());
        function_fields(cursor, function)?;
        entry.function = function.clone();
        Ok(entry)
    })?;
    *begun = None;
    module.special = special(&words, &sections[8])?;
    Ok(())
}

/// The records of one table, as far as they fit.
fn part<T>(
    words: &[u32],
    section: &Section,
    records: &mut Vec<T>,
    mut record: impl FnMut(&mut Cursor) -> Read<T>,
) -> Read<()> {
    for (at, end) in extents(words, section)? {
        let mut cursor = Cursor { words, at, end };
        let value = record(&mut cursor)?;
        cursor.done()?;
        records.push(value);
    }
    Ok(())
}

/// Test 1: size, edition and total.
fn test_1(image: &[u8]) -> Read<()> {
    if image.len() < 4 * HEADER {
        return Err(Refused::of(1, "an image has at least 80 bytes"));
    }
    if image.len() > limit::BYTES {
        return Err(Refused::of(1, "an image has at most 65536 bytes"));
    }
    let words = words(image);
    if words[0] != 1 {
        return Err(Refused::at(1, 0, "the edition is 1"));
    }
    if 4 * words[1] as usize != image.len() {
        let rule = "the image is four times as many bytes long as word 1 says";
        return Err(Refused::at(1, 1, rule));
    }
    Ok(())
}

/// A section: its count of records, its first word and the word behind its last.
struct Section {
    count: usize,
    start: usize,
    end: usize,
}

/// The nine sections, which follow one another from word 20 to the end.
fn sections(words: &[u32]) -> Read<Vec<Section>> {
    let mut sections = Vec::new();
    let mut start = HEADER;
    for k in 0..SECTIONS.len() {
        let (count, offset) = (words[2 + 2 * k], words[3 + 2 * k] as usize);
        if offset != start {
            let rule = "a section starts where the one before it ends, the first at word 20";
            return Err(Refused::at(2, 3 + 2 * k, rule));
        }
        if count > section_limit(k) {
            return Err(Refused::at(2, 2 + 2 * k, "a table has no more records than its limit"));
        }
        let end = if k + 1 < SECTIONS.len() { words[5 + 2 * k] as usize } else { words.len() };
        if end < start || end > words.len() {
            return Err(Refused::at(2, 3 + 2 * k, "a section ends inside the image"));
        }
        let count = count as usize;
        sections.push(Section { count, start, end });
        start = end;
    }
    Ok(sections)
}

/// The most records of section k.
fn section_limit(k: usize) -> u32 {
    match k {
        6 => limit::FUNCTIONS,
        7 => limit::ENTRY_POINTS,
        _ => limit::RECORDS,
    }
}

/// Every section, read whole. `first` keeps what an unknown code gave until every record has been seen.
fn tables(words: &[u32], sections: &[Section]) -> Read<Module> {
    let mut first = None;
    let module = Module {
        names: table(words, &sections[0], &mut first, name)?,
        types: table(words, &sections[1], &mut first, ty)?,
        constants: table(words, &sections[2], &mut first, constant)?,
        overrides: table(words, &sections[3], &mut first, override_record)?,
        globals: table(words, &sections[4], &mut first, global)?,
        expressions: table(words, &sections[5], &mut first, expression)?,
        functions: table(words, &sections[6], &mut first, function)?,
        entry_points: table(words, &sections[7], &mut first, entry_point)?,
        special: special(words, &sections[8])?,
    };
    match first {
        Some(unknown) => Err(unknown),
        None => Ok(module),
    }
}

/// One table: its record offsets, then each record in its extent.
fn table<T>(
    words: &[u32],
    section: &Section,
    first: &mut Option<Refused>,
    record: impl Fn(&mut Cursor) -> Read<T>,
) -> Read<Vec<T>> {
    let mut records = Vec::new();
    for (at, end) in extents(words, section)? {
        let mut cursor = Cursor { words, at, end };
        match record(&mut cursor).and_then(|value| cursor.done().map(|()| value)) {
            Ok(value) => records.push(value),
            Err(unknown) if unknown.number == 3 => {
                first.get_or_insert(unknown);
            }
            Err(misfit) => return Err(misfit),
        }
    }
    Ok(records)
}

/// Where each record of a section starts and ends.
fn extents(words: &[u32], section: &Section) -> Read<Vec<(usize, usize)>> {
    let rule = "records stand without gap behind the offsets and fill their section";
    if section.start + section.count > section.end {
        return Err(Refused::at(2, section.start, rule));
    }
    let mut starts = Vec::new();
    for i in 0..section.count {
        starts.push(section.start + words[section.start + i] as usize);
    }
    starts.push(section.end);
    if starts[0] != section.start + section.count {
        return Err(Refused::at(2, section.start, rule));
    }
    for i in 0..section.count {
        if starts[i + 1] < starts[i] {
            return Err(Refused::at(2, section.start + i, rule));
        }
    }
    Ok(starts.windows(2).map(|pair| (pair[0], pair[1])).collect())
}

/// A place in a record's extent. Words behind the extent are not the record's.
struct Cursor<'a> {
    words: &'a [u32],
    at: usize,
    end: usize,
}

impl Cursor<'_> {
    /// The next word.
    fn word(&mut self) -> Read<Word> {
        if self.at >= self.end {
            return Err(Refused::at(2, self.at, "a record holds all of its fields"));
        }
        let word = Word { at: self.at, value: self.words[self.at] };
        self.at += 1;
        Ok(word)
    }

    /// The next N words.
    fn array<const N: usize>(&mut self) -> Read<[Word; N]> {
        let mut array = [Word::default(); N];
        for word in &mut array {
            *word = self.word()?;
        }
        Ok(array)
    }

    /// A count, tested against its limit where it is read.
    fn count(&mut self, most: u32) -> Read<u32> {
        let count = self.word()?;
        if count.value > most {
            return Err(Refused::at(2, count.at, "a list is no longer than its limit"));
        }
        Ok(count.value)
    }

    /// A count and as many elements.
    fn list<T>(&mut self, most: u32, element: impl Fn(&mut Self) -> Read<T>) -> Read<Vec<T>> {
        let mut list = Vec::new();
        self.elements(most, &mut list, element)?;
        Ok(list)
    }

    /// The same into a list that keeps what was read before an element that does not fit.
    fn elements<T>(
        &mut self,
        most: u32,
        list: &mut Vec<T>,
        element: impl Fn(&mut Self) -> Read<T>,
    ) -> Read<()> {
        for _ in 0..self.count(most)? {
            list.push(element(self)?);
        }
        Ok(())
    }

    /// A code that decides how the record goes on.
    fn deciding(&mut self, bound: usize, rule: &'static str) -> Read<Word> {
        let code = self.word()?;
        if code.value as usize >= bound {
            return Err(Refused::at(3, code.at, rule));
        }
        Ok(code)
    }

    /// That the record fills its extent.
    fn done(&self) -> Read<()> {
        if self.at == self.end {
            return Ok(());
        }
        Err(Refused::at(2, self.at, "a record has no words behind its last field"))
    }
}

/// A name: its length in bytes, its bytes, and zeros to fill the last word.
fn name(cursor: &mut Cursor) -> Read<Name> {
    let length = cursor.word()?;
    let mut bytes = Vec::new();
    for _ in 0..(length.value as usize).div_ceil(4) {
        bytes.extend(cursor.word()?.value.to_le_bytes());
    }
    if bytes[length.value as usize..].iter().any(|byte| *byte != 0) {
        return Err(Refused::at(2, cursor.at - 1, "a name is padded with zeros"));
    }
    bytes.truncate(length.value as usize);
    Ok(Name { at: length.at, bytes })
}

fn ty(cursor: &mut Cursor) -> Read<Type> {
    Ok(Type { name: cursor.word()?, span: cursor.array()?, inner: inner(cursor)? })
}

fn inner(cursor: &mut Cursor) -> Read<Inner> {
    let kind = cursor.deciding(5, "a type's kind is 0 to 4")?;
    Ok(match kind.value {
        0 => Inner::Leaf { leaf: cursor.word()?, copied: cursor.array()? },
        1 => Inner::Pointer { base: cursor.word()?, space: cursor.array()? },
        2 => Inner::Struct { size: cursor.word()?, members: cursor.list(limit::MEMBERS, member)? },
        3 => Inner::Array { base: cursor.word()?, size: cursor.word()?, stride: cursor.word()? },
        _ => Inner::BindingArray { base: cursor.word()?, size: cursor.word()? },
    })
}

fn member(cursor: &mut Cursor) -> Read<Member> {
    Ok(Member { name: cursor.word()?, ty: cursor.word()?, offset: cursor.word()?, binding: cursor.array()? })
}

fn constant(cursor: &mut Cursor) -> Read<Constant> {
    Ok(Constant { name: cursor.word()?, span: cursor.array()?, ty: cursor.word()?, init: cursor.word()? })
}

fn override_record(cursor: &mut Cursor) -> Read<Override> {
    Ok(Override {
        name: cursor.word()?,
        span: cursor.array()?,
        id: cursor.word()?,
        ty: cursor.word()?,
        init: cursor.word()?,
    })
}

fn global(cursor: &mut Cursor) -> Read<Global> {
    Ok(Global {
        name: cursor.word()?,
        span: cursor.array()?,
        space: cursor.array()?,
        binding: cursor.array()?,
        ty: cursor.word()?,
        init: cursor.word()?,
        decorations: cursor.word()?,
    })
}

fn expression(cursor: &mut Cursor) -> Read<Expression> {
    let kind = cursor.deciding(EXPRESSIONS.len(), "an expression's kind is 0 to 26")?;
    let span = cursor.array()?;
    let values = values(cursor, &EXPRESSIONS[kind.value as usize])?;
    Ok(Expression { kind, span, values })
}

/// The values of a row's fields.
fn values(cursor: &mut Cursor, row: &Row) -> Read<Vec<Value>> {
    row.fields.iter().map(|(_, field)| value(cursor, *field)).collect()
}

fn value(cursor: &mut Cursor, field: Field) -> Read<Value> {
    match field {
        Field::Operands => Ok(Value::List(cursor.list(u32::MAX, Cursor::word)?)),
        Field::Variant(rows) => variant(cursor, rows),
        _ => Ok(Value::One(cursor.word()?)),
    }
}

fn variant(cursor: &mut Cursor, rows: &[Row]) -> Read<Value> {
    let code = cursor.deciding(rows.len(), "a variant's code is one of those listed")?;
    Ok(Value::Variant(code, values(cursor, &rows[code.value as usize])?))
}

fn function(cursor: &mut Cursor) -> Read<Function> {
    let mut function = Function::default();
    function_fields(cursor, &mut function)?;
    Ok(function)
}

/// A function's fields, into a record that keeps what was read before a word that does not fit.
fn function_fields(cursor: &mut Cursor, function: &mut Function) -> Read<()> {
    function.name = cursor.word()?;
    function.span = cursor.array()?;
    cursor.elements(limit::ARGUMENTS, &mut function.arguments, argument)?;
    function.result = result_type(cursor)?;
    cursor.elements(limit::LOCALS, &mut function.locals, local)?;
    cursor.elements(limit::EXPRESSIONS, &mut function.expressions, expression)?;
    cursor.elements(limit::NAMED, &mut function.named, named)?;
    cursor.elements(u32::MAX, &mut function.body, |cursor| statement_record(cursor, 1))
}

fn argument(cursor: &mut Cursor) -> Read<Argument> {
    Ok(Argument { name: cursor.word()?, ty: cursor.word()?, binding: cursor.array()? })
}

/// 0 for none, or 1, a type and a binding.
fn result_type(cursor: &mut Cursor) -> Read<Option<ResultType>> {
    match cursor.deciding(2, "a result is 0 for none or 1 and a type")?.value {
        0 => Ok(None),
        _ => Ok(Some(ResultType { ty: cursor.word()?, binding: cursor.array()? })),
    }
}

fn local(cursor: &mut Cursor) -> Read<Local> {
    Ok(Local { span: cursor.array()?, name: cursor.word()?, ty: cursor.word()?, init: cursor.word()? })
}

fn named(cursor: &mut Cursor) -> Read<Named> {
    Ok(Named { expression: cursor.word()?, name: cursor.word()? })
}

/// A block at this depth.
fn block(cursor: &mut Cursor, depth: usize) -> Read<Block> {
    if depth > limit::DEPTH {
        return Err(Refused::at(2, cursor.at, "blocks are nested 32 deep at most"));
    }
    cursor.list(u32::MAX, |cursor| statement_record(cursor, depth))
}

/// A statement of a block at this depth. Its length is compared once its fields are laid out.
fn statement_record(cursor: &mut Cursor, depth: usize) -> Read<Statement> {
    let length = cursor.word()?;
    let kind = cursor.deciding(STATEMENTS.len(), "a statement's kind is 0 to 16")?;
    let span = cursor.array()?;
    let body = body(cursor, kind.value, depth)?;
    if length.value as usize != cursor.at - length.at {
        return Err(Refused::at(2, length.at, "a statement's length is the count of its words"));
    }
    Ok(Statement { at: length.at, kind, span, body })
}

fn body(cursor: &mut Cursor, kind: u32, depth: usize) -> Read<Body> {
    Ok(match kind {
        statement::EMIT => Body::Emit { start: cursor.word()?, end: cursor.word()? },
        statement::BLOCK => Body::Block(block(cursor, depth + 1)?),
        statement::IF => Body::If {
            condition: cursor.word()?,
            accept: block(cursor, depth + 1)?,
            reject: block(cursor, depth + 1)?,
        },
        statement::SWITCH => Body::Switch {
            selector: cursor.word()?,
            cases: cursor.list(u32::MAX, |cursor| case(cursor, depth))?,
        },
        statement::LOOP => Body::Loop {
            body: block(cursor, depth + 1)?,
            continuing: block(cursor, depth + 1)?,
            break_if: cursor.word()?,
        },
        _ => Body::Plain(values(cursor, &STATEMENTS[kind as usize])?),
    })
}

/// A case of a Switch in a block at this depth.
fn case(cursor: &mut Cursor, depth: usize) -> Read<Case> {
    Ok(Case {
        value: variant(cursor, CASE_VALUES)?,
        body: block(cursor, depth + 1)?,
        fall_through: cursor.word()?,
    })
}

fn entry_point(cursor: &mut Cursor) -> Read<EntryPoint> {
    let mut entry = entry_head(cursor)?;
    entry.function = function(cursor)?;
    Ok(entry)
}

/// An entry point without its function.
fn entry_head(cursor: &mut Cursor) -> Read<EntryPoint> {
    Ok(EntryPoint {
        name: cursor.word()?,
        stage: cursor.word()?,
        early_depth: cursor.array()?,
        workgroup: cursor.array()?,
        function: Function::default(),
    })
}

/// Section 8, which has no record offsets.
fn special(words: &[u32], section: &Section) -> Read<Special> {
    let mut cursor = Cursor { words, at: section.start, end: section.end };
    let mut special = Special { places: cursor.array()?, pairs: Vec::new() };
    for _ in 0..section.count {
        special.pairs.push((cursor.word()?, cursor.word()?));
    }
    cursor.done()?;
    Ok(special)
}
