//! The text form: an image as text that [`crate::assemble`] turns back into the same bytes.
//!
//! Counts, offsets, statement lengths and padding follow from the rest and are left out, and so is a name, a
//! span, a list of copied words or an optional number whose words are all 0. Numbers stay numbers, so that
//! images which later tests refuse can be written too; comments behind `#` tell what they name.
//!
//! ```text
//! wuldgisp-text 1
//! names {
//!   "tone"  # 0
//! }
//! functions {
//!   function name=0 {  # 0 "tone"
//!     expressions {
//!       Literal code=F32 low=1065353216 high=0  # 0 = 1.0f
//!       Unary op=Negate expr=0  # 1
//!     }
//!     body {
//!       Emit start=1 end=2
//!       Return value=1
//!     }
//!   }
//! }
//! special_types {
//! }
//! ```
//!
//! An image that tests 1 and 2 refuse, or that has an unknown kind or variant, has no such form. It is written
//! as its bytes, under the heading `wuldgisp-bytes`: bug reports can hold any bytes.

use std::fmt::Write;

use crate::fields::{expression, Field, Row, LEAF_TYPES, TYPE_KINDS};
use crate::module::*;

/// The heading of the text form.
pub const TEXT: &str = "wuldgisp-text";
/// The heading of the form for any bytes.
pub const BYTES: &str = "wuldgisp-bytes";
/// The keys of the sections, in their order.
pub const SECTION_KEYS: [&str; 9] = [
    "names",
    "types",
    "constants",
    "overrides",
    "globals",
    "global_expressions",
    "functions",
    "entry_points",
    "special_types",
];
/// The keys of the three special types that have a place of their own.
pub const PLACES: [&str; 3] = ["ray_desc", "ray_intersection", "ray_vertex_return"];

/// The text of any bytes: the text form where they have one, else their bytes.
pub fn text(image: &[u8]) -> String {
    match crate::read(image) {
        Ok(module) => module_text(&module),
        Err(_) => bytes_text(image),
    }
}

/// Bytes in hexadecimal, a word to a group and eight groups to a line.
pub fn bytes_text(image: &[u8]) -> String {
    let mut text = format!("{BYTES}\n");
    for line in image.chunks(32) {
        let group = |bytes: &[u8]| bytes.iter().map(|byte| format!("{byte:02x}")).collect::<String>();
        let groups: Vec<String> = line.chunks(4).map(group).collect();
        writeln!(text, "{}", groups.join(" ")).expect("a string takes all");
    }
    text
}

/// The text form of a module.
pub fn module_text(module: &Module) -> String {
    let mut out = Out { module, text: format!("{TEXT} 1\n"), depth: 0 };
    out.names();
    let key = SECTION_KEYS;
    out.section(key[1], &module.types, Out::ty);
    out.section(key[2], &module.constants, Out::constant);
    out.section(key[3], &module.overrides, Out::override_record);
    out.section(key[4], &module.globals, Out::global);
    out.section(key[5], &module.expressions, Out::global_expression);
    out.section(key[6], &module.functions, Out::function);
    out.section(key[7], &module.entry_points, Out::entry_point);
    out.special();
    out.text
}

/// A name's bytes between quotes.
pub fn quoted(bytes: &[u8]) -> String {
    let mut text = String::from("\"");
    for byte in bytes {
        match byte {
            b'"' | b'\\' => text.extend(['\\', *byte as char]),
            b' '..=b'~' => text.push(*byte as char),
            _ => write!(text, "\\x{byte:02x}").expect("a string takes all"),
        }
    }
    text.push('"');
    text
}

/// One line that is being put together.
struct Line(String);

impl Line {
    fn new(head: &str) -> Self {
        Line(head.to_owned())
    }

    /// A number that is always written.
    fn number(mut self, key: &str, word: Word) -> Self {
        write!(self.0, " {key}={}", word.value).expect("a string takes all");
        self
    }

    /// An optional number, which is left out when it is none.
    fn optional(mut self, key: &str, word: Word) -> Self {
        if let Some(number) = word.optional() {
            write!(self.0, " {key}={number}").expect("a string takes all");
        }
        self
    }

    /// Copied words, which are left out when all are 0.
    fn copied(mut self, key: &str, words: &[Word]) -> Self {
        if words.iter().any(|word| word.value != 0) {
            write!(self.0, " {key}={}", list(words)).expect("a string takes all");
        }
        self
    }

    fn name(self, word: Word) -> Self {
        self.optional("name", word)
    }

    fn span(self, span: &Span) -> Self {
        self.copied("span", span)
    }

    /// The fields of a row.
    fn values(mut self, row: &Row, values: &[Value]) -> Self {
        for ((key, field), value) in row.fields.iter().zip(values) {
            self = match (field, value) {
                (Field::OptionalOperand | Field::OptionalResult, Value::One(word)) => {
                    self.optional(key, *word)
                }
                _ => Line(format!("{} {key}={}", self.0, spelled(*field, value))),
            };
        }
        self
    }
}

/// Words between brackets.
fn list(words: &[Word]) -> String {
    let words: Vec<String> = words.iter().map(|word| word.value.to_string()).collect();
    format!("[{}]", words.join(" "))
}

/// A value behind its key: a code by its name, a list between brackets, a variant with its fields in parentheses.
pub(crate) fn spelled(field: Field, value: &Value) -> String {
    match (field, value) {
        (Field::Code(names), Value::One(word)) => match names.get(word.value as usize) {
            Some(name) => (*name).to_owned(),
            None => word.value.to_string(),
        },
        (Field::OptionalOperand | Field::OptionalResult, Value::One(word)) => match word.optional() {
            Some(number) => number.to_string(),
            None => "none".to_owned(),
        },
        (_, Value::One(word)) => word.value.to_string(),
        (_, Value::List(words)) => list(words),
        (Field::Variant(rows), Value::Variant(code, inner)) => {
            let row = &rows[code.value as usize];
            let fields = row.fields.iter().zip(inner);
            let inner: Vec<String> = fields.map(|((_, field), value)| spelled(*field, value)).collect();
            match inner.is_empty() {
                true => row.name.to_owned(),
                false => format!("{}({})", row.name, inner.join(" ")),
            }
        }
        _ => unreachable!("a value follows its field"),
    }
}

/// What a literal's bits mean, for a comment.
fn literal_value(record: &Expression) -> String {
    let value = match (record.kind.value, record.values.as_slice()) {
        (expression::LITERAL, [Value::One(code), Value::One(low), Value::One(high)]) => {
            crate::listing::literal(code.value, u64::from(high.value) << 32 | u64::from(low.value))
        }
        _ => None,
    };
    value.map_or(String::new(), |value| format!(" = {value}"))
}

/// The text so far, and how deep its braces are.
struct Out<'a> {
    module: &'a Module,
    text: String,
    depth: usize,
}

impl Out<'_> {
    fn line(&mut self, line: &str) {
        writeln!(self.text, "{:1$}{line}", "", 2 * self.depth).expect("a string takes all");
    }

    /// A comment with the number that a line defines and a name that it bears.
    fn comment(&self, own: usize, name: Word) -> String {
        match name.optional().and_then(|number| self.module.names.get(number as usize)) {
            Some(name) => format!("  # {own} {}", quoted(&name.bytes)),
            None => format!("  # {own}"),
        }
    }

    /// A line and, behind it, what it defines.
    fn defined(&mut self, line: Line, own: usize, name: Word) {
        let comment = self.comment(own, name);
        self.line(&format!("{}{comment}", line.0));
    }

    fn open(&mut self, line: &str) {
        self.line(&format!("{line} {{"));
        self.depth += 1;
    }

    /// The same for a line that defines something.
    fn open_defined(&mut self, line: Line, own: usize, name: Word) {
        let comment = self.comment(own, name);
        self.line(&format!("{} {{{comment}", line.0));
        self.depth += 1;
    }

    fn close(&mut self, behind: &str) {
        self.depth -= 1;
        self.line(&format!("}}{behind}"));
    }

    /// A section, which is left out when it is empty.
    fn section<T>(&mut self, key: &str, records: &[T], record: impl Fn(&mut Self, usize, &T)) {
        if records.is_empty() {
            return;
        }
        self.open(key);
        for (own, value) in records.iter().enumerate() {
            record(self, own, value);
        }
        self.close("");
    }

    fn names(&mut self) {
        let names = &self.module.names;
        self.section(SECTION_KEYS[0], names, |out, own, name| {
            out.line(&format!("{}  # {own}", quoted(&name.bytes)));
        });
    }

    fn ty(&mut self, own: usize, ty: &Type) {
        let head = Line::new(TYPE_KINDS[ty.inner.kind() as usize]).name(ty.name).span(&ty.span);
        match &ty.inner {
            Inner::Leaf { leaf, copied } => {
                let leaf = spelled(Field::Code(LEAF_TYPES), &Value::One(*leaf));
                self.defined(Line(format!("{} leaf={leaf}", head.0)).copied("copied", copied), own, ty.name)
            }
            Inner::Pointer { base, space } => {
                self.defined(head.number("base", *base).copied("space", space), own, ty.name)
            }
            Inner::Struct { size, members } => {
                self.open_defined(head.number("size", *size), own, ty.name);
                for (own, member) in members.iter().enumerate() {
                    let line = Line::new("member").name(member.name).number("type", member.ty);
                    let line = line.number("offset", member.offset).copied("binding", &member.binding);
                    self.defined(line, own, member.name);
                }
                self.close("");
            }
            Inner::Array { base, size, stride } => {
                let line = head.number("base", *base).number("size", *size).number("stride", *stride);
                self.defined(line, own, ty.name)
            }
            Inner::BindingArray { base, size } => {
                self.defined(head.number("base", *base).number("size", *size), own, ty.name)
            }
        }
    }

    fn constant(&mut self, own: usize, record: &Constant) {
        let line = Line::new("constant").name(record.name).span(&record.span);
        self.defined(line.number("type", record.ty).number("init", record.init), own, record.name);
    }

    fn override_record(&mut self, own: usize, record: &Override) {
        let line = Line::new("override").name(record.name).span(&record.span).number("id", record.id);
        self.defined(line.number("type", record.ty).optional("init", record.init), own, record.name);
    }

    fn global(&mut self, own: usize, record: &Global) {
        let line = Line::new("global").name(record.name).span(&record.span);
        let line = line.copied("space", &record.space).copied("binding", &record.binding);
        let line = line.number("type", record.ty).optional("init", record.init);
        self.defined(line.number("decorations", record.decorations), own, record.name);
    }

    fn global_expression(&mut self, own: usize, record: &Expression) {
        self.expression(own, record, Word::default());
    }

    /// An expression, and the name that it bears.
    fn expression(&mut self, own: usize, record: &Expression, name: Word) {
        let row = record.row();
        let line = Line::new(row.name).span(&record.span).values(row, &record.values);
        let (comment, value) = (self.comment(own, name), literal_value(record));
        self.line(&format!("{}{comment}{value}", line.0));
    }

    fn function(&mut self, own: usize, function: &Function) {
        self.open_defined(Line::new("function").name(function.name).span(&function.span), own, function.name);
        for (own, argument) in function.arguments.iter().enumerate() {
            let line = Line::new("argument").name(argument.name).number("type", argument.ty);
            self.defined(line.copied("binding", &argument.binding), own, argument.name);
        }
        if let Some(result) = &function.result {
            let line = Line::new("result").number("type", result.ty);
            self.line(&line.copied("binding", &result.binding).0);
        }
        for (own, local) in function.locals.iter().enumerate() {
            let line = Line::new("local").span(&local.span).name(local.name);
            let line = line.number("type", local.ty).optional("init", local.init);
            self.defined(line, own, local.name);
        }
        self.section("expressions", &function.expressions, |out, own, record| {
            let bears = |named: &&Named| named.expression.value as usize == own;
            let name = function.named.iter().find(bears).map_or(Word::default(), |named| named.name);
            out.expression(own, record, name);
        });
        self.section("named", &function.named, |out, own, named| {
            let line = Line::new("expression").number("number", named.expression).name(named.name);
            out.defined(line, own, named.name);
        });
        self.open("body");
        self.statements(&function.body);
        self.close("");
        self.close("");
    }

    fn entry_point(&mut self, own: usize, entry: &EntryPoint) {
        let line = Line::new("entry_point").name(entry.name).number("stage", entry.stage);
        let line = line.copied("early_depth", &entry.early_depth).copied("workgroup", &entry.workgroup);
        self.open_defined(line, own, entry.name);
        self.function(own, &entry.function);
        self.close("");
    }

    fn special(&mut self) {
        let special = &self.module.special;
        self.open(SECTION_KEYS[8]);
        for (key, place) in PLACES.iter().zip(special.places) {
            if let Some(number) = place.optional() {
                self.line(&format!("{key}={number}"));
            }
        }
        for (key, ty) in &special.pairs {
            self.line(&Line::new("pair").number("key", *key).number("type", *ty).0);
        }
        self.close("");
    }

    fn statements(&mut self, block: &Block) {
        for statement in block {
            self.statement(statement);
        }
    }

    fn statement(&mut self, statement: &Statement) {
        let row = statement.row();
        let head = Line::new(row.name).span(&statement.span);
        match &statement.body {
            Body::Emit { start, end } => self.line(&head.number("start", *start).number("end", *end).0),
            Body::Block(block) => {
                self.open(&head.0);
                self.statements(block);
                self.close("");
            }
            Body::If { condition, accept, reject } => {
                self.open(&head.number("condition", *condition).0);
                self.statements(accept);
                self.close(" else {");
                self.depth += 1;
                self.statements(reject);
                self.close("");
            }
            Body::Switch { selector, cases } => {
                self.open(&head.number("selector", *selector).0);
                for case in cases {
                    self.case(case);
                }
                self.close("");
            }
            Body::Loop { body, continuing, break_if } => {
                self.open(&head.0);
                self.statements(body);
                self.close(" continuing {");
                self.depth += 1;
                self.statements(continuing);
                self.close(&Line::new("").optional("break_if", *break_if).0);
            }
            Body::Plain(values) => {
                let comment = self.callee(statement);
                self.line(&format!("{}{comment}", head.values(row, values).0));
            }
        }
    }

    /// A comment with the name of the function that a statement calls.
    fn callee(&self, statement: &Statement) -> String {
        let function = statement.callee().and_then(|word| self.module.functions.get(word.value as usize));
        let name = function.and_then(|function| function.name.optional());
        match name.and_then(|number| self.module.names.get(number as usize)) {
            Some(name) => format!("  # {}", quoted(&name.bytes)),
            None => String::new(),
        }
    }

    fn case(&mut self, case: &Case) {
        let value = spelled(Field::Variant(crate::fields::CASE_VALUES), &case.value);
        self.open(&format!("case {value}"));
        self.statements(&case.body);
        self.close(&format!(" fall_through={}", case.fall_through.value));
    }
}
