//! A listing of an image for people: tables, functions, expressions and the tree of statements. What is referred to
//! is shown by its number, and the name that it bears beside it; a literal by its value beside its bits.
//!
//! It is written for reading, not for reading back (that is the [text form](crate::text)), and it lists what it
//! can of an image that is refused: all of it when the layout is sound, else what was laid out before the fault.

use std::fmt::Write;

use crate::fields::{self, expression, limit, Field, Row, LEAF_TYPES, LEAF_WORDS, SECTIONS, TYPE_KINDS};
use crate::module::*;
use crate::raw;
use crate::text::{quoted, spelled, PLACES};
use crate::{Refused, Rings};

/// What a listing shows beyond the rest.
#[derive(Clone, Copy, Debug, Default)]
pub struct Options {
    /// Spans that are not undefined.
    pub spans: bool,
}

/// The listing of any bytes.
pub fn listing(image: &[u8]) -> String {
    listing_with(image, Options::default())
}

/// The same with options.
pub fn listing_with(image: &[u8], options: Options) -> String {
    let mut text = String::new();
    let refused = crate::intake(image).err();
    head(&mut text, image, refused);
    if refused.is_some_and(|refused| refused.number == 1) {
        return text;
    }
    let whole = crate::read(image).is_ok();
    if !whole {
        line(&mut text, 0, "laid out before the fault:");
    }
    let (module, begun) = crate::laid_out(image);
    let mut listing = Listing { module: &module, options, text: &mut text };
    listing.module(stop(image, &module), whole);
    if let Some(function) = begun {
        listing.function_record("as far as it was:", &function);
    }
    if refused.is_none() {
        listing.order();
    }
    text
}

/// The answer of intake, and of a refused image where the rule failed.
fn head(text: &mut String, image: &[u8], refused: Option<Refused>) {
    let size = match image.len() {
        bytes @ ..=limit::BYTES => format!("{bytes} bytes, {} words", bytes / 4),
        _ => format!("more than {} bytes", limit::BYTES),
    };
    match refused {
        None => line(text, 0, &format!("image of {size}: accepted")),
        Some(refused) => {
            line(text, 0, &format!("image of {size}: refused {}", refused.number));
            line(text, 1, &format!("rule: {}", refused.rule));
            place(text, image, refused);
        }
    }
}

/// The word where a rule failed, its section, and the words around it.
fn place(text: &mut String, image: &[u8], refused: Refused) {
    let Some(at) = refused.at else { return };
    let words = crate::words(image);
    let value = match words.get(at) {
        Some(value) => format!("{value} (0x{value:08x})"),
        None => "behind the end".to_owned(),
    };
    line(text, 1, &format!("found at word {at}, byte {}: {value}", 4 * at));
    if let Some(holder) = holder(image, refused) {
        line(text, 1, &format!("in: {holder}"));
    }
    let from = at.saturating_sub(4);
    let around = words.iter().enumerate().skip(from).take(9);
    let around: Vec<String> =
        around.map(|(own, value)| if own == at { format!(">{value}<") } else { value.to_string() }).collect();
    line(text, 1, &format!("words from {from}: {}", around.join(" ")));
}

/// What holds a word: a section by its name, and the record where it is in one.
#[derive(Clone, Copy, Debug, PartialEq, Eq)]
pub struct Holder {
    pub section: &'static str,
    /// The record, and the word where it starts.
    pub record: Option<usize>,
    pub start: usize,
}

impl std::fmt::Display for Holder {
    fn fmt(&self, f: &mut std::fmt::Formatter) -> std::fmt::Result {
        match self.record {
            Some(record) => {
                write!(f, "{}, record {record}, which starts at word {}", self.section, self.start)
            }
            None => write!(f, "{}", self.section),
        }
    }
}

/// The table and the record at which layout stopped, and where the record starts and ends; none where every record
/// of the tables was laid out.
#[derive(Clone, Copy)]
struct Stop {
    table: usize,
    record: usize,
    start: usize,
    end: usize,
}

fn stop(image: &[u8], laid_out: &Module) -> Option<Stop> {
    let words = crate::words(image);
    let module = laid_out;
    let listed = [
        module.names.len(),
        module.types.len(),
        module.constants.len(),
        module.overrides.len(),
        module.globals.len(),
        module.expressions.len(),
        module.functions.len(),
        module.entry_points.len(),
    ];
    let sections = raw::sections(&words);
    let short = |(section, listed): (&raw::Section, &usize)| *listed < section.count as usize;
    let table = sections.iter().zip(&listed).position(short)?;
    let record = listed[table];
    let (start, end) = sections[table].records(&words).get(record).copied().unwrap_or_default();
    Some(Stop { table, record, start, end })
}

/// What holds the word of a refusal, as far as header and offsets tell. A record that is too short for its fields is
/// refused at the word behind it, and holds that.
pub fn holder(image: &[u8], refused: Refused) -> Option<Holder> {
    let at = refused.at?;
    let words = crate::words(image);
    if let Some(stop) = stop(image, &crate::laid_out(image).0).filter(|stop| stop.end == at) {
        let Stop { table, record, start, .. } = stop;
        return Some(Holder { section: SECTIONS[table], record: Some(record), start });
    }
    if at < 20 {
        return Some(Holder { section: "the header", record: None, start: 0 });
    }
    let sections = raw::sections(&words);
    let section = sections.iter().rfind(|section| section.start <= at)?;
    let records = section.records(&words);
    let record = records.iter().rposition(|(start, _)| *start <= at);
    let start = record.map_or(section.start, |record| records[record].0);
    Some(Holder { section: section.name, record, start })
}

fn line(text: &mut String, depth: usize, what: &str) {
    writeln!(text, "{:1$}{what}", "", 2 * depth).expect("a string takes all");
}

/// A name as people write it: bare where it looks like an identifier, else between quotes.
pub fn shown(bytes: &[u8]) -> String {
    let plain = |byte: &u8| byte.is_ascii_alphanumeric() || b"_.:".contains(byte);
    if !bytes.is_empty() && bytes.iter().all(plain) {
        return String::from_utf8_lossy(bytes).into_owned();
    }
    quoted(bytes)
}

/// The listing of a module, which need not be one that intake accepts.
struct Listing<'a> {
    module: &'a Module,
    options: Options,
    text: &'a mut String,
}

impl<'a> Listing<'a> {
    fn line(&mut self, depth: usize, what: &str) {
        line(self.text, depth, what);
    }

    /// The name behind an optional name's word.
    fn name(&self, word: Word) -> Option<String> {
        let number = word.optional()?;
        match self.module.names.get(number as usize) {
            Some(name) => Some(shown(&name.bytes)),
            None => Some(format!("(name {number}, not there)")),
        }
    }

    /// A number, and behind it the name of the record that it stands for.
    fn numbered(&self, number: u32, name: Option<Word>) -> String {
        match name.map(|word| self.name(word)) {
            None => format!("{number} (not there)"),
            Some(None) => number.to_string(),
            Some(Some(name)) => format!("{number} {name}"),
        }
    }

    fn ty(&self, word: Word) -> String {
        let record = self.module.types.get(word.value as usize);
        self.numbered(word.value, record.map(|record| record.name))
    }

    fn function(&self, number: u32) -> String {
        let record = self.module.functions.get(number as usize);
        self.numbered(number, record.map(|record| record.name))
    }

    /// Functions by number and name.
    fn functions(&self, numbers: &[u32]) -> Vec<String> {
        numbers.iter().map(|number| self.function(*number)).collect()
    }

    /// Whether layout stopped in this section; the record at which it did is told.
    fn stopped(&mut self, stop: Option<Stop>, k: usize) -> bool {
        let Some(stop) = stop.filter(|stop| stop.table == k) else { return false };
        let Stop { record, start, end, .. } = stop;
        let words = match start <= end && end != 0 {
            true => format!("words {start}..{end}"),
            false => "its offset is out of place".to_owned(),
        };
        self.line(1, &format!("{record} was not laid out: {words}"));
        true
    }

    /// A span that is wanted and not undefined.
    fn span(&self, span: &Span) -> String {
        match self.options.spans && span.iter().any(|word| word.value != 0) {
            true => format!(", span {}..{}", span[0].value, span[1].value),
            false => String::new(),
        }
    }

    /// Every section up to the record at which layout stopped.
    fn module(&mut self, stop: Option<Stop>, whole: bool) {
        let last = stop.map_or(SECTIONS.len() - 1, |stop| stop.table);
        for k in 0..=last {
            match k {
                8 if whole => self.special(),
                8 => (),
                _ => self.table(k),
            }
            if self.stopped(stop, k) {
                return;
            }
        }
    }

    /// One of the eight tables.
    fn table(&mut self, k: usize) {
        let module = self.module;
        match k {
            0 => self.section(k, &module.names, Self::name_record),
            1 => self.section(k, &module.types, Self::type_record),
            2 => self.section(k, &module.constants, Self::constant),
            3 => self.section(k, &module.overrides, Self::override_record),
            4 => self.section(k, &module.globals, Self::global),
            5 => self.section(k, &module.expressions, Self::global_expression),
            6 => self.section(k, &module.functions, Self::table_function),
            _ => self.section(k, &module.entry_points, Self::entry_point),
        }
    }

    /// A section's title with its count, and its records; an empty section is told too.
    fn section<T>(&mut self, k: usize, records: &[T], record: impl Fn(&mut Self, usize, &T)) {
        self.line(0, &format!("{}: {}", SECTIONS[k], records.len()));
        for (own, value) in records.iter().enumerate() {
            record(self, own, value);
        }
    }

    fn name_record(&mut self, own: usize, name: &Name) {
        self.line(1, &format!("{own} {}", quoted(&name.bytes)));
    }

    fn constant(&mut self, own: usize, record: &Constant) {
        let (own, ty, span) = (self.own(own, record.name), self.ty(record.ty), self.span(&record.span));
        self.line(1, &format!("{own}: type {ty} = global expression {}{span}", record.init.value));
    }

    fn override_record(&mut self, own: usize, record: &Override) {
        let (own, ty, span) = (self.own(own, record.name), self.ty(record.ty), self.span(&record.span));
        let (id, init) = (record.id.value, initialiser(record.init, "global expression "));
        self.line(1, &format!("{own}: type {ty}, id word {id}{init}{span}"));
    }

    fn global(&mut self, own: usize, record: &Global) {
        let (own, ty, span) = (self.own(own, record.name), self.ty(record.ty), self.span(&record.span));
        let (space, binding) = (copied(&record.space), copied(&record.binding));
        let (decorations, init) = (record.decorations.value, initialiser(record.init, "global expression "));
        let what = format!("space {space}, binding {binding}, decorations {decorations}{init}{span}");
        self.line(1, &format!("{own}: type {ty}, {what}"));
    }

    fn global_expression(&mut self, own: usize, record: &Expression) {
        let what = self.expression_record(&Function::default(), record);
        self.line(1, &format!("#{own} = {what}"));
    }

    fn table_function(&mut self, own: usize, function: &Function) {
        self.function_record(&format!("function {own}"), function);
    }

    /// A record's number and its name.
    fn own(&self, own: usize, name: Word) -> String {
        match self.name(name) {
            Some(name) => format!("{own} {name}"),
            None => own.to_string(),
        }
    }

    fn type_record(&mut self, own: usize, record: &Type) {
        let kind = TYPE_KINDS[record.inner.kind() as usize];
        let what = match &record.inner {
            Inner::Leaf { leaf, copied: words } => leaf_words(*leaf, words),
            Inner::Pointer { base, space } => format!("to type {}, space {}", self.ty(*base), copied(space)),
            Inner::Struct { size, members } => format!("of {} members, span {}", members.len(), size.value),
            Inner::Array { base, size, stride } => {
                let size = if size.value == 0 { "any number".to_owned() } else { size.value.to_string() };
                format!("of {size} of type {}, stride {}", self.ty(*base), stride.value)
            }
            Inner::BindingArray { base, size } => {
                format!("of type {}, size word {}", self.ty(*base), size.value)
            }
        };
        let span = self.span(&record.span);
        self.line(1, &format!("{}: {kind} {what}{span}", self.own(own, record.name)));
        if let Inner::Struct { members, .. } = &record.inner {
            for (own, member) in members.iter().enumerate() {
                let binding = binding(&member.binding);
                let what = format!(
                    "{}: type {}, offset {}{binding}",
                    self.own(own, member.name),
                    self.ty(member.ty),
                    member.offset.value
                );
                self.line(2, &what);
            }
        }
    }

    fn function_record(&mut self, title: &str, function: &Function) {
        let argument = |(own, argument): (usize, &Argument)| {
            format!("{}: type {}", self.own(own, argument.name), self.ty(argument.ty))
        };
        let arguments: Vec<String> = function.arguments.iter().enumerate().map(argument).collect();
        let result = match &function.result {
            Some(result) => format!(" -> type {}", self.ty(result.ty)),
            None => String::new(),
        };
        let name = self.name(function.name).unwrap_or("(unnamed)".to_owned());
        let span = self.span(&function.span);
        self.line(1, &format!("{title} {name}({}){result}{span}", arguments.join(", ")));
        if !function.locals.is_empty() {
            self.line(2, &format!("locals: {}", function.locals.len()));
        }
        for (own, local) in function.locals.iter().enumerate() {
            let (init, span) = (initialiser(local.init, "#"), self.span(&local.span));
            self.line(3, &format!("{}: type {}{init}{span}", self.own(own, local.name), self.ty(local.ty)));
        }
        if !function.expressions.is_empty() {
            self.line(2, &format!("expressions: {}", function.expressions.len()));
        }
        for (own, record) in function.expressions.iter().enumerate() {
            let shown = self.expression(function, own as u32);
            self.line(3, &format!("{shown} = {}", self.expression_record(function, record)));
        }
        self.line(2, "body:");
        self.block(function, &function.body, 3);
    }

    /// An expression by its number, and its name where it has one.
    fn expression(&self, function: &Function, number: u32) -> String {
        let named = function.named.iter().find(|named| named.expression.value == number);
        let name = named.map_or(Word::default(), |named| named.name);
        let there = (number as usize) < function.expressions.len();
        format!("#{}", self.numbered(number, there.then_some(name)))
    }

    /// An expression's kind and fields; a literal by its value and its bits.
    fn expression_record(&self, function: &Function, record: &Expression) -> String {
        let span = self.span(&record.span);
        match (record.kind.value, record.values.as_slice()) {
            (expression::LITERAL, [Value::One(code), Value::One(low), Value::One(high)]) => {
                format!("Literal {}{span}", literal_record(*code, *low, *high))
            }
            _ => format!("{}{span}", self.row(function, record.row(), &record.values)),
        }
    }

    /// A record's kind and its fields.
    fn row(&self, function: &Function, row: &Row, values: &[Value]) -> String {
        let mut what = row.name.to_owned();
        for ((key, field), value) in row.fields.iter().zip(values) {
            write!(what, " {key}={}", self.value(function, *field, value)).expect("a string takes all");
        }
        what
    }

    fn value(&self, function: &Function, field: Field, value: &Value) -> String {
        let module = self.module;
        let name_of = |name: Option<&Word>, word: &Word| self.numbered(word.value, name.copied());
        match (field, value) {
            (Field::Type, Value::One(word)) => self.ty(*word),
            (Field::Function, Value::One(word)) => self.function(word.value),
            (Field::Constant, Value::One(word)) => {
                name_of(module.constants.get(word.value as usize).map(|record| &record.name), word)
            }
            (Field::Override, Value::One(word)) => {
                name_of(module.overrides.get(word.value as usize).map(|record| &record.name), word)
            }
            (Field::Global, Value::One(word)) => {
                name_of(module.globals.get(word.value as usize).map(|record| &record.name), word)
            }
            (Field::Local, Value::One(word)) => {
                name_of(function.locals.get(word.value as usize).map(|record| &record.name), word)
            }
            (Field::Argument, Value::One(word)) => {
                name_of(function.arguments.get(word.value as usize).map(|record| &record.name), word)
            }
            (Field::Operand | Field::Result, Value::One(word)) => self.operand(function, word.value),
            (Field::OptionalOperand | Field::OptionalResult, Value::One(word)) => {
                word.optional().map_or("none".to_owned(), |number| self.operand(function, number))
            }
            (_, Value::List(words)) => {
                let list: Vec<String> = words.iter().map(|word| self.operand(function, word.value)).collect();
                format!("[{}]", list.join(", "))
            }
            (Field::Variant(rows), Value::Variant(code, inner)) => {
                self.variant(function, &rows[code.value as usize], inner)
            }
            _ => spelled(field, value),
        }
    }

    /// A variant's name, and its fields in parentheses.
    fn variant(&self, function: &Function, row: &Row, values: &[Value]) -> String {
        let fields = row.fields.iter().zip(values);
        let fields: Vec<String> = fields
            .map(|((key, field), value)| format!("{key}={}", self.value(function, *field, value)))
            .collect();
        match fields.is_empty() {
            true => row.name.to_owned(),
            false => format!("{}({})", row.name, fields.join(", ")),
        }
    }

    /// An operand: of a function's expression with its name; of a global expression (no function) its number.
    fn operand(&self, function: &Function, number: u32) -> String {
        match function.expressions.is_empty() {
            true => format!("#{number}"),
            false => self.expression(function, number),
        }
    }

    fn block(&mut self, function: &Function, block: &Block, depth: usize) {
        if block.is_empty() {
            self.line(depth, "(empty)");
        }
        for statement in block {
            self.statement(function, statement, depth);
        }
    }

    fn statement(&mut self, function: &Function, statement: &Statement, depth: usize) {
        let span = self.span(&statement.span);
        match &statement.body {
            Body::Emit { start, end } => {
                self.line(depth, &format!("Emit {}..{}{span}", start.value, end.value))
            }
            Body::Block(block) => {
                self.line(depth, &format!("Block{span}"));
                self.block(function, block, depth + 1);
            }
            Body::If { condition, accept, reject } => {
                self.line(depth, &format!("If {}{span}", self.operand(function, condition.value)));
                self.block(function, accept, depth + 1);
                self.line(depth, "else");
                self.block(function, reject, depth + 1);
            }
            Body::Switch { selector, cases } => {
                self.line(depth, &format!("Switch {}{span}", self.operand(function, selector.value)));
                for case in cases {
                    self.case(function, case, depth + 1);
                }
            }
            Body::Loop { body, continuing, break_if } => {
                self.line(depth, &format!("Loop{span}"));
                self.block(function, body, depth + 1);
                self.line(depth, "continuing");
                self.block(function, continuing, depth + 1);
                if let Some(number) = break_if.optional() {
                    self.line(depth, &format!("break_if {}", self.operand(function, number)));
                }
            }
            Body::Plain(values) => {
                let what = self.row(function, statement.row(), values);
                self.line(depth, &format!("{what}{span}"));
            }
        }
    }

    fn case(&mut self, function: &Function, case: &Case, depth: usize) {
        let value = spelled(Field::Variant(fields::CASE_VALUES), &case.value);
        let falls = if case.fall_through.value == 0 { "" } else { ", falls through" };
        self.line(depth, &format!("case {value}{falls}"));
        self.block(function, &case.body, depth + 1);
    }

    fn entry_point(&mut self, own: usize, entry: &EntryPoint) {
        let name = self.name(entry.name).unwrap_or("(unnamed)".to_owned());
        let (early, workgroup) = (copied(&entry.early_depth), copied(&entry.workgroup));
        let stage = entry.stage.value;
        let what = format!("{own} {name}: stage {stage}, early depth {early}, workgroup {workgroup}");
        self.line(1, &what);
        self.function_record("function", &entry.function);
    }

    fn special(&mut self) {
        let special = &self.module.special;
        self.line(0, &format!("special types, pairs: {}", special.pairs.len()));
        for (key, place) in PLACES.iter().zip(special.places) {
            if let Some(value) = place.optional() {
                self.line(1, &format!("{key}: type {}", self.ty(Word { at: place.at, value })));
            }
        }
        for (key, ty) in &special.pairs {
            self.line(1, &format!("key {}: type {}", key.value, self.ty(*ty)));
        }
    }

    /// The order of functions when linked, or the functions that a ring keeps from having one.
    fn order(&mut self) {
        if let Some(rings) = crate::rings(self.module) {
            self.line(0, &format!("order when linked: refused 12 left {}", rings.left.len()));
            for told in rings_told(self.module, &rings) {
                self.line(1, &told);
            }
            return;
        }
        match crate::order_of(self.module) {
            Ok(order) if !order.is_empty() => {
                self.line(0, &format!("order when linked: {}", self.functions(&order).join(", ")));
            }
            _ => (),
        }
    }
}

/// The functions that a ring leaves without an order, and one ring, in a line each.
pub fn rings_told(module: &Module, rings: &Rings) -> [String; 2] {
    let listing = Listing { module, options: Options::default(), text: &mut String::new() };
    let mut ring = listing.functions(&rings.ring);
    ring.push(ring[0].clone());
    [format!("left: {}", listing.functions(&rings.left).join(", ")), format!("a ring: {}", ring.join(" -> "))]
}

/// A leaf type by its name, and its copied words by theirs.
fn leaf_words(leaf: Word, words: &[Word]) -> String {
    let number = leaf.value as usize;
    let Some(name) = LEAF_TYPES.get(number) else {
        return format!("{number} (not there) {}", copied(words));
    };
    let mut rest = words;
    let mut text = (*name).to_owned();
    leaf_fields(&mut text, LEAF_WORDS[number], &mut rest);
    if rest.iter().any(|word| word.value != 0) {
        write!(text, " and {}", copied(rest)).expect("a string takes all");
    }
    text
}

/// Fields of a leaf from the words that are left. A class that is none leaves the words behind it unnamed.
fn leaf_fields(text: &mut String, fields: &[(&str, Field)], rest: &mut &[Word]) {
    for (key, field) in fields {
        let Some((word, behind)) = rest.split_first() else { return };
        *rest = behind;
        let value = Value::One(*word);
        match field {
            Field::Variant(rows) => {
                let row = rows.get(word.value as usize);
                let name = row.map_or(word.value.to_string(), |row| row.name.to_owned());
                write!(text, " {key}={name}").expect("a string takes all");
                leaf_fields(text, row.map_or(&[], |row| row.fields), rest);
            }
            _ => write!(text, " {key}={}", spelled(*field, &value)).expect("a string takes all"),
        }
    }
}

/// A literal's code, its value, and its bits.
fn literal_record(code: Word, low: Word, high: Word) -> String {
    let bits = u64::from(high.value) << 32 | u64::from(low.value);
    let [(_, codes), ..] = fields::EXPRESSIONS[expression::LITERAL as usize].fields else {
        unreachable!("a literal has a code")
    };
    let name = spelled(*codes, &Value::One(code));
    match literal(code.value, bits) {
        Some(value) => format!("{name} {value} (bits 0x{bits:x})"),
        None => format!("{name} of no value (bits 0x{bits:x})"),
    }
}

/// The value of a literal as WGSL and naga write it (1.0f, 3u), where its bits have one.
pub fn literal(code: u32, bits: u64) -> Option<String> {
    let narrow = u32::try_from(bits).ok();
    Some(match code {
        0 => format!("{:?}lf", f64::from_bits(bits)),
        1 => format!("{:?}f", f32::from_bits(narrow?)),
        2 => format!("{:?}h", half(u16::try_from(bits).ok()?)),
        3 => format!("{}u", narrow?),
        4 => format!("{}i", narrow? as i32),
        5 => format!("{bits}lu"),
        6 => format!("{}li", bits as i64),
        7 => match bits {
            0 => "false".to_owned(),
            1 => "true".to_owned(),
            _ => return None,
        },
        8 => (bits as i64).to_string(),
        9 => format!("{:?}", f64::from_bits(bits)),
        _ => return None,
    })
}

/// A half-precision number, which every f32 holds exactly.
fn half(bits: u16) -> f32 {
    let sign = if bits >> 15 == 0 { 1.0 } else { -1.0 };
    let (exponent, fraction) = (i32::from(bits >> 10 & 31), f32::from(bits & 1023));
    sign * match exponent {
        0 => fraction * 2f32.powi(-24),
        31 if fraction == 0.0 => f32::INFINITY,
        31 => f32::NAN,
        _ => (1024.0 + fraction) * 2f32.powi(exponent - 25),
    }
}

fn copied(words: &[Word]) -> String {
    let words: Vec<String> = words.iter().map(|word| word.value.to_string()).collect();
    words.join(" ")
}

/// A binding that is not all zeros.
fn binding(words: &Binding) -> String {
    match words.iter().all(|word| word.value == 0) {
        true => String::new(),
        false => format!(", binding {}", copied(words)),
    }
}

/// An optional initialiser behind an equals sign.
fn initialiser(word: Word, what: &str) -> String {
    word.optional().map_or(String::new(), |number| format!(" = {what}{number}"))
}
