//! derive.rs: a module derived from sources, record by record.
//!
//! Its operations are total, as in the Rust: they expect a source that is set and numbers that it has, follow no
//! ring and know no limit. [`crate::session`] tests all that around them. Here are the tables: a record is carried
//! into the derived module by importing what it refers to, in the order of the Rust's fields, and merges with a
//! record that is equal, spans apart. Functions follow in [`crate::localize`], the finished image in
//! [`crate::finish`].

use std::collections::{BTreeSet, HashMap};
use std::rc::Rc;

use crate::fields::{Field, Row};
use crate::localize::Localized;
use crate::module::*;
use crate::order::callees;
use crate::write;

/// From source numbers to derived numbers; none for what was not imported.
pub type Map = Vec<Option<u32>>;

/// The maps of a source's tables. Functions are known by name instead.
#[derive(Clone, Debug, Default)]
pub struct Maps {
    pub types: Map,
    pub constants: Map,
    pub overrides: Map,
    pub globals: Map,
    pub expressions: Map,
}

impl Maps {
    /// Maps that hold nothing yet.
    fn of(module: &Module) -> Self {
        Maps {
            types: vec![None; module.types.len()],
            constants: vec![None; module.constants.len()],
            overrides: vec![None; module.overrides.len()],
            globals: vec![None; module.globals.len()],
            expressions: vec![None; module.expressions.len()],
        }
    }
}

/// A source that is set: a module that intake admitted.
pub(crate) struct Source {
    pub module: Module,
    pub span_offset: u32,
    /// What each function of the table calls.
    pub callees: Vec<BTreeSet<u32>>,
}

impl Source {
    pub fn new(module: Module, span_offset: u32) -> Self {
        let callees = module.functions.iter().map(|function| callees(&function.body)).collect();
        Source { module, span_offset, callees }
    }

    /// The text of a function's name, which intake asks for.
    pub fn function_name(&self, function: u32) -> &[u8] {
        let name = self.module.functions[function as usize].name.optional().expect("a function is named");
        &self.module.names[name as usize].bytes
    }
}

/// A record that merges.
pub(crate) trait Merging: Clone {
    fn span(&mut self) -> &mut Span;
    /// Its words.
    fn put(&self, out: &mut Vec<u32>);
}

macro_rules! merging {
    ($record:ty, $put:path) => {
        impl Merging for $record {
            fn span(&mut self) -> &mut Span {
                &mut self.span
            }
            fn put(&self, out: &mut Vec<u32>) {
                $put(self, out)
            }
        }
    };
}

merging!(Type, write::ty);
merging!(Constant, write::constant);
merging!(Override, write::override_record);
merging!(Global, write::global);
merging!(Expression, write::expression);

/// A derived table, with the number of each record by its words, the span left out.
#[derive(Clone)]
pub(crate) struct Table<T> {
    pub records: Vec<T>,
    numbers: HashMap<Vec<u32>, u32>,
}

impl<T> Default for Table<T> {
    fn default() -> Self {
        Table { records: Vec::new(), numbers: HashMap::new() }
    }
}

impl<T: Merging> Table<T> {
    /// The number of the first record that is equal, spans apart; without one this record is appended.
    pub fn merge(&mut self, mut record: T) -> u32 {
        let span = std::mem::take(record.span());
        let mut words = Vec::new();
        record.put(&mut words);
        *record.span() = span;
        let next = self.records.len() as u32;
        let number = *self.numbers.entry(words).or_insert(next);
        if number == next {
            self.records.push(record);
        }
        number
    }

    /// Appends a record whether or not an equal one is there; nothing merges with it.
    pub fn append(&mut self, record: T) -> u32 {
        self.records.push(record);
        self.records.len() as u32 - 1
    }
}

/// Names by their text. Records hold the number here, plus 1; finishing numbers them anew.
#[derive(Clone, Default)]
pub(crate) struct Names {
    pub texts: Vec<Rc<[u8]>>,
    numbers: HashMap<Rc<[u8]>, u32>,
}

impl Names {
    fn intern(&mut self, text: &[u8]) -> u32 {
        if let Some(number) = self.numbers.get(text) {
            return *number;
        }
        let (text, number) = (Rc::<[u8]>::from(text), self.texts.len() as u32);
        self.texts.push(text.clone());
        self.numbers.insert(text, number);
        number
    }
}

/// The Rust's `DerivedModule`.
#[derive(Clone, Default)]
pub(crate) struct Derived {
    pub shader: Option<Rc<Source>>,
    pub maps: Maps,
    /// The function that a name stands for: the last one derived of that name.
    pub function_map: HashMap<Vec<u8>, u32>,
    pub names: Names,
    pub types: Table<Type>,
    pub constants: Table<Constant>,
    pub overrides: Table<Override>,
    pub globals: Table<Global>,
    pub expressions: Table<Expression>,
    pub functions: Vec<Rc<Localized>>,
    pub special: Special,
}

impl Derived {
    /// Sets a source and imports its special types, in order. One whose place or key is already derived maps to the
    /// derived type, whatever it was mapped to before.
    pub fn set_shader_source(&mut self, source: Source) {
        self.clear_shader_source();
        let source = Rc::new(source);
        self.maps = Maps::of(&source.module);
        self.shader = Some(source.clone());
        let special = &source.module.special;
        for (own, place) in special.places.iter().enumerate() {
            if let Some(ty) = place.optional() {
                match self.special.places[own].optional() {
                    Some(derived) => self.maps.types[ty as usize] = Some(derived),
                    None => self.special.places[own] = (self.import_type(ty) + 1).into(),
                }
            }
        }
        for (key, ty) in &special.pairs {
            let pair = self.special.pairs.iter().find(|(derived, _)| derived.value == key.value);
            match pair {
                Some((_, derived)) => self.maps.types[ty.value as usize] = Some(derived.value),
                None => {
                    let derived = self.import_type(ty.value);
                    self.special.pairs.push((*key, derived.into()));
                }
            }
        }
    }

    /// Empties every map but that of functions.
    pub fn clear_shader_source(&mut self) {
        self.shader = None;
        self.maps = Maps::default();
    }

    /// The source that is set.
    pub fn source(&self) -> Rc<Source> {
        self.shader.clone().expect("a source is set")
    }

    /// The undefined span stays; to any other the offset is added, modulo 2 to the 32.
    pub fn map_span(&self, start: u32, end: u32) -> (u32, u32) {
        let offset = self.shader.as_ref().expect("a source is set").span_offset;
        match (start, end) {
            (0, 0) => (0, 0),
            (start, end) => (start.wrapping_add(offset), end.wrapping_add(offset)),
        }
    }

    pub fn shifted(&self, span: Span) -> Span {
        let (start, end) = self.map_span(span[0].value, span[1].value);
        [start.into(), end.into()]
    }

    /// An optional name of the source, by its text.
    pub fn import_name(&mut self, name: Word) -> Word {
        let Some(number) = name.optional() else { return 0.into() };
        let source = self.source();
        (self.names.intern(&source.module.names[number as usize].bytes) + 1).into()
    }

    pub fn import_type(&mut self, ty: u32) -> u32 {
        self.rename_type(ty, None)
    }

    /// Imports a type under another name of the source, if one is given. A type that is mapped keeps its mapping.
    pub fn rename_type(&mut self, ty: u32, name: Option<u32>) -> u32 {
        if let Some(derived) = self.maps.types[ty as usize] {
            return derived;
        }
        let source = self.source();
        let old = &source.module.types[ty as usize];
        let inner = self.import_inner(&old.inner);
        let name = name.map_or(old.name, |name| (name + 1).into());
        let record = Type { name: self.import_name(name), span: self.shifted(old.span), inner };
        let derived = self.types.merge(record);
        self.maps.types[ty as usize] = Some(derived);
        derived
    }

    fn import_inner(&mut self, inner: &Inner) -> Inner {
        match inner {
            Inner::Leaf { .. } => inner.clone(),
            Inner::Pointer { base, space } => {
                Inner::Pointer { base: self.import_type(base.value).into(), space: *space }
            }
            Inner::Struct { size, members } => {
                let members = members.iter().map(|member| self.import_member(member)).collect();
                Inner::Struct { size: *size, members }
            }
            Inner::Array { base, size, stride } => {
                Inner::Array { base: self.import_type(base.value).into(), size: *size, stride: *stride }
            }
            Inner::BindingArray { base, size } => {
                Inner::BindingArray { base: self.import_type(base.value).into(), size: *size }
            }
        }
    }

    fn import_member(&mut self, member: &Member) -> Member {
        Member {
            name: self.import_name(member.name),
            ty: self.import_type(member.ty.value).into(),
            offset: member.offset,
            binding: member.binding,
        }
    }

    pub fn import_const(&mut self, constant: u32) -> u32 {
        if let Some(derived) = self.maps.constants[constant as usize] {
            return derived;
        }
        let source = self.source();
        let old = &source.module.constants[constant as usize];
        let record = Constant {
            name: self.import_name(old.name),
            span: self.shifted(old.span),
            ty: self.import_type(old.ty.value).into(),
            init: self.import_global_expression(old.init.value).into(),
        };
        let derived = self.constants.merge(record);
        self.maps.constants[constant as usize] = Some(derived);
        derived
    }

    pub fn import_pipeline_override(&mut self, number: u32) -> u32 {
        if let Some(derived) = self.maps.overrides[number as usize] {
            return derived;
        }
        let source = self.source();
        let old = &source.module.overrides[number as usize];
        let record = Override {
            name: self.import_name(old.name),
            span: self.shifted(old.span),
            id: old.id,
            ty: self.import_type(old.ty.value).into(),
            init: self.import_init(old.init),
        };
        let derived = self.overrides.merge(record);
        self.maps.overrides[number as usize] = Some(derived);
        derived
    }

    pub fn import_global(&mut self, global: u32) -> u32 {
        if let Some(derived) = self.maps.globals[global as usize] {
            return derived;
        }
        let source = self.source();
        let old = &source.module.globals[global as usize];
        let record = Global {
            name: self.import_name(old.name),
            span: self.shifted(old.span),
            space: old.space,
            binding: old.binding,
            ty: self.import_type(old.ty.value).into(),
            init: self.import_init(old.init),
            decorations: old.decorations,
        };
        let derived = self.globals.merge(record);
        self.maps.globals[global as usize] = Some(derived);
        derived
    }

    /// An optional global expression.
    fn import_init(&mut self, init: Word) -> Word {
        match init.optional() {
            None => 0.into(),
            Some(expression) => (self.import_global_expression(expression) + 1).into(),
        }
    }

    pub fn import_global_expression(&mut self, expression: u32) -> u32 {
        if let Some(derived) = self.maps.expressions[expression as usize] {
            return derived;
        }
        let source = self.source();
        let old = &source.module.expressions[expression as usize];
        let values = carried(old.row(), &old.values, &mut |field, number| match field {
            Field::Operand => self.import_global_expression(number),
            _ => self.import_outer(field, number),
        });
        let record = Expression { kind: old.kind, span: self.shifted(old.span), values };
        let derived = self.expressions.merge(record);
        self.maps.expressions[expression as usize] = Some(derived);
        derived
    }

    /// What a word of an expression or a statement refers to outside its own table of expressions. Copied words,
    /// codes, arguments and locals stay.
    pub fn import_outer(&mut self, field: Field, number: u32) -> u32 {
        match field {
            Field::Type => self.import_type(number),
            Field::Constant => self.import_const(number),
            Field::Override => self.import_pipeline_override(number),
            Field::Global => self.import_global(number),
            Field::Function => self.map_function_handle(number),
            _ => number,
        }
    }
}

/// The values of a row with each word as `import` gives it, in field order. An expression that is referred to, be
/// it an operand or a result, is an [`Field::Operand`] here, and none stays none.
pub(crate) fn carried(row: &Row, values: &[Value], import: &mut impl FnMut(Field, u32) -> u32) -> Vec<Value> {
    let mut new = Vec::new();
    for ((_, field), value) in row.fields.iter().zip(values) {
        new.push(match (field, value) {
            (Field::Variant(rows), Value::Variant(code, inner)) => {
                Value::Variant(*code, carried(&rows[code.value as usize], inner, import))
            }
            (_, Value::List(operands)) => {
                Value::List(operands.iter().map(|word| import(Field::Operand, word.value).into()).collect())
            }
            (Field::OptionalOperand | Field::OptionalResult, Value::One(word)) => {
                let number = word.optional().map_or(0, |number| import(Field::Operand, number) + 1);
                Value::One(number.into())
            }
            (Field::Result, Value::One(word)) => Value::One(import(Field::Operand, word.value).into()),
            (field, Value::One(word)) => Value::One(import(*field, word.value).into()),
            _ => unreachable!("a value follows its field"),
        });
    }
    new
}
