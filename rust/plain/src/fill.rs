//! Sessions at their limits: tables and images that are full, and sources that are deep.
//!
//! A table is filled by two sources, each with a record that refers to all that the source has of the table, so that
//! one import brings them. An image is filled by functions of as many words as are wanted.

use crate::cases::{self, word};
use crate::deep::{module, pointers, Depths};
use crate::fields::{expression, limit, statement};
use crate::generate_session::{given, Draft, Generated};
use crate::module::*;
use crate::random::Random;
use crate::steps::operation;

/// For every limit a session that meets it at its last step, and one that passes it there; with each the answer of
/// that step.
pub fn limits() -> Vec<(Generated, u32)> {
    let mut random = Random::new(0);
    let mut sessions = Vec::new();
    for (over, answer) in [(0, 0), (1, 21)] {
        for filling in &FILLING {
            let mut draft = Draft::new(&mut random, &format!("{} {}", filling.table, filling.most + over));
            let all = filling.most - 2 * filling.more + over;
            draft.fill_table(&mut random, filling, [0..all / 2, all / 2..all]);
            sessions.push((draft.done(), answer));
        }
        for last in [Last::Function, Last::EntryPoint, Last::SpecialType] {
            let mut draft = Draft::new(&mut random, &format!("image of {} words, {last:?}", WORDS + over));
            draft.made.output = limit::BYTES;
            draft.fill_image(&mut random, last, WORDS + over);
            sessions.push((draft.done(), answer));
        }
    }
    sessions
}

// ---- tables that are full ----

/// Two sources that share some records of one table and together have about as many as the table takes, each brought
/// by one step; and a third with a few more, one by one.
pub fn full_table(random: &mut Random) -> Generated {
    let filling = random.pick(&FILLING);
    let mut draft = Draft::new(random, &format!("full table of {}", filling.table));
    let all = filling.most + random.below(8) - 6;
    let first = random.between(all / 3, all * 2 / 3);
    let shared = random.below(20);
    draft.fill_table(random, filling, [0..first, first - shared..all]);
    let few = draft.set_new(random, (filling.source)(all - 4..all + 8));
    for _ in 0..random.below(12) {
        if let Some((operation, count)) = filling.single {
            let name = given(random, few.names.len());
            draft.step(operation, given(random, count(&few)), name, 0);
        }
    }
    draft.some_steps(random, 12);
    draft.done()
}

impl Draft {
    /// Sets a source for each of these ranges and brings all of its records.
    pub(crate) fn fill_table(
        &mut self,
        random: &mut Random,
        filling: &Filling,
        ranges: [std::ops::Range<usize>; 2],
    ) {
        for numbers in ranges {
            let source = self.set_new(random, (filling.source)(numbers));
            if let Some((operation, count)) = filling.bulk {
                self.step(operation, count(&source) as u32 - 1, 0, 0);
            }
        }
    }
}

/// An import and the count of the records that it may be given.
type Import = (u32, fn(&Module) -> usize);

/// How a table is filled.
pub(crate) struct Filling {
    table: &'static str,
    pub most: usize,
    /// A source that has the records of these numbers.
    pub source: fn(std::ops::Range<usize>) -> Module,
    /// The import whose last record brings all of them; special types come with the source itself.
    bulk: Option<Import>,
    /// The import that brings one.
    pub single: Option<Import>,
    /// The records that such a source has beside those of its numbers.
    pub more: usize,
}

const IMPORT_TYPE: Import = (operation::IMPORT_TYPE, |module| module.types.len());
const RENAME_TYPE: Import = (operation::RENAME_TYPE, |module| module.types.len());
const IMPORT_CONST: Import = (operation::IMPORT_CONST, |module| module.constants.len());
const IMPORT_PIPELINE_OVERRIDE: Import =
    (operation::IMPORT_PIPELINE_OVERRIDE, |module| module.overrides.len());
const IMPORT_GLOBAL: Import = (operation::IMPORT_GLOBAL, |module| module.globals.len());
const IMPORT_GLOBAL_EXPRESSION: Import =
    (operation::IMPORT_GLOBAL_EXPRESSION, |module| module.expressions.len());
const IMPORT_FUNCTION: Import = (operation::IMPORT_FUNCTION, |module| module.functions.len());
const IMPORT_FUNCTION_IF_NEW: Import = (operation::IMPORT_FUNCTION_IF_NEW, |module| module.functions.len());
const MAP_FUNCTION_HANDLE: Import = (operation::MAP_FUNCTION_HANDLE, |module| module.functions.len());

const fn filling(
    table: &'static str,
    source: fn(std::ops::Range<usize>) -> Module,
    bulk: Option<Import>,
    single: Option<Import>,
) -> Filling {
    Filling { table, most: limit::RECORDS as usize, source, bulk, single, more: 0 }
}

pub(crate) const FILLING: [Filling; 10] = [
    filling("names", names_source, Some(IMPORT_TYPE), Some(RENAME_TYPE)),
    filling("types", types_source, Some(IMPORT_FUNCTION), Some(IMPORT_TYPE)),
    filling("constants", constants_source, Some(IMPORT_FUNCTION), Some(IMPORT_CONST)),
    filling("overrides", overrides_source, Some(IMPORT_FUNCTION), Some(IMPORT_PIPELINE_OVERRIDE)),
    filling("globals", globals_source, Some(IMPORT_FUNCTION), Some(IMPORT_GLOBAL)),
    Filling {
        more: 1,
        ..filling(
            "global expressions",
            expressions_source,
            Some(IMPORT_GLOBAL_EXPRESSION),
            Some(IMPORT_GLOBAL_EXPRESSION),
        )
    },
    filling("special types", pairs_source, None, None),
    OF_FUNCTIONS,
    Filling { single: Some(IMPORT_FUNCTION_IF_NEW), ..OF_FUNCTIONS },
    Filling { single: Some(MAP_FUNCTION_HANDLE), ..OF_FUNCTIONS },
];

/// The table of functions, filled by each of the imports that append to it.
const OF_FUNCTIONS: Filling = Filling {
    most: limit::FUNCTIONS as usize,
    more: 1,
    ..filling("functions", functions_source, Some(MAP_FUNCTION_HANDLE), Some(IMPORT_FUNCTION))
};

/// One struct after the other whose members bear the names, and a struct of all of them.
fn names_source(numbers: std::ops::Range<usize>) -> Module {
    let name = |own: usize| Name { at: 0, bytes: format!("n{own}").into_bytes() };
    let names: Vec<Name> = numbers.map(name).collect();
    let mut types = vec![cases::leaf()];
    let member = |name: usize, ty: usize| Member {
        name: word(name),
        ty: word(ty),
        offset: word(0),
        binding: Binding::default(),
    };
    let all: Vec<usize> = (1..=names.len()).collect();
    for some in all.chunks(limit::MEMBERS as usize) {
        types.push(cases::of_members(some.iter().map(|name| member(*name, 0)).collect()));
    }
    types.push(cases::of_members((1..types.len()).map(|ty| member(0, ty)).collect()));
    Module { names, types, ..Module::default() }
}

/// A function that reads the records, each by an expression of this kind.
fn reading(module: Module, kind: u32, count: usize) -> Module {
    let read = |own: usize| cases::of_kind(kind, vec![Value::One(word(own))]);
    let mut expressions: Vec<Expression> = (0..count).map(read).collect();
    let operands = (0..count).map(cases::word).collect();
    expressions.push(cases::of_kind(expression::COMPOSE, vec![Value::One(word(0)), Value::List(operands)]));
    let function = Function { expressions, body: vec![cases::emit(count, count + 1)], ..cases::named() };
    Module { functions: vec![function], ..module }
}

fn types_source(numbers: std::ops::Range<usize>) -> Module {
    let count = numbers.len();
    let types = numbers.map(cases::leaf_of).collect();
    reading(Module { types, ..cases::base() }, expression::ZERO_VALUE, count)
}

/// Constants of 32 types and as many initialisers as are needed, so that those tables do not fill.
fn constants_source(numbers: std::ops::Range<usize>) -> Module {
    let count = numbers.len();
    let constant = |own: usize| Constant { ty: word(own % 32), init: word(own / 32), ..cases::constant() };
    let module = Module {
        types: (0..32).map(cases::leaf_of).collect(),
        expressions: (0..20).map(cases::literal).collect(),
        constants: numbers.map(constant).collect(),
        ..cases::base()
    };
    reading(module, expression::CONSTANT, count)
}

fn overrides_source(numbers: std::ops::Range<usize>) -> Module {
    let count = numbers.len();
    let record = |own: usize| Override { id: word(own), ..cases::override_record() };
    reading(Module { overrides: numbers.map(record).collect(), ..cases::base() }, expression::OVERRIDE, count)
}

fn globals_source(numbers: std::ops::Range<usize>) -> Module {
    let count = numbers.len();
    let record = |own: usize| Global { binding: [word(own); 3], ..cases::global() };
    let globals = numbers.map(record).collect();
    reading(Module { globals, ..cases::base() }, expression::GLOBAL_VARIABLE, count)
}

/// Literals and a Compose of them.
fn expressions_source(numbers: std::ops::Range<usize>) -> Module {
    let operands = (0..numbers.len()).map(cases::word).collect();
    let mut expressions: Vec<Expression> = numbers.map(cases::literal).collect();
    expressions.push(cases::of_kind(expression::COMPOSE, vec![Value::One(word(0)), Value::List(operands)]));
    Module { expressions, ..cases::base() }
}

/// Functions and one that calls all of them.
fn functions_source(numbers: std::ops::Range<usize>) -> Module {
    let (start, count) = (numbers.start, numbers.len());
    let mut module =
        cases::functions(count + 1, |own| if own == count { (0..count).collect() } else { Vec::new() });
    for (own, name) in module.names.iter_mut().enumerate() {
        name.bytes = format!("n{}", start + own).into_bytes();
    }
    module.names[count].bytes = format!("all {start}").into_bytes();
    module
}

fn pairs_source(numbers: std::ops::Range<usize>) -> Module {
    let pairs = numbers.map(|key| (word(key), word(0))).collect();
    Module { special: Special { pairs, ..Special::default() }, ..cases::base() }
}

// ---- an image that is full ----

/// Words of an image at most.
pub(crate) const WORDS: usize = limit::BYTES / 4;

/// Words of a header with special types, of a name of one letter with its offset, of a function without statements, of
/// an entry point before its function, and of a leaf with its offset.
const EMPTY: usize = 23;
const NAME: usize = 3;
const FUNCTION: usize = 9;
const ENTRY_POINT: usize = 7;
const LEAF: usize = 12;

/// What brings the last words of a full image.
#[derive(Clone, Copy, Debug)]
pub(crate) enum Last {
    Function,
    EntryPoint,
    SpecialType,
}

/// An image of about as many words as an image may have.
pub fn full_image(random: &mut Random) -> Generated {
    let mut draft = Draft::new(random, "full image");
    let last = *random.pick(&[Last::Function, Last::EntryPoint, Last::SpecialType]);
    let total = WORDS + random.below(5) - 2;
    draft.fill_image(random, last, total);
    draft.some_steps(random, 6);
    draft.done()
}

impl Draft {
    /// One function that is imported, and then what makes the image one of so many words.
    pub(crate) fn fill_image(&mut self, random: &mut Random, last: Last, total: usize) {
        let rest = total - EMPTY - NAME - 1;
        let (first, before) = match last {
            Last::Function => (random.between(100, rest - 200), NAME + 1),
            Last::EntryPoint => (random.between(100, rest - 200), NAME + 1 + ENTRY_POINT),
            Last::SpecialType => (rest - LEAF, 0),
        };
        let names = |text: &str| vec![Name { at: 0, bytes: text.as_bytes().to_vec() }];
        let functions = vec![heavy(first)];
        self.set_new(random, Module { names: names("a"), functions, ..Module::default() });
        self.step(operation::IMPORT_FUNCTION, 0, 0, 0);
        match last {
            Last::Function => {
                let functions = vec![heavy(rest - first - before)];
                self.set_new(random, Module { names: names("b"), functions, ..Module::default() });
                self.step(operation::IMPORT_FUNCTION, 0, 0, 0);
            }
            Last::EntryPoint => {
                let function = Function { name: 0.into(), ..heavy(rest - first - before) };
                let entry_points = vec![EntryPoint { name: 1.into(), function, ..EntryPoint::default() }];
                self.set_new(random, Module { names: names("b"), entry_points, ..Module::default() });
                self.step(operation::FINISH_WITH_ENTRY_POINTS, 0, self.made.output as u32, 0);
            }
            Last::SpecialType => {
                let special = Special { places: [0.into(), 1.into(), 0.into()], ..Special::default() };
                self.set_new(random, Module { special, ..cases::base() });
            }
        }
    }
}

/// A function whose record has exactly so many words: Kills of four words and barriers of five.
fn heavy(words: usize) -> Function {
    let rest = words - FUNCTION;
    let kills = (5 - rest % 5) % 5;
    let kill = cases::made(statement::KILL, Body::Plain(Vec::new()));
    let mut body = vec![kill; kills];
    body.extend(vec![cases::barrier(); (rest - 4 * kills) / 5]);
    Function { body, ..cases::named() }
}

// ---- sources that are deep ----

/// A source in which one import leads through a long chain.
pub fn deep(random: &mut Random) -> Generated {
    let mut draft = Draft::new(random, "deep source");
    let (module, operation, number) = match random.below(5) {
        0 => {
            let (count, depth) = *random.pick(&[(256, 9), (150, 17), (80, 32)]);
            (deep_calls(count, depth), operation::IMPORT_FUNCTION, 0)
        }
        1 => (deep_types(), operation::IMPORT_TYPE, limit::RECORDS - 1),
        2 => {
            let expressions = limit::RECORDS as usize;
            (deep_constants(expressions), operation::IMPORT_GLOBAL_EXPRESSION, limit::RECORDS - 1)
        }
        3 => (deep_initialiser(limit::EXPRESSIONS as usize), operation::IMPORT_FUNCTION, 0),
        _ => {
            let depths = Depths {
                functions: random.between(1, 150),
                initialisers: random.between(1, 400),
                constants: random.between(1, 200),
                types: random.between(1, 200),
            };
            (module(depths), operation::MAP_FUNCTION_HANDLE, 0)
        }
    };
    draft.set_new(random, module);
    draft.step(operation, number, 0, 0);
    draft.some_steps(random, 6);
    draft.done()
}

/// So many functions, each of which calls the next at this depth.
fn deep_calls(count: usize, depth: usize) -> Module {
    let callee = |own: usize| if own + 1 < count { vec![own + 1] } else { Vec::new() };
    let mut module = cases::functions(count, callee);
    for function in &mut module.functions {
        for _ in 1..depth {
            let inner = std::mem::take(&mut function.body);
            function.body = vec![cases::made(statement::BLOCK, Body::Block(inner))];
        }
    }
    module
}

/// Pointers to pointers.
fn deep_types() -> Module {
    Module { types: pointers(limit::RECORDS as usize), ..cases::base() }
}

/// Expressions that name constants that have the expressions before them as their inits.
fn deep_constants(count: usize) -> Module {
    let constants = (1..count).map(|own| Constant { init: word(own - 1), ..cases::constant() }).collect();
    let named = |own: usize| cases::of_kind(expression::CONSTANT, vec![Value::One(word(own - 1))]);
    let mut expressions = vec![cases::literal(0)];
    expressions.extend((1..count).map(named));
    Module { constants, expressions, ..cases::base() }
}

/// A local whose initialiser is the end of a chain of so many expressions.
fn deep_initialiser(count: usize) -> Module {
    cases::one(cases::initialised_locals(1, count))
}
