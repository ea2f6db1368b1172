//! Tests 3, 4 and 5 over a module that was read, and intake as a whole.
//!
//! Each test goes over the whole image before the next one starts, so a refusal is the first test that fails
//! anywhere. Within a test the first place in the walk below is the one reported.

use std::collections::HashSet;

use crate::fields::{self, expression, Field};
use crate::module::*;
use crate::read::read;
use crate::scope::test_6;
use crate::Refused;

/// Whether intake accepts these bytes: the tests 1 to 6.
pub fn intake(image: &[u8]) -> Result<(), Refused> {
    admit(image).map(|_| ())
}

/// The same, and the module that was read.
pub fn admit(image: &[u8]) -> Result<Module, Refused> {
    let module = read(image)?;
    test_3(&module)?;
    test_4(&module)?;
    test_5(&module)?;
    test_6(&module)?;
    Ok(module)
}

type Test = Result<(), Refused>;

/// Every function record: the table's functions, then those of the entry points.
pub(crate) fn functions(module: &Module) -> impl Iterator<Item = &Function> {
    let entries = module.entry_points.iter().map(|entry| &entry.function);
    module.functions.iter().chain(entries)
}

// ---- test 3: numbers and codes in range, kinds in their places ----

/// That a number is below the count of its table.
fn below(word: Word, count: usize, rule: &'static str) -> Test {
    if (word.value as usize) < count {
        return Ok(());
    }
    Err(Refused::at(3, word.at, rule))
}

/// The same of an optional number, which may be none.
fn none_or_below(word: Word, count: usize, rule: &'static str) -> Test {
    match word.optional() {
        None => Ok(()),
        Some(value) => below(Word { at: word.at, value }, count, rule),
    }
}

fn name(module: &Module, word: Word) -> Test {
    none_or_below(word, module.names.len(), "a name's number is below the count of names")
}

fn ty(module: &Module, word: Word) -> Test {
    below(word, module.types.len(), "a type's number is below the count of types")
}

const GLOBAL_EXPRESSION: &str = "a global expression's number is below the count of global expressions";
const EXPRESSION: &str = "an expression's number is below the count of the function's expressions";

fn test_3(module: &Module) -> Test {
    for record in &module.types {
        name(module, record.name)?;
        inner_in_range(module, &record.inner)?;
    }
    let globals = module.expressions.len();
    for record in &module.constants {
        name(module, record.name)?;
        ty(module, record.ty)?;
        below(record.init, globals, GLOBAL_EXPRESSION)?;
    }
    for record in &module.overrides {
        name(module, record.name)?;
        ty(module, record.ty)?;
        none_or_below(record.init, globals, GLOBAL_EXPRESSION)?;
    }
    for record in &module.globals {
        name(module, record.name)?;
        ty(module, record.ty)?;
        none_or_below(record.init, globals, GLOBAL_EXPRESSION)?;
    }
    global_expressions_in_range(module)?;
    for function in &module.functions {
        function_in_range(module, function)?;
    }
    for entry in &module.entry_points {
        name(module, entry.name)?;
        function_in_range(module, &entry.function)?;
    }
    special_in_range(module)
}

fn inner_in_range(module: &Module, inner: &Inner) -> Test {
    match inner {
        Inner::Leaf { leaf, .. } => below(*leaf, fields::LEAVES as usize, "a leaf's number is 0 to 8"),
        Inner::Pointer { base, .. } | Inner::Array { base, .. } | Inner::BindingArray { base, .. } => {
            ty(module, *base)
        }
        Inner::Struct { members, .. } => {
            for member in members {
                name(module, member.name)?;
                ty(module, member.ty)?;
            }
            Ok(())
        }
    }
}

fn global_expressions_in_range(module: &Module) -> Test {
    let nothing = Function::default();
    let range =
        Range { module, function: &nothing, operands: module.expressions.len(), operand: GLOBAL_EXPRESSION };
    for record in &module.expressions {
        if !fields::constant_kind(record.kind.value) {
            let rule = "a global expression is of kind 0 to 8, 16 to 18 or 20 to 22";
            return Err(Refused::at(3, record.kind.at, rule));
        }
        range.words(&record.words())?;
    }
    Ok(())
}

/// What the numbers of an expression or a statement are compared with.
struct Range<'a> {
    module: &'a Module,
    function: &'a Function,
    operands: usize,
    operand: &'static str,
}

impl Range<'_> {
    fn words(&self, words: &[(Field, Word)]) -> Test {
        words.iter().try_for_each(|(field, word)| self.word(*field, *word))
    }

    fn word(&self, field: Field, word: Word) -> Test {
        let module = self.module;
        match field {
            Field::Copied => Ok(()),
            Field::Code(names) => below(word, names.len(), "a code is one of those listed"),
            Field::Type => ty(module, word),
            Field::Constant => {
                below(word, module.constants.len(), "a constant's number is below the count of constants")
            }
            Field::Override => {
                below(word, module.overrides.len(), "an override's number is below the count of overrides")
            }
            Field::Global => {
                below(word, module.globals.len(), "a global's number is below the count of globals")
            }
            Field::Function => {
                below(word, module.functions.len(), "a function's number is below the count of functions")
            }
            Field::Argument => {
                let rule = "an argument's number is below the count of the function's arguments";
                below(word, self.function.arguments.len(), rule)
            }
            Field::Local => {
                let rule = "a local's number is below the count of the function's locals";
                below(word, self.function.locals.len(), rule)
            }
            Field::Operand | Field::Result => below(word, self.operands, self.operand),
            Field::OptionalOperand | Field::OptionalResult => {
                none_or_below(word, self.operands, self.operand)
            }
            Field::Operands | Field::Variant(_) => unreachable!("flat words hold no list and no variant"),
        }
    }
}

fn function_in_range(module: &Module, function: &Function) -> Test {
    let operands = function.expressions.len();
    let range = Range { module, function, operands, operand: EXPRESSION };
    name(module, function.name)?;
    for argument in &function.arguments {
        name(module, argument.name)?;
        ty(module, argument.ty)?;
    }
    if let Some(result) = &function.result {
        ty(module, result.ty)?;
    }
    for local in &function.locals {
        name(module, local.name)?;
        ty(module, local.ty)?;
        none_or_below(local.init, operands, EXPRESSION)?;
    }
    for record in &function.expressions {
        range.words(&record.words())?;
    }
    for named in &function.named {
        below(named.expression, operands, EXPRESSION)?;
        name(module, named.name)?;
    }
    block_in_range(&range, &function.body)?;
    initialisers_in_place(function)
}

fn block_in_range(range: &Range, block: &Block) -> Test {
    for statement in block {
        statement_in_range(range, statement)?;
    }
    Ok(())
}

fn statement_in_range(range: &Range, statement: &Statement) -> Test {
    match &statement.body {
        Body::Emit { start, end } => return emit_in_range(range, *start, *end),
        Body::If { condition, .. } => range.word(Field::Operand, *condition)?,
        Body::Switch { selector, cases } => {
            range.word(Field::Operand, *selector)?;
            for case in cases {
                below(case.fall_through, 2, "fall_through is 0 or 1")?;
            }
        }
        Body::Loop { break_if, .. } => range.word(Field::OptionalOperand, *break_if)?,
        Body::Block(_) | Body::Plain(_) => range.words(&statement.words())?,
    }
    for block in statement.blocks() {
        block_in_range(range, block)?;
    }
    Ok(())
}

fn emit_in_range(range: &Range, start: Word, end: Word) -> Test {
    if start.value > end.value {
        return Err(Refused::at(3, start.at, "an Emit's start is at most its end"));
    }
    if end.value as usize > range.operands {
        return Err(Refused::at(3, end.at, "an Emit's end is at most the count of expressions"));
    }
    Ok(())
}

/// That initialisers of locals reach only kinds that a global expression may have. Numbers are in range here.
fn initialisers_in_place(function: &Function) -> Test {
    for number in reached(function) {
        let record = &function.expressions[number as usize];
        if !fields::constant_kind(record.kind.value) {
            let rule = "a local's initialiser reaches only kinds 0 to 8, 16 to 18 and 20 to 22";
            return Err(Refused::at(3, record.kind.at, rule));
        }
    }
    Ok(())
}

/// The expressions that initialisers of locals reach, along operands as they stand, lower or not.
pub(crate) fn reached(function: &Function) -> Vec<u32> {
    let mut reached = Vec::new();
    let mut waiting: Vec<u32> =
        function.locals.iter().rev().filter_map(|local| local.init.optional()).collect();
    let mut seen = HashSet::new();
    while let Some(number) = waiting.pop() {
        if !seen.insert(number) {
            continue;
        }
        reached.push(number);
        let operands = function.expressions[number as usize].operands();
        waiting.extend(operands.iter().map(|operand| operand.number));
    }
    reached
}

fn special_in_range(module: &Module) -> Test {
    for place in module.special.places {
        none_or_below(place, module.types.len(), "a special type's number is below the count of types")?;
    }
    for (_, special) in &module.special.pairs {
        ty(module, *special)?;
    }
    Ok(())
}

// ---- test 4: references to lower numbers ----

/// That a reference made by record `own` is to a lower number.
fn lower(word: Word, own: usize, rule: &'static str) -> Test {
    below(word, own, rule).map_err(|refused| Refused { number: 4, ..refused })
}

fn test_4(module: &Module) -> Test {
    for (own, record) in module.types.iter().enumerate() {
        let rule = "a base or member of a type is a lower-numbered type";
        match &record.inner {
            Inner::Leaf { .. } => (),
            Inner::Pointer { base, .. } | Inner::Array { base, .. } | Inner::BindingArray { base, .. } => {
                lower(*base, own, rule)?
            }
            Inner::Struct { members, .. } => {
                members.iter().try_for_each(|member| lower(member.ty, own, rule))?
            }
        }
    }
    for (own, record) in module.expressions.iter().enumerate() {
        operands_lower(record, own)?;
        init_lower(module, record, own)?;
    }
    for function in functions(module) {
        for (own, record) in function.expressions.iter().enumerate() {
            operands_lower(record, own)?;
        }
    }
    Ok(())
}

fn operands_lower(record: &Expression, own: usize) -> Test {
    for operand in record.operands() {
        let word = Word { at: operand.at, value: operand.number };
        lower(word, own, "an operand has a lower number than its expression")?;
    }
    Ok(())
}

/// Where a global expression names a constant or override with an init, that init's number is lower.
fn init_lower(module: &Module, record: &Expression, own: usize) -> Test {
    let named = || record.words()[0].1;
    let init = match record.kind.value {
        expression::CONSTANT => Some(module.constants[named().value as usize].init.value),
        expression::OVERRIDE => module.overrides[named().value as usize].init.optional(),
        _ => None,
    };
    let rule = "a global expression that names a constant or override has a higher number than its init";
    match init {
        Some(value) => lower(Word { at: named().at, value }, own, rule),
        None => Ok(()),
    }
}

// ---- test 5: names that are there, and distinct ----

/// That no key stands twice.
fn distinct<K: std::hash::Hash + Eq>(keys: impl Iterator<Item = (usize, K)>, rule: &'static str) -> Test {
    let mut seen = HashSet::new();
    for (at, key) in keys {
        if !seen.insert(key) {
            return Err(Refused::at(5, at, rule));
        }
    }
    Ok(())
}

/// That an optional name is there.
fn there(name: Word, rule: &'static str) -> Test {
    if name.value == 0 {
        return Err(Refused::at(5, name.at, rule));
    }
    Ok(())
}

fn test_5(module: &Module) -> Test {
    for function in &module.functions {
        there(function.name, "a function of the table has a name")?;
    }
    for entry in &module.entry_points {
        there(entry.name, "an entry point has a name")?;
    }
    for function in functions(module) {
        for named in &function.named {
            there(named.name, "a named expression has a name")?;
        }
        let numbers = function.named.iter().map(|named| (named.expression.at, named.expression.value));
        distinct(numbers, "an expression is named once at most")?;
    }
    let names = module.names.iter().map(|name| (name.at, &name.bytes));
    distinct(names, "names are distinct")?;
    let names = module.functions.iter().map(|function| (function.name.at, function.name.value));
    distinct(names, "functions of the table have distinct names")?;
    let keys = module.special.pairs.iter().map(|(key, _)| (key.at, key.value));
    distinct(keys, "keys of special types are distinct")
}
