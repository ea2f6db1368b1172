//! Equal records in a valid module, for what merges: a record's twin has the same words and another span.
//!
//! Twins stand at the end of their tables, in the order of the records that they are twins of, so a twin may refer
//! to twins where its record refers to records. A module stays valid.

use crate::fields::{limit, Field};
use crate::intake::reached;
use crate::module::*;
use crate::random::Random;

/// Gives some records of a module their twins, and some references to them.
pub fn with_twins(random: &mut Random, mut module: Module) -> Module {
    let records = limit::RECORDS as usize;
    let twins = Twins {
        types: double(random, &mut module.types, records, |record| &mut record.span),
        constants: double(random, &mut module.constants, records, |record| &mut record.span),
        overrides: double(random, &mut module.overrides, records, |record| &mut record.span),
        globals: double(random, &mut module.globals, records, |record| &mut record.span),
        operands: double(random, &mut module.expressions, records, |record| &mut record.span),
    };
    twins.in_tables(random, &mut module);
    let entries = module.entry_points.iter_mut().map(|entry| &mut entry.function);
    for function in module.functions.iter_mut().chain(entries) {
        twins.in_function(random, function);
        double_initialisers(random, function, module.names.len());
    }
    module
}

/// The twin of each record that was there, if it has one.
type Doubled = Vec<Option<u32>>;

/// Appends the twins of some records, as far as there is room.
fn double<T: Clone>(
    random: &mut Random,
    records: &mut Vec<T>,
    most: usize,
    span: fn(&mut T) -> &mut Span,
) -> Doubled {
    let mut doubled = Vec::new();
    for own in 0..records.len() {
        let twin = (random.once_in(3) && records.len() < most).then_some(records.len() as u32);
        if twin.is_some() {
            let mut record = records[own].clone();
            span(&mut record)[1] = random.word().into();
            records.push(record);
        }
        doubled.push(twin);
    }
    doubled
}

/// The record, or now and then its twin.
fn either(random: &mut Random, doubled: &Doubled, record: &mut Word) {
    if let Some(Some(twin)) = doubled.get(record.value as usize) {
        if random.once_in(2) {
            *record = (*twin).into();
        }
    }
}

/// The same of an optional number.
fn either_or_none(random: &mut Random, doubled: &Doubled, record: &mut Word) {
    if let Some(number) = record.optional() {
        let mut number = number.into();
        either(random, doubled, &mut number);
        *record = (number.value + 1).into();
    }
}

struct Twins {
    types: Doubled,
    constants: Doubled,
    overrides: Doubled,
    globals: Doubled,
    /// Of global expressions or of a function's own.
    operands: Doubled,
}

impl Twins {
    fn in_tables(&self, random: &mut Random, module: &mut Module) {
        for record in &mut module.types[self.types.len()..] {
            match &mut record.inner {
                Inner::Leaf { .. } => (),
                Inner::Pointer { base, .. }
                | Inner::Array { base, .. }
                | Inner::BindingArray { base, .. } => either(random, &self.types, base),
                Inner::Struct { members, .. } => {
                    members.iter_mut().for_each(|member| either(random, &self.types, &mut member.ty))
                }
            }
        }
        module.constants.iter_mut().for_each(|record| either(random, &self.types, &mut record.ty));
        module.overrides.iter_mut().for_each(|record| either(random, &self.types, &mut record.ty));
        for record in &mut module.globals {
            either(random, &self.types, &mut record.ty);
            either_or_none(random, &self.operands, &mut record.init);
        }
        for (own, record) in module.expressions.iter_mut().enumerate() {
            self.in_expression(random, record, own >= self.operands.len());
        }
    }

    fn in_function(&self, random: &mut Random, function: &mut Function) {
        function.arguments.iter_mut().for_each(|argument| either(random, &self.types, &mut argument.ty));
        function.result.iter_mut().for_each(|result| either(random, &self.types, &mut result.ty));
        function.locals.iter_mut().for_each(|local| either(random, &self.types, &mut local.ty));
        function.expressions.iter_mut().for_each(|record| self.in_expression(random, record, false));
    }

    /// What an expression refers to, its operands where it is a twin itself.
    fn in_expression(&self, random: &mut Random, record: &mut Expression, operands: bool) {
        for ((_, field), value) in record.row().fields.iter().zip(&mut record.values) {
            match (field, value) {
                (Field::Type, Value::One(word)) => either(random, &self.types, word),
                (Field::Constant, Value::One(word)) => either(random, &self.constants, word),
                (Field::Override, Value::One(word)) => either(random, &self.overrides, word),
                (Field::Global, Value::One(word)) => either(random, &self.globals, word),
                (Field::Operand, Value::One(word)) if operands => either(random, &self.operands, word),
                (Field::OptionalOperand, Value::One(word)) if operands => {
                    either_or_none(random, &self.operands, word)
                }
                (_, Value::List(words)) if operands => {
                    words.iter_mut().for_each(|word| either(random, &self.operands, word))
                }
                _ => (),
            }
        }
    }
}

/// Twins of what initialisers reach, names for some of them, and further locals that they initialise: what the first
/// locals reach stays reached.
fn double_initialisers(random: &mut Random, function: &mut Function, names: usize) {
    let mut initialisers = reached(function);
    initialisers.sort_unstable();
    if function.expressions.len() + initialisers.len() > limit::EXPRESSIONS as usize {
        return;
    }
    let mut twins = Twins {
        types: Vec::new(),
        constants: Vec::new(),
        overrides: Vec::new(),
        globals: Vec::new(),
        operands: vec![None; function.expressions.len()],
    };
    for own in initialisers {
        if random.once_in(2) {
            let mut record = function.expressions[own as usize].clone();
            record.span[1] = random.word().into();
            twins.in_expression(random, &mut record, true);
            let twin = function.expressions.len() as u32;
            twins.operands[own as usize] = Some(twin);
            function.expressions.push(record);
            if random.once_in(3) && function.named.len() < limit::NAMED as usize {
                let name = (1 + random.below(names) as u32).into();
                function.named.push(Named { expression: twin.into(), name });
            }
        }
    }
    for own in 0..function.locals.len() {
        if function.locals.len() < limit::LOCALS as usize {
            let mut local = function.locals[own].clone();
            either_or_none(random, &twins.operands, &mut local.init);
            function.locals.push(local);
        }
    }
}
