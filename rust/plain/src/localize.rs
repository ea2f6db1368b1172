//! derive.rs: functions, their blocks and their own expressions.
//!
//! A function's expressions are imported as they are met: those of the locals' initialisers, which merge, then
//! those of the body, which never do. What nothing reaches is left out, and so is its name.

use std::collections::{HashMap, HashSet};
use std::rc::Rc;

use crate::derive::{carried, Derived, Map, Table};
use crate::fields::{self, Field, Row};
use crate::module::*;

/// A derived function, and where the expressions of its source went.
pub(crate) struct Localized {
    pub function: Function,
    pub expressions: Map,
}

/// What an import of a function's own expression is for.
#[derive(Clone, Copy, PartialEq)]
enum Purpose {
    /// A local's initialiser: equal expressions merge.
    Initialiser,
    /// An Emit's first pass: only what stands is brought in.
    Standing,
    /// A body: every expression is appended.
    Body,
}

/// The expressions of a function that is under way.
struct Own<'a> {
    old: &'a [Expression],
    already_imported: Map,
    new: Table<Expression>,
    /// What the first pass of the Emit that is under way has visited; a second visit would add nothing.
    visited: HashSet<u32>,
}

impl Derived {
    /// Carries a function of the source over, without appending it to the table.
    pub fn localize_function(&mut self, function: &Function) -> Localized {
        let arguments = function.arguments.iter().map(|argument| self.import_argument(argument)).collect();
        let result = function.result.as_ref().map(|result| ResultType {
            ty: self.import_type(result.ty.value).into(),
            binding: result.binding,
        });
        let mut own = Own {
            old: &function.expressions,
            already_imported: vec![None; function.expressions.len()],
            new: Table::default(),
            visited: HashSet::new(),
        };
        let locals = function.locals.iter().map(|local| self.import_local(local, &mut own)).collect();
        let body = self.import_block(&function.body, &mut own);
        let named = self.import_named(&function.named, &own.already_imported);
        let function = Function {
            name: self.import_name(function.name),
            span: self.shifted(function.span),
            arguments,
            result,
            locals,
            expressions: own.new.records,
            named,
            body,
        };
        Localized { function, expressions: own.already_imported }
    }

    /// Appends a function of the source, whether or not one of its name is derived.
    pub fn import_function(&mut self, function: u32) -> u32 {
        let source = self.source();
        let localized = self.localize_function(&source.module.functions[function as usize]);
        let derived = self.functions.len() as u32;
        self.functions.push(Rc::new(localized));
        self.function_map.insert(source.function_name(function).to_vec(), derived);
        derived
    }

    /// The derived function of a source function's name; where there is none it is imported.
    pub fn map_function_handle(&mut self, function: u32) -> u32 {
        match self.function_map.get(self.source().function_name(function)) {
            Some(derived) => *derived,
            None => self.import_function(function),
        }
    }

    /// The same, as the Rust has both.
    pub fn import_function_if_new(&mut self, function: u32) -> u32 {
        self.map_function_handle(function)
    }

    fn import_argument(&mut self, argument: &Argument) -> Argument {
        Argument {
            name: self.import_name(argument.name),
            ty: self.import_type(argument.ty.value).into(),
            binding: argument.binding,
        }
    }

    fn import_local(&mut self, local: &Local, own: &mut Own) -> Local {
        Local {
            span: self.shifted(local.span),
            name: self.import_name(local.name),
            ty: self.import_type(local.ty.value).into(),
            init: match local.init.optional() {
                None => 0.into(),
                Some(init) => (self.import_expression(init, own, Purpose::Initialiser) + 1).into(),
            },
        }
    }

    /// The names of what was imported. Where two come to name one expression the last counts, in the first's place.
    fn import_named(&mut self, named: &[Named], map: &Map) -> Vec<Named> {
        let mut new: Vec<Named> = Vec::new();
        let mut places = HashMap::new();
        for old in named {
            if let Some(expression) = map[old.expression.value as usize] {
                let name = self.import_name(old.name);
                let place = *places.entry(expression).or_insert(new.len());
                match new.get_mut(place) {
                    Some(there) => there.name = name,
                    None => new.push(Named { expression: expression.into(), name }),
                }
            }
        }
        new
    }

    fn import_block(&mut self, block: &Block, own: &mut Own) -> Block {
        block.iter().map(|statement| self.import_statement(statement, own)).collect()
    }

    fn import_statement(&mut self, statement: &Statement, own: &mut Own) -> Statement {
        let body = match &statement.body {
            Body::Emit { start, end } => self.import_emit(start.value..end.value, own),
            Body::Block(block) => Body::Block(self.import_block(block, own)),
            Body::If { condition, accept, reject } => Body::If {
                condition: self.import_read(*condition, own),
                accept: self.import_block(accept, own),
                reject: self.import_block(reject, own),
            },
            Body::Switch { selector, cases } => Body::Switch {
                selector: self.import_read(*selector, own),
                cases: cases.iter().map(|case| self.import_case(case, own)).collect(),
            },
            Body::Loop { body, continuing, break_if } => Body::Loop {
                body: self.import_block(body, own),
                continuing: self.import_block(continuing, own),
                break_if: match break_if.optional() {
                    None => 0.into(),
                    Some(number) => (self.import_expression(number, own, Purpose::Body) + 1).into(),
                },
            },
            Body::Plain(values) => Body::Plain(self.import_plain(statement.row(), values, own)),
        };
        Statement { at: 0, kind: statement.kind, span: self.shifted(statement.span), body }
    }

    fn import_case(&mut self, case: &Case, own: &mut Own) -> Case {
        let body = self.import_block(&case.body, own);
        Case { value: case.value.clone(), body, fall_through: case.fall_through }
    }

    /// An expression that a statement with blocks reads.
    fn import_read(&mut self, expression: Word, own: &mut Own) -> Word {
        self.import_expression(expression.value, own, Purpose::Body).into()
    }

    /// First what stands under the range, then the range; the new range is what the second pass appended.
    fn import_emit(&mut self, range: std::ops::Range<u32>, own: &mut Own) -> Body {
        own.visited.clear();
        for expression in range.clone() {
            self.import_expression(expression, own, Purpose::Standing);
        }
        let start = own.new.records.len() as u32;
        for expression in range {
            self.import_expression(expression, own, Purpose::Body);
        }
        let end = own.new.records.len() as u32;
        Body::Emit { start: start.into(), end: end.into() }
    }

    /// The fields of a statement without blocks. Atomic kinds import the compare operand first; they alone have a
    /// variant.
    fn import_plain(&mut self, row: &Row, values: &[Value], own: &mut Own) -> Vec<Value> {
        let mut import = |field: Field, number: u32| match field {
            Field::Operand => self.import_expression(number, own, Purpose::Body),
            _ => self.import_outer(field, number),
        };
        for ((_, field), value) in row.fields.iter().zip(values) {
            if let (Field::Variant(rows), Value::Variant(code, compare)) = (field, value) {
                carried(&rows[code.value as usize], compare, &mut import);
            }
        }
        carried(row, values, &mut import)
    }

    /// Imports an expression of the function and, before it, its operands.
    fn import_expression(&mut self, expression: u32, own: &mut Own, purpose: Purpose) -> u32 {
        if let Some(derived) = own.already_imported[expression as usize] {
            return derived;
        }
        if purpose == Purpose::Standing && !own.visited.insert(expression) {
            return expression;
        }
        let old = &own.old[expression as usize];
        let values = carried(old.row(), &old.values, &mut |field, number| match field {
            Field::Operand => self.import_expression(number, own, purpose),
            _ => self.import_outer(field, number),
        });
        if purpose == Purpose::Standing && !fields::standing(old.kind.value) {
            return expression;
        }
        let record = Expression { kind: old.kind, span: self.shifted(old.span), values };
        let derived = match purpose {
            Purpose::Initialiser => own.new.merge(record),
            Purpose::Standing | Purpose::Body => own.new.append(record),
        };
        own.already_imported[expression as usize] = Some(derived);
        derived
    }
}
