//! From a [`Module`] to the bytes of its image: the reverse of [`crate::read`].
//!
//! Counts, offsets, lengths and padding are made here. Nothing is tested: a module that breaks a rule gives an
//! image that intake turns back.

use crate::bytes;
use crate::module::*;

/// The image of a module.
pub fn write(module: &Module) -> Vec<u8> {
    let sections = [
        (module.names.len(), table(&module.names, name)),
        (module.types.len(), table(&module.types, ty)),
        (module.constants.len(), table(&module.constants, constant)),
        (module.overrides.len(), table(&module.overrides, override_record)),
        (module.globals.len(), table(&module.globals, global)),
        (module.expressions.len(), table(&module.expressions, expression)),
        (module.functions.len(), table(&module.functions, function)),
        (module.entry_points.len(), table(&module.entry_points, entry_point)),
        (module.special.pairs.len(), special(&module.special)),
    ];
    let total = 20 + sections.iter().map(|(_, words)| words.len()).sum::<usize>();
    let mut image = vec![1, total as u32];
    let mut offset = 20;
    for (count, words) in &sections {
        image.extend([*count as u32, offset as u32]);
        offset += words.len();
    }
    for (_, words) in &sections {
        image.extend(words);
    }
    bytes(&image)
}

type Words = Vec<u32>;

/// A section of records: their offsets, then themselves.
fn table<T>(records: &[T], record: impl Fn(&T, &mut Words)) -> Words {
    let mut offsets = Vec::new();
    let mut all = Vec::new();
    for value in records {
        offsets.push((records.len() + all.len()) as u32);
        record(value, &mut all);
    }
    offsets.extend(all);
    offsets
}

fn put(out: &mut Words, words: &[Word]) {
    out.extend(words.iter().map(|word| word.value));
}

fn list<T>(out: &mut Words, elements: &[T], element: impl Fn(&T, &mut Words)) {
    out.push(elements.len() as u32);
    for value in elements {
        element(value, out);
    }
}

fn name(name: &Name, out: &mut Words) {
    let mut padded = name.bytes.clone();
    padded.resize(name.bytes.len().div_ceil(4) * 4, 0);
    out.push(name.bytes.len() as u32);
    out.extend(crate::words(&padded));
}

pub(crate) fn ty(ty: &Type, out: &mut Words) {
    put(out, &[ty.name]);
    put(out, &ty.span);
    out.push(ty.inner.kind());
    match &ty.inner {
        Inner::Leaf { leaf, copied } => {
            put(out, &[*leaf]);
            put(out, copied);
        }
        Inner::Pointer { base, space } => {
            put(out, &[*base]);
            put(out, space);
        }
        Inner::Struct { size, members } => {
            put(out, &[*size]);
            list(out, members, member);
        }
        Inner::Array { base, size, stride } => put(out, &[*base, *size, *stride]),
        Inner::BindingArray { base, size } => put(out, &[*base, *size]),
    }
}

fn member(member: &Member, out: &mut Words) {
    put(out, &[member.name, member.ty, member.offset]);
    put(out, &member.binding);
}

pub(crate) fn constant(constant: &Constant, out: &mut Words) {
    put(out, &[constant.name]);
    put(out, &constant.span);
    put(out, &[constant.ty, constant.init]);
}

pub(crate) fn override_record(record: &Override, out: &mut Words) {
    put(out, &[record.name]);
    put(out, &record.span);
    put(out, &[record.id, record.ty, record.init]);
}

pub(crate) fn global(global: &Global, out: &mut Words) {
    put(out, &[global.name]);
    put(out, &global.span);
    put(out, &global.space);
    put(out, &global.binding);
    put(out, &[global.ty, global.init, global.decorations]);
}

pub(crate) fn expression(expression: &Expression, out: &mut Words) {
    put(out, &[expression.kind]);
    put(out, &expression.span);
    values(&expression.values, out);
}

fn values(all: &[Value], out: &mut Words) {
    for value in all {
        match value {
            Value::One(word) => put(out, &[*word]),
            Value::List(words) => list(out, words, |word, out| put(out, &[*word])),
            Value::Variant(code, inner) => {
                put(out, &[*code]);
                values(inner, out);
            }
        }
    }
}

fn function(function: &Function, out: &mut Words) {
    put(out, &[function.name]);
    put(out, &function.span);
    list(out, &function.arguments, argument);
    result_type(&function.result, out);
    list(out, &function.locals, local);
    list(out, &function.expressions, expression);
    list(out, &function.named, |named, out| put(out, &[named.expression, named.name]));
    block(&function.body, out);
}

fn argument(argument: &Argument, out: &mut Words) {
    put(out, &[argument.name, argument.ty]);
    put(out, &argument.binding);
}

fn result_type(result: &Option<ResultType>, out: &mut Words) {
    match result {
        None => out.push(0),
        Some(result) => {
            out.push(1);
            put(out, &[result.ty]);
            put(out, &result.binding);
        }
    }
}

fn local(local: &Local, out: &mut Words) {
    put(out, &local.span);
    put(out, &[local.name, local.ty, local.init]);
}

fn block(block: &Block, out: &mut Words) {
    list(out, block, statement);
}

/// A statement; its length is filled in when the rest is there.
fn statement(statement: &Statement, out: &mut Words) {
    let at = out.len();
    out.push(0);
    put(out, &[statement.kind]);
    put(out, &statement.span);
    body(&statement.body, out);
    out[at] = (out.len() - at) as u32;
}

fn body(body: &Body, out: &mut Words) {
    match body {
        Body::Emit { start, end } => put(out, &[*start, *end]),
        Body::Block(inner) => block(inner, out),
        Body::If { condition, accept, reject } => {
            put(out, &[*condition]);
            block(accept, out);
            block(reject, out);
        }
        Body::Switch { selector, cases } => {
            put(out, &[*selector]);
            list(out, cases, case);
        }
        Body::Loop { body, continuing, break_if } => {
            block(body, out);
            block(continuing, out);
            put(out, &[*break_if]);
        }
        Body::Plain(all) => values(all, out),
    }
}

fn case(case: &Case, out: &mut Words) {
    values(std::slice::from_ref(&case.value), out);
    block(&case.body, out);
    put(out, &[case.fall_through]);
}

fn entry_point(entry: &EntryPoint, out: &mut Words) {
    put(out, &[entry.name, entry.stage]);
    put(out, &entry.early_depth);
    put(out, &entry.workgroup);
    function(&entry.function, out);
}

fn special(special: &Special) -> Words {
    let mut out = Vec::new();
    put(&mut out, &special.places);
    for (key, ty) in &special.pairs {
        put(&mut out, &[*key, *ty]);
    }
    out
}
