//! One thing broken at a time: damaged images from valid ones.
//!
//! Some ways know nothing but bytes and words; others know the tree, and break one rule where an image keeps it
//! (a number at its bound, an operand that is not lower, a statement in the wrong place). The answer may still
//! be "accepted": a changed word that is only copied harms nothing.

use crate::fields::{limit, statement, Field, EXPRESSIONS};
use crate::module::*;
use crate::random::Random;
use crate::write::write;
use crate::{bytes, words};

/// A way to damage an image: its name, and what it does with a module and its image.
pub type Way = (&'static str, fn(&mut Random, &Module, &[u8]) -> Option<Vec<u8>>);

/// All of the ways.
pub const WAYS: [Way; 18] = [
    ("a word changed", word_changed),
    ("a bit flipped", bit_flipped),
    ("bytes cut off or added", length_changed),
    ("a word taken out", word_taken_out),
    ("a word put in", word_put_in),
    ("a header word changed", header_changed),
    ("a number at its bound", number_at_bound),
    ("a number moved", number_moved),
    ("an operand moved", operand_moved),
    ("an Emit moved", emit_moved),
    ("a statement taken out", statement_taken_out),
    ("a statement doubled", statement_doubled),
    ("two statements swapped", statements_swapped),
    ("a statement put in", statement_put_in),
    ("a block wrapped", block_wrapped),
    ("two expressions swapped", expressions_swapped),
    ("a name changed", name_changed),
    ("a result exchanged", result_exchanged),
];

/// A damaged image and the name of the way; where a way finds nothing to break, a word is changed.
pub fn mutate(random: &mut Random, module: &Module) -> (&'static str, Vec<u8>) {
    let image = write(module);
    let (name, way) = *random.pick(&WAYS);
    match way(random, module, &image) {
        Some(damaged) => (name, damaged),
        None => {
            let (name, way) = WAYS[0];
            (name, way(random, module, &image).unwrap_or(image))
        }
    }
}

/// A value near the one that stands, or one that is often wrong.
fn other(random: &mut Random, value: u32) -> u32 {
    match random.below(8) {
        0 => value.wrapping_add(1),
        1 => value.wrapping_sub(1),
        2 => 0,
        3 => u32::MAX,
        4 => random.word(),
        5 => value ^ 1 << random.below(32),
        _ => random.below(40) as u32,
    }
}

fn with_word(image: &[u8], at: usize, value: u32) -> Vec<u8> {
    let mut damaged = image.to_vec();
    damaged[4 * at..4 * at + 4].copy_from_slice(&value.to_le_bytes());
    damaged
}

fn word_changed(random: &mut Random, _: &Module, image: &[u8]) -> Option<Vec<u8>> {
    let words = words(image);
    let at = random.below(words.len());
    Some(with_word(image, at, other(random, words[at])))
}

fn bit_flipped(random: &mut Random, _: &Module, image: &[u8]) -> Option<Vec<u8>> {
    let mut damaged = image.to_vec();
    damaged[random.below(image.len())] ^= 1 << random.below(8);
    Some(damaged)
}

fn length_changed(random: &mut Random, _: &Module, image: &[u8]) -> Option<Vec<u8>> {
    let mut damaged = image.to_vec();
    let length = match random.below(3) {
        0 => random.below(image.len()),
        1 => image.len().saturating_sub(random.between(1, 8)),
        _ => image.len() + random.between(1, 8),
    };
    damaged.resize(length, 0);
    Some(damaged)
}

/// The total is kept right, so that the layout is what breaks.
fn word_taken_out(random: &mut Random, _: &Module, image: &[u8]) -> Option<Vec<u8>> {
    let mut words = words(image);
    words.remove(random.between(20, words.len() - 1));
    words[1] = words.len() as u32;
    Some(bytes(&words))
}

fn word_put_in(random: &mut Random, _: &Module, image: &[u8]) -> Option<Vec<u8>> {
    let mut words = words(image);
    let at = random.between(20, words.len());
    words.insert(at, random.below(4) as u32);
    words[1] = words.len() as u32;
    Some(bytes(&words))
}

fn header_changed(random: &mut Random, _: &Module, image: &[u8]) -> Option<Vec<u8>> {
    let at = random.below(20);
    let value = other(random, words(image)[at]);
    Some(with_word(image, at, value))
}

/// A place in the image whose word is tested against a bound: the first value that is refused.
struct Place {
    at: usize,
    bound: usize,
}

/// The places that test 3 looks at in functions and global expressions, and the names of records.
fn places(module: &Module) -> Vec<Place> {
    let mut places = Vec::new();
    let mut put = |word: Word, bound: usize| places.push(Place { at: word.at, bound });
    let names = module.names.len() + 1;
    for record in &module.types {
        put(record.name, names);
        match &record.inner {
            Inner::Leaf { leaf, .. } => put(*leaf, 9),
            Inner::Pointer { base, .. } | Inner::Array { base, .. } | Inner::BindingArray { base, .. } => {
                put(*base, module.types.len())
            }
            Inner::Struct { members, .. } => {
                for member in members {
                    put(member.name, names);
                    put(member.ty, module.types.len());
                }
            }
        }
    }
    let globals = module.expressions.len();
    for record in &module.constants {
        put(record.name, names);
        put(record.ty, module.types.len());
        put(record.init, globals);
    }
    for record in &module.overrides {
        put(record.name, names);
        put(record.ty, module.types.len());
        put(record.init, globals + 1);
    }
    for record in &module.globals {
        put(record.name, names);
        put(record.ty, module.types.len());
        put(record.init, globals + 1);
    }
    for record in &module.expressions {
        put(record.kind, EXPRESSIONS.len());
        for (field, word) in record.words() {
            put(word, bound(module, &Function::default(), globals, field));
        }
    }
    for place in module.special.places {
        put(place, module.types.len() + 1);
    }
    for (_, ty) in &module.special.pairs {
        put(*ty, module.types.len());
    }
    for function in crate::intake::functions(module) {
        function_places(module, function, &mut put);
    }
    places
}

fn function_places(module: &Module, function: &Function, put: &mut impl FnMut(Word, usize)) {
    let names = module.names.len() + 1;
    let expressions = function.expressions.len();
    put(function.name, names);
    for argument in &function.arguments {
        put(argument.name, names);
        put(argument.ty, module.types.len());
    }
    if let Some(result) = &function.result {
        put(result.ty, module.types.len());
    }
    for local in &function.locals {
        put(local.name, names);
        put(local.ty, module.types.len());
        put(local.init, expressions + 1);
    }
    for record in &function.expressions {
        put(record.kind, EXPRESSIONS.len());
        for (field, word) in record.words() {
            put(word, bound(module, function, expressions, field));
        }
    }
    for named in &function.named {
        put(named.expression, expressions);
        put(named.name, names);
    }
    each_statement(&function.body, &mut |statement| {
        put(statement.kind, 17);
        match &statement.body {
            Body::Emit { start, end } => {
                put(*start, end.value as usize + 1);
                put(*end, expressions + 1);
            }
            Body::If { condition, .. } => put(*condition, expressions),
            Body::Switch { selector, cases } => {
                put(*selector, expressions);
                for case in cases {
                    put(case.fall_through, 2);
                }
            }
            Body::Loop { break_if, .. } => put(*break_if, expressions + 1),
            Body::Block(_) | Body::Plain(_) => {
                for (field, word) in statement.words() {
                    put(word, bound(module, function, expressions, field));
                }
            }
        }
    });
}

/// The first value that a field's word must not have.
fn bound(module: &Module, function: &Function, expressions: usize, field: Field) -> usize {
    match field {
        // A variant's code passes as copied; 8 is past each of them.
        Field::Copied | Field::Operands | Field::Variant(_) => 8,
        Field::Code(names) => names.len(),
        Field::Type => module.types.len(),
        Field::Constant => module.constants.len(),
        Field::Override => module.overrides.len(),
        Field::Global => module.globals.len(),
        Field::Function => module.functions.len(),
        Field::Argument => function.arguments.len(),
        Field::Local => function.locals.len(),
        Field::Operand | Field::Result => expressions,
        Field::OptionalOperand | Field::OptionalResult => expressions + 1,
    }
}

/// A module as its image reads, so that words know their places.
fn placed(image: &[u8]) -> Option<Module> {
    crate::read::read(image).ok()
}

fn number_at_bound(random: &mut Random, _: &Module, image: &[u8]) -> Option<Vec<u8>> {
    let places = places(&placed(image)?);
    if places.is_empty() {
        return None;
    }
    let place = random.pick(&places);
    let value = (place.bound + random.below(3)).saturating_sub(1);
    Some(with_word(image, place.at, value as u32))
}

/// A number becomes another in its range, so that test 3 passes and a later one may not. One of a table of values
/// is drawn as often as one of a function, though there are fewer.
fn number_moved(random: &mut Random, _: &Module, image: &[u8]) -> Option<Vec<u8>> {
    let mut places = places(&placed(image)?);
    let functions = words(image)[15] as usize;
    if random.once_in(2) {
        places.retain(|place| place.at < functions);
    }
    places.retain(|place| place.bound > 0);
    if places.is_empty() {
        return None;
    }
    let place = random.pick(&places);
    Some(with_word(image, place.at, random.below(place.bound) as u32))
}

/// A function record of the image: of the table, or of an entry point.
fn any_function(random: &mut Random, module: &Module) -> Option<usize> {
    let count = module.functions.len() + module.entry_points.len();
    (count > 0).then(|| random.below(count))
}

fn function_mut(module: &mut Module, number: usize) -> &mut Function {
    let table = module.functions.len();
    if number < table {
        &mut module.functions[number]
    } else {
        &mut module.entry_points[number - table].function
    }
}

/// An operand of an expression or a statement becomes another expression of the function.
fn operand_moved(random: &mut Random, _: &Module, image: &[u8]) -> Option<Vec<u8>> {
    let mut module = placed(image)?;
    let number = any_function(random, &module)?;
    let function = function_mut(&mut module, number);
    let mut words = Vec::new();
    let mut put = |field: Field, word: Word| match field {
        Field::Operand | Field::Result => words.push((word.at, 0)),
        Field::OptionalOperand | Field::OptionalResult => words.push((word.at, 1)),
        _ => (),
    };
    for record in &function.expressions {
        record.words().into_iter().for_each(|(field, word)| put(field, word));
    }
    each_statement(&function.body, &mut |statement| {
        statement.words().into_iter().for_each(|(field, word)| put(field, word));
        match &statement.body {
            Body::If { condition: word, .. } | Body::Switch { selector: word, .. } => {
                put(Field::Operand, *word)
            }
            Body::Loop { break_if, .. } => put(Field::OptionalOperand, *break_if),
            _ => (),
        }
    });
    if words.is_empty() || function.expressions.is_empty() {
        return None;
    }
    let (at, plus) = *random.pick(&words);
    let value = random.below(function.expressions.len()) as u32 + plus;
    Some(with_word(image, at, value))
}

/// An Emit's range grows, shrinks or moves by one.
fn emit_moved(random: &mut Random, _: &Module, image: &[u8]) -> Option<Vec<u8>> {
    let mut module = placed(image)?;
    let number = any_function(random, &module)?;
    let mut emits = Vec::new();
    each_statement(&function_mut(&mut module, number).body, &mut |statement| {
        if let Body::Emit { start, end } = &statement.body {
            emits.extend([*start, *end]);
        }
    });
    if emits.is_empty() {
        return None;
    }
    let word = *random.pick(&emits);
    let value = if random.once_in(2) { word.value.wrapping_add(1) } else { word.value.wrapping_sub(1) };
    Some(with_word(image, word.at, value))
}

/// Calls `change` on a block of a function that is drawn; it answers whether it changed anything.
fn in_a_block(
    random: &mut Random,
    module: &Module,
    change: impl FnOnce(&mut Random, &mut Block) -> bool,
) -> Option<Vec<u8>> {
    let mut module = module.clone();
    let number = any_function(random, &module)?;
    let body = &mut function_mut(&mut module, number).body;
    let mut nth = random.below(count_blocks(body));
    let block = nth_block(body, &mut nth)?;
    change(random, block).then(|| write(&module))
}

fn count_blocks(block: &Block) -> usize {
    1 + block.iter().flat_map(Statement::blocks).map(count_blocks).sum::<usize>()
}

/// The n-th block, the outer before the inner.
fn nth_block<'a>(block: &'a mut Block, nth: &mut usize) -> Option<&'a mut Block> {
    if *nth == 0 {
        return Some(block);
    }
    *nth -= 1;
    for statement in block {
        for inner in blocks_mut(&mut statement.body) {
            if let Some(found) = nth_block(inner, nth) {
                return Some(found);
            }
        }
    }
    None
}

fn blocks_mut(body: &mut Body) -> Vec<&mut Block> {
    match body {
        Body::Block(block) => vec![block],
        Body::If { accept, reject, .. } => vec![accept, reject],
        Body::Switch { cases, .. } => cases.iter_mut().map(|case| &mut case.body).collect(),
        Body::Loop { body, continuing, .. } => vec![body, continuing],
        Body::Emit { .. } | Body::Plain(_) => Vec::new(),
    }
}

fn statement_taken_out(random: &mut Random, module: &Module, _: &[u8]) -> Option<Vec<u8>> {
    in_a_block(random, module, |random, block| {
        let there = !block.is_empty();
        if there {
            block.remove(random.below(block.len()));
        }
        there
    })
}

fn statement_doubled(random: &mut Random, module: &Module, _: &[u8]) -> Option<Vec<u8>> {
    in_a_block(random, module, |random, block| {
        let there = !block.is_empty();
        if there {
            let copy = random.pick(block).clone();
            block.insert(random.below(block.len() + 1), copy);
        }
        there
    })
}

fn statements_swapped(random: &mut Random, module: &Module, _: &[u8]) -> Option<Vec<u8>> {
    in_a_block(random, module, |random, block| {
        let there = block.len() > 1;
        if there {
            let at = random.below(block.len() - 1);
            block.swap(at, at + 1);
        }
        there
    })
}

/// A Break, a Continue, a Return or a Kill where one may not be.
fn statement_put_in(random: &mut Random, module: &Module, _: &[u8]) -> Option<Vec<u8>> {
    in_a_block(random, module, |random, block| {
        let kind = random.between(statement::BREAK as usize, statement::KILL as usize) as u32;
        let values = if kind == statement::RETURN { vec![Value::One(0.into())] } else { Vec::new() };
        let made = Statement { at: 0, kind: kind.into(), span: Span::default(), body: Body::Plain(values) };
        block.insert(random.below(block.len() + 1), made);
        true
    })
}

/// The statements of a block go into a block of their own, now and then deeper than the limit.
fn block_wrapped(random: &mut Random, module: &Module, _: &[u8]) -> Option<Vec<u8>> {
    in_a_block(random, module, |random, block| {
        let times = if random.once_in(3) { random.between(limit::DEPTH - 3, limit::DEPTH + 1) } else { 1 };
        for _ in 0..times {
            let inner = std::mem::take(block);
            let (kind, body) = match random.below(3) {
                0 => (statement::LOOP, Body::Loop { body: inner, continuing: vec![], break_if: 0.into() }),
                1 => (statement::LOOP, Body::Loop { body: vec![], continuing: inner, break_if: 0.into() }),
                _ => (statement::BLOCK, Body::Block(inner)),
            };
            block.push(Statement { at: 0, kind: kind.into(), span: Span::default(), body });
        }
        true
    })
}

fn expressions_swapped(random: &mut Random, module: &Module, _: &[u8]) -> Option<Vec<u8>> {
    let mut module = module.clone();
    let number = any_function(random, &module)?;
    let expressions = &mut function_mut(&mut module, number).expressions;
    if expressions.len() < 2 {
        return None;
    }
    let at = random.below(expressions.len() - 1);
    expressions.swap(at, at + 1);
    Some(write(&module))
}

/// A name is doubled or taken away, or a key or a named number is doubled: what test 5 looks at.
fn name_changed(random: &mut Random, module: &Module, _: &[u8]) -> Option<Vec<u8>> {
    let mut module = module.clone();
    match random.below(6) {
        0 if !module.names.is_empty() => {
            let bytes = random.pick(&module.names).bytes.clone();
            let at = random.below(module.names.len());
            module.names[at].bytes = bytes;
        }
        1 if !module.functions.is_empty() => {
            let at = random.below(module.functions.len());
            module.functions[at].name = 0.into();
        }
        2 if module.functions.len() > 1 => {
            let name = random.pick(&module.functions).name;
            module.functions[0].name = name;
        }
        3 if !module.entry_points.is_empty() => {
            let at = random.below(module.entry_points.len());
            module.entry_points[at].name = 0.into();
        }
        4 if module.special.pairs.len() > 1 => module.special.pairs[0].0 = module.special.pairs[1].0,
        _ => {
            let number = any_function(random, &module)?;
            let named = &mut function_mut(&mut module, number).named;
            let first = named.first()?.clone();
            named.push(if random.once_in(2) { first } else { Named { name: 0.into(), ..first } });
        }
    }
    Some(write(&module))
}

/// A statement's result becomes another expression, so that its kind or its function may not fit.
fn result_exchanged(random: &mut Random, _: &Module, image: &[u8]) -> Option<Vec<u8>> {
    let mut module = placed(image)?;
    let number = any_function(random, &module)?;
    let function = function_mut(&mut module, number);
    let mut results = Vec::new();
    each_statement(&function.body, &mut |statement| {
        for (field, word) in statement.words() {
            match field {
                Field::Result => results.push((word.at, 0)),
                Field::OptionalResult => results.push((word.at, 1)),
                _ => (),
            }
        }
    });
    if results.is_empty() || function.expressions.is_empty() {
        return None;
    }
    let (at, plus) = *random.pick(&results);
    let of_result_kind = |own: &u32| crate::fields::result(function.expressions[*own as usize].kind.value);
    let candidates: Vec<u32> = (0..function.expressions.len() as u32).filter(of_result_kind).collect();
    let value = if candidates.is_empty() { 0 } else { *random.pick(&candidates) };
    Some(with_word(image, at, value + plus))
}
