//! An image as JSON: its sections and every record that was laid out, by the same rows that read it.

use plain::fields::{expression, Field, Row, LEAF_TYPES, TYPE_KINDS};
use plain::module::*;
use plain::text::PLACES;
use plain::{listing, raw};

use crate::json::Json;

/// All of an image, behind the members of its answer.
pub fn image(answer: Json, image: &[u8]) -> Json {
    let words = plain::words(image);
    let (module, _) = plain::laid_out(image);
    let section = |section: raw::Section| {
        Json::object([
            ("name", Json::text(section.name)),
            ("count", section.count.into()),
            ("start", Json::number(section.start)),
            ("end", Json::number(section.end)),
        ])
    };
    let order = plain::intake(image).is_ok().then(|| plain::order_of(&module).ok()).flatten();
    answer.and([
        ("bytes", Json::number(image.len())),
        ("words", Json::number(words.len())),
        ("complete", Json::Bool(plain::read(image).is_ok())),
        ("sections", Json::list(raw::sections(&words), section)),
        ("names", Json::list(&module.names, |name| Json::name(&name.bytes))),
        ("types", Json::list(&module.types, ty)),
        ("constants", Json::list(&module.constants, constant)),
        ("overrides", Json::list(&module.overrides, override_record)),
        ("globals", Json::list(&module.globals, global)),
        ("global_expressions", Json::list(&module.expressions, expression)),
        ("functions", Json::list(&module.functions, function_record)),
        ("entry_points", Json::list(&module.entry_points, entry_point)),
        ("special_types", special(&module.special)),
        ("order", order.map_or(Json::Null, |order| Json::list(order, Json::from))),
    ])
}

/// A function of the table by its number and its name.
pub fn function(module: &Module, number: u32) -> Json {
    let name = module.functions.get(number as usize).and_then(|function| function.name.optional());
    let name = name.and_then(|number| module.names.get(number as usize));
    Json::object([
        ("function", number.into()),
        ("name", name.map_or(Json::Null, |name| Json::name(&name.bytes))),
    ])
}

fn word(word: Word) -> Json {
    word.value.into()
}

fn optional(word: Word) -> Json {
    Json::optional(word.optional())
}

fn words(words: &[Word]) -> Json {
    Json::list(words, |own| word(*own))
}

/// A code by its name, or its number where it has none.
fn code(names: &[&str], own: Word) -> Json {
    names.get(own.value as usize).map_or(word(own), |name| Json::text(*name))
}

fn ty(ty: &Type) -> Json {
    let kind = TYPE_KINDS[ty.inner.kind() as usize];
    let head =
        Json::object([("name", optional(ty.name)), ("span", words(&ty.span)), ("kind", Json::text(kind))]);
    match &ty.inner {
        Inner::Leaf { leaf, copied } => {
            head.and([("leaf", code(LEAF_TYPES, *leaf)), ("copied", words(copied))])
        }
        Inner::Pointer { base, space } => head.and([("base", word(*base)), ("space", words(space))]),
        Inner::Struct { size, members } => {
            head.and([("size", word(*size)), ("members", Json::list(members, member))])
        }
        Inner::Array { base, size, stride } => {
            head.and([("base", word(*base)), ("size", word(*size)), ("stride", word(*stride))])
        }
        Inner::BindingArray { base, size } => head.and([("base", word(*base)), ("size", word(*size))]),
    }
}

fn member(member: &Member) -> Json {
    Json::object([
        ("name", optional(member.name)),
        ("type", word(member.ty)),
        ("offset", word(member.offset)),
        ("binding", words(&member.binding)),
    ])
}

fn constant(record: &Constant) -> Json {
    Json::object([
        ("name", optional(record.name)),
        ("span", words(&record.span)),
        ("type", word(record.ty)),
        ("init", word(record.init)),
    ])
}

fn override_record(record: &Override) -> Json {
    Json::object([
        ("name", optional(record.name)),
        ("span", words(&record.span)),
        ("id", word(record.id)),
        ("type", word(record.ty)),
        ("init", optional(record.init)),
    ])
}

fn global(record: &Global) -> Json {
    Json::object([
        ("name", optional(record.name)),
        ("span", words(&record.span)),
        ("space", words(&record.space)),
        ("binding", words(&record.binding)),
        ("type", word(record.ty)),
        ("init", optional(record.init)),
        ("decorations", word(record.decorations)),
    ])
}

fn expression(record: &Expression) -> Json {
    let row = record.row();
    let head = Json::object([("kind", Json::text(row.name)), ("span", words(&record.span))]);
    let object = fields(head, row, &record.values);
    match (record.kind.value, record.values.as_slice()) {
        (expression::LITERAL, [Value::One(code), Value::One(low), Value::One(high)]) => {
            let value = listing::literal(code.value, u64::from(high.value) << 32 | u64::from(low.value));
            object.and([("value", value.map_or(Json::Null, Json::text))])
        }
        _ => object,
    }
}

/// The fields of a row behind the members of an object.
fn fields(object: Json, row: &Row, values: &[Value]) -> Json {
    let fields = row.fields.iter().zip(values);
    fields.fold(object, |object, ((key, field), own)| object.and([(*key, value(*field, own))]))
}

fn value(field: Field, value: &Value) -> Json {
    match (field, value) {
        (Field::Code(names), Value::One(own)) => code(names, *own),
        (Field::OptionalOperand | Field::OptionalResult, Value::One(own)) => optional(*own),
        (_, Value::One(own)) => word(*own),
        (_, Value::List(list)) => words(list),
        (Field::Variant(rows), Value::Variant(code, values)) => {
            let row = &rows[code.value as usize];
            fields(Json::object([("kind", Json::text(row.name))]), row, values)
        }
        _ => unreachable!("a value follows its field"),
    }
}

fn function_record(function: &Function) -> Json {
    let argument = |argument: &Argument| {
        Json::object([
            ("name", optional(argument.name)),
            ("type", word(argument.ty)),
            ("binding", words(&argument.binding)),
        ])
    };
    let result =
        |result: &ResultType| Json::object([("type", word(result.ty)), ("binding", words(&result.binding))]);
    let local = |local: &Local| {
        Json::object([
            ("span", words(&local.span)),
            ("name", optional(local.name)),
            ("type", word(local.ty)),
            ("init", optional(local.init)),
        ])
    };
    let named = |named: &Named| {
        Json::object([("expression", word(named.expression)), ("name", optional(named.name))])
    };
    Json::object([
        ("name", optional(function.name)),
        ("span", words(&function.span)),
        ("arguments", Json::list(&function.arguments, argument)),
        ("result", function.result.as_ref().map_or(Json::Null, result)),
        ("locals", Json::list(&function.locals, local)),
        ("expressions", Json::list(&function.expressions, expression)),
        ("named", Json::list(&function.named, named)),
        ("body", block(&function.body)),
    ])
}

fn block(block: &Block) -> Json {
    Json::list(block, statement)
}

fn statement(statement: &Statement) -> Json {
    let row = statement.row();
    let head = Json::object([("kind", Json::text(row.name)), ("span", words(&statement.span))]);
    match &statement.body {
        Body::Emit { start, end } => head.and([("start", word(*start)), ("end", word(*end))]),
        Body::Block(inner) => head.and([("block", block(inner))]),
        Body::If { condition, accept, reject } => {
            head.and([("condition", word(*condition)), ("accept", block(accept)), ("reject", block(reject))])
        }
        Body::Switch { selector, cases } => {
            head.and([("selector", word(*selector)), ("cases", Json::list(cases, case))])
        }
        Body::Loop { body, continuing, break_if } => head.and([
            ("body", block(body)),
            ("continuing", block(continuing)),
            ("break_if", optional(*break_if)),
        ]),
        Body::Plain(values) => fields(head, row, values),
    }
}

fn case(case: &Case) -> Json {
    Json::object([
        ("value", value(Field::Variant(plain::fields::CASE_VALUES), &case.value)),
        ("body", block(&case.body)),
        ("fall_through", word(case.fall_through)),
    ])
}

fn entry_point(entry: &EntryPoint) -> Json {
    Json::object([
        ("name", optional(entry.name)),
        ("stage", word(entry.stage)),
        ("early_depth", words(&entry.early_depth)),
        ("workgroup", words(&entry.workgroup)),
        ("function", function_record(&entry.function)),
    ])
}

fn special(special: &Special) -> Json {
    let pair = |(key, ty): &(Word, Word)| Json::object([("key", word(*key)), ("type", word(*ty))]);
    let places = PLACES.iter().zip(special.places);
    let object = places.fold(Json::object([]), |object, (key, place)| object.and([(*key, optional(place))]));
    object.and([("pairs", Json::list(&special.pairs, pair))])
}
