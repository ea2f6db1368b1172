//! Images of nearly 65,536 bytes on which linking has most to do: what it looks up or compares is as much, and as
//! alike, as such an image can hold.
//!
//! The archive finds an equal record by the place of its hash, and only where two share a place by a search; records of
//! one place are made by trying words. `cases::worst` has the images that are hard for the other operations.

use crate::cases::{self, call, leaf, named, of_kind, word, Case};
use crate::deep;
use crate::fields::{expression, limit, statement};
use crate::module::*;
use crate::write::write;

/// Words of an image at most.
const WORDS: usize = limit::BYTES / 4;
/// Records of a table at most, and locals and expressions of a function.
const RECORDS: usize = limit::RECORDS as usize;
const LOCALS: usize = limit::LOCALS as usize;
const EXPRESSIONS: usize = limit::EXPRESSIONS as usize;

/// The images, by name.
pub fn images() -> Vec<Case> {
    let cases: [(&str, Module); 23] = [
        ("512 names, borne by locals", named_locals(names_apart(RECORDS, 24), RECORDS)),
        (
            "512 names whose hashes have one place, borne by locals",
            named_locals(names_one_place(RECORDS, 24), RECORDS),
        ),
        ("940 calls of the last of 512 names", calls_of_the_last(names_apart(RECORDS, 12), 940)),
        (
            "940 calls of the last of 512 names whose hashes have one place",
            calls_of_the_last(names_one_place(RECORDS, 12), 940),
        ),
        (
            "590 calls with results of the last of 512 names",
            results_of_the_last(names_apart(RECORDS, 12), 590),
        ),
        ("1,700 calls of 255 functions", calls_of_all(256)),
        ("256 functions, each calls the one behind 9 blocks deep", chain_of_blocks(256, 9)),
        ("512 structs", reading_types(structs_apart(RECORDS, 2))),
        ("512 structs whose hashes have one place", reading_types(structs_one_place(RECORDS, 2))),
        ("512 equal structs", reading_types(vec![structs_apart(1, 2).remove(0); RECORDS])),
        ("512 pointers to pointers", reading_types(deep::pointers(RECORDS))),
        ("structs of 64 members", reading_types(structs_apart(27, 64))),
        ("512 globals and 100 initialisers whose hashes have one place", tables_one_place()),
        ("chains of 1,024 initialisers", repeated(|| initialiser_chain(EXPRESSIONS))),
        ("900 equal initialisers", repeated(|| initialiser_of_literals(900, |_| 0))),
        ("900 initialisers", repeated(|| initialiser_of_literals(900, |own| own))),
        ("256 functions alike", functions_alike(256)),
        ("functions of 1,024 expressions", emitting_functions(EXPRESSIONS)),
        ("1,024 named expressions", named_expressions()),
        ("Blocks nested 32 deep", nested_bodies(32)),
        ("2,700 empty Emits", empty_emits()),
        ("16 entry points", entry_points(16)),
        ("512 special types", pairs(RECORDS)),
    ];
    cases.into_iter().map(|(name, module)| (name.to_owned(), write(&filled(module)))).collect()
}

/// The module with barriers in its last function until no more fit.
fn filled(mut module: Module) -> Module {
    let have = write(&module).len() / 4;
    let barriers = WORDS.saturating_sub(have) / 5;
    if let Some(function) = module.functions.last_mut() {
        function.body.extend(vec![cases::barrier(); barriers]);
    }
    module
}

// ---- what the archive hashes ----

/// One more word in the archive's hash.
fn mix(hash: u64, word: u32) -> u64 {
    (hash + u64::from(word)) * 2_654_435_769 / 1_048_576 % 16_777_216
}

/// Words that lead from this hash to one of the archive's 16,384 places.
fn words_to_one_place(before: u64) -> impl Iterator<Item = u32> {
    (0..=u32::MAX).filter(move |word| mix(before, *word) % 16_384 == 0)
}

// ---- names ----

/// Names of so many words each that differ in the last one.
fn names_ending(words: usize, last: impl Iterator<Item = u32>) -> Vec<Name> {
    let front = vec![b'x'; 4 * words - 4];
    last.map(|word| Name { at: 0, bytes: [front.as_slice(), &word.to_le_bytes()].concat() }).collect()
}

fn names_apart(count: usize, words: usize) -> Vec<Name> {
    names_ending(words, (1..).take(count))
}

/// The same, and their hashes have one place.
fn names_one_place(count: usize, words: usize) -> Vec<Name> {
    let front = vec![u32::from_le_bytes(*b"xxxx"); words - 1];
    let before = front.into_iter().fold(mix(0, 4 * words as u32), mix);
    names_ending(words, words_to_one_place(before).take(count))
}

/// A local of type 0 that bears this name, if it is not 0.
fn local(name: usize, init: usize) -> Local {
    Local { span: Span::default(), name: word(name), ty: word(0), init: word(init) }
}

/// Functions whose locals bear the first so many names, but for as many as there are functions, which bear those.
fn named_locals(names: Vec<Name>, borne: usize) -> Module {
    let functions = borne.div_ceil(LOCALS + 1);
    let rest: Vec<usize> = (functions + 1..=borne).collect();
    let function = |(own, names): (usize, &[usize])| Function {
        name: word(own + 1),
        locals: names.iter().map(|name| local(*name, 0)).collect(),
        ..Function::default()
    };
    let functions = rest.chunks(LOCALS).enumerate().map(function).collect();
    Module { names, types: vec![leaf()], functions, ..Module::default() }
}

// ---- calls ----

/// Names that are all derived before the last of them, which a function bears that is called and called.
fn calls_of_the_last(names: Vec<Name>, calls: usize) -> Module {
    let count = names.len();
    let mut module = named_locals(names, count - 2);
    let callee = module.functions.len();
    module.functions.push(Function { name: word(count), ..Function::default() });
    let body = vec![call(callee, 0); calls];
    module.functions.push(Function { name: word(count - 1), body, ..Function::default() });
    module
}

/// The same, and each call has a result.
fn results_of_the_last(names: Vec<Name>, calls: usize) -> Module {
    let mut module = calls_of_the_last(names, 0);
    let caller = module.functions.len() - 1;
    let callee = caller - 1;
    let binding = Binding::default();
    module.functions[callee].result = Some(ResultType { ty: word(0), binding });
    let caller = &mut module.functions[caller];
    caller.expressions = vec![of_kind(expression::CALL_RESULT, vec![Value::One(word(callee))]); calls];
    caller.body = (0..calls).map(|own| call(callee, own + 1)).collect();
    module
}

/// A function that calls all others in turn, over and over.
fn calls_of_all(count: usize) -> Module {
    let calls = |own: usize| -> Vec<usize> {
        (0..1_700 * usize::from(own + 1 == count)).map(|call| call % (count - 1)).collect()
    };
    cases::functions(count, calls)
}

/// Functions that each call the next, so many blocks deep.
fn chain_of_blocks(count: usize, depth: usize) -> Module {
    let mut module = cases::functions(count, |own| if own + 1 < count { vec![own + 1] } else { Vec::new() });
    for function in &mut module.functions {
        for _ in 1..depth {
            let inner = std::mem::take(&mut function.body);
            function.body = vec![cases::made(statement::BLOCK, Body::Block(inner))];
        }
    }
    module
}

// ---- tables ----

/// A function that reads each of so many records by an expression of this kind.
fn reading(kind: u32, count: usize) -> Vec<Expression> {
    (0..count).map(|own| of_kind(kind, vec![Value::One(word(own))])).collect()
}

/// A function that has these expressions and, in an Emit, a Compose of all of them.
fn composing(mut expressions: Vec<Expression>) -> Function {
    let count = expressions.len();
    let operands = (0..count).map(word).collect();
    expressions.push(of_kind(expression::COMPOSE, vec![Value::One(word(0)), Value::List(operands)]));
    Function { expressions, body: vec![cases::emit(count, count + 1)], ..named() }
}

/// A function that reads each of these types.
fn reading_types(types: Vec<Type>) -> Module {
    let function = composing(reading(expression::ZERO_VALUE, types.len()));
    Module { types, ..cases::one(function) }
}

/// Structs of so many members, each of the first type, that differ in the last word. The first is a leaf.
fn structs_ending(members: usize, last: impl Iterator<Item = u32>) -> Vec<Type> {
    let member = Member { name: word(0), ty: word(0), offset: word(0), binding: Binding::default() };
    let ending = |last: u32| {
        let mut members = vec![member.clone(); members];
        members.last_mut().expect("a struct has members").binding[5] = last.into();
        cases::of_members(members)
    };
    [leaf()].into_iter().chain(last.map(ending)).collect()
}

fn structs_apart(count: usize, members: usize) -> Vec<Type> {
    structs_ending(members, (1..).take(count - 1))
}

fn structs_one_place(count: usize, members: usize) -> Vec<Type> {
    // Name, span, kind, size and the count of members; then of each member nine words, the last of them free.
    let mut front = vec![0, 0, 0, 2, 0, members as u32];
    front.extend(vec![0; 9 * members - 1]);
    let before = front.into_iter().fold(1, mix);
    structs_ending(members, words_to_one_place(before).take(count - 1))
}

/// Globals, overrides and literals, each table full and of one place.
fn tables_one_place() -> Module {
    let of_global = [0, 0, 0, 0, 0, 0, 0, 0, 0, 0].into_iter().fold(4, mix);
    let global = |last: u32| Global { init: word(0), decorations: last.into(), ..cases::global() };
    let of_literal = [0, 0, 0, 3, 0].into_iter().fold(5, mix);
    let literal = |last: u32| {
        let words = [3, 0, last].map(|word| Value::One(word.into()));
        of_kind(expression::LITERAL, words.to_vec())
    };
    let mut module = cases::base();
    module.globals = words_to_one_place(of_global).take(RECORDS).map(global).collect();
    module.expressions = words_to_one_place(of_literal).take(RECORDS).map(literal).collect();
    let bring = |own: usize| Override { id: word(own + 1), init: word(own + 1), ..cases::override_record() };
    module.overrides = (0..100).map(bring).collect();
    let mut expressions = reading(expression::GLOBAL_VARIABLE, RECORDS);
    expressions.extend(reading(expression::OVERRIDE, 100));
    Module { functions: vec![composing(expressions)], ..module }
}

fn pairs(count: usize) -> Module {
    let types = structs_apart(count, 1);
    let pairs = (0..count).map(|key| (word(key * 1_024), word(key))).collect();
    Module { types, special: Special { pairs, ..Special::default() }, ..cases::one(named()) }
}

// ---- initialisers ----

/// As many such functions as fit.
fn repeated(function: impl Fn() -> Function) -> Module {
    let alone = |count: usize| {
        let functions = (0..count).map(|own| Function { name: word(own + 1), ..function() }).collect();
        Module { names: names_apart(count, 1), functions, ..cases::base() }
    };
    let fits = |module: &Module| write(module).len() <= limit::BYTES;
    (1..).map(alone).take_while(fits).last().expect("one fits")
}

/// A local whose initialiser is a chain of Unaries.
fn initialiser_chain(count: usize) -> Function {
    cases::initialised_locals(1, count)
}

/// A local whose initialiser is a Compose of literals.
fn initialiser_of_literals(count: usize, low: impl Fn(usize) -> usize) -> Function {
    let function = composing((0..count).map(|own| cases::literal(low(own))).collect());
    Function { locals: vec![local(0, count + 1)], body: Vec::new(), ..function }
}

// ---- functions ----

/// Functions with the same arguments, locals and expressions.
fn functions_alike(count: usize) -> Module {
    let argument = Argument { name: word(1), ty: word(0), binding: Binding::default() };
    let expressions: Vec<Expression> = reading(9, 2);
    let function = |own: usize| Function {
        name: word(own + 1),
        arguments: vec![argument.clone(); 2],
        locals: vec![local(2, 0); 2],
        ..composing(expressions.clone())
    };
    let functions = (0..count).map(function).collect();
    Module { names: names_apart(count, 1), functions, ..cases::base() }
}

/// As many functions of so many expressions as fit, all emitted.
fn emitting_functions(count: usize) -> Module {
    repeated(|| {
        let function = cases::initialised_locals(0, count);
        Function { body: vec![cases::emit(1, count)], ..function }
    })
}

/// Functions in which every expression has a name.
fn named_expressions() -> Module {
    let mut module = repeated(|| {
        let mut function = composing((0..EXPRESSIONS - 1).map(cases::literal).collect());
        let named = |own: usize| Named { expression: word(own), name: word(1) };
        function.named = (0..EXPRESSIONS).map(named).collect();
        function
    });
    let names = module.names.len();
    for (own, function) in module.functions.iter_mut().enumerate() {
        function.named.iter_mut().for_each(|named| named.name = word(1 + own % names));
    }
    module
}

/// Functions of bodies so many blocks deep.
fn nested_bodies(depth: usize) -> Module {
    repeated(|| {
        let mut body = vec![cases::barrier(); 4];
        for _ in 1..depth {
            body = vec![cases::made(statement::BLOCK, Body::Block(body))];
        }
        Function { body, ..named() }
    })
}

/// A function of Emits over nothing.
fn empty_emits() -> Module {
    cases::one(Function { body: vec![cases::emit(0, 0); 2_700], ..named() })
}

/// Entry points that share what they read.
fn entry_points(count: usize) -> Module {
    let function = Function { name: word(0), ..cases::initialised_locals(1, 190) };
    let entry = EntryPoint { name: word(1), function, ..EntryPoint::default() };
    Module { entry_points: vec![entry; count], ..cases::base() }
}
