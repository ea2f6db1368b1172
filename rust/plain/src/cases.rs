//! Named images: one at each limit and one past it, and the worst cases for time.
//!
//! They are built from data, not drawn from a seed, so that a refusal at a limit has a name in a report.

use crate::fields::{expression, limit, statement};
use crate::module::*;
use crate::random::Random;
use crate::write::write;

/// A name that a report can print, and an image.
pub type Case = (String, Vec<u8>);

/// For each limit an image that meets it and one that passes it.
pub fn limits() -> Vec<Case> {
    let mut cases = Vec::new();
    for over in [0, 1] {
        let mut case = |what: &str, most: u32, make: fn(usize) -> Module| {
            let count = most as usize + over;
            cases.push((format!("{what} {count}"), write(&make(count))));
        };
        case("names", limit::RECORDS, |n| Module { names: names(n), ..Module::default() });
        case("types", limit::RECORDS, |n| Module { types: vec![leaf(); n], ..Module::default() });
        case("constants", limit::RECORDS, |n| Module { constants: vec![constant(); n], ..base() });
        case("overrides", limit::RECORDS, |n| Module { overrides: vec![override_record(); n], ..base() });
        case("globals", limit::RECORDS, |n| Module { globals: vec![global(); n], ..base() });
        case("global expressions", limit::RECORDS, |n| Module { expressions: vec![literal(0); n], ..base() });
        case("functions", limit::FUNCTIONS, |n| functions(n, |_| Vec::new()));
        case("entry points", limit::ENTRY_POINTS, entry_points);
        case("pairs", limit::RECORDS, pairs);
        case("members", limit::MEMBERS, members);
        case("arguments", limit::ARGUMENTS, |n| one(Function { arguments: vec![argument(); n], ..named() }));
        case("locals", limit::LOCALS, |n| one(Function { locals: vec![local(0); n], ..named() }));
        case("expressions", limit::EXPRESSIONS, |n| {
            one(Function { expressions: vec![literal(0); n], ..named() })
        });
        case("named expressions", limit::NAMED, named_expressions);
        case("depth", limit::DEPTH as u32, |n| one(Function { body: nested(n), ..named() }));
        case("words", limit::BYTES as u32 / 4, of_words);
    }
    cases
}

/// Images on which a slow way of working shows.
pub fn worst() -> Vec<Case> {
    vec![
        (
            "512 names of equal length that differ in their last bytes".to_owned(),
            write(&Module { names: names_last_byte(512), ..Module::default() }),
        ),
        (
            "512 names of equal length whose hashes have one place".to_owned(),
            write(&Module { names: names_one_place(512), ..Module::default() }),
        ),
        ("one function of 1,024 expressions".to_owned(), write(&one(chained_expressions(1024)))),
        ("1,024 Emits".to_owned(), write(&one(emitted_one_by_one(1024)))),
        ("a Compose of all".to_owned(), write(&one(composed(14_000)))),
        ("128 locals with initialisers".to_owned(), write(&one(initialised_locals(128, 800)))),
        (
            "256 functions, each calls the one before".to_owned(),
            write(&functions(256, |own| own.checked_sub(1).into_iter().collect())),
        ),
        (
            "256 functions, each calls the one behind".to_owned(),
            write(&functions(256, |own| successor(own, 256))),
        ),
        ("67 functions that call all lower ones".to_owned(), write(&functions(67, |own| (0..own).collect()))),
        (
            "256 functions that call six lower ones".to_owned(),
            write(&functions(256, |own| (own.saturating_sub(6)..own).collect())),
        ),
        ("256 functions in a ring".to_owned(), write(&functions(256, |own| vec![(own + 1) % 256]))),
        ("Loops nested 32 deep".to_owned(), write(&one(Function { body: nested_loops(32), ..named() }))),
        ("16,384 words".to_owned(), write(&of_words(16_384))),
    ]
}

pub(crate) fn word(value: usize) -> Word {
    (value as u32).into()
}

/// Distinct names of one or two words each.
fn names(count: usize) -> Vec<Name> {
    (0..count).map(|own| Name { at: 0, bytes: format!("n{own}").into_bytes() }).collect()
}

/// Names of equal length and word count, which differ only where a comparison looks last. 512 names need more than
/// the 256 values of one byte, so every second differs in the last byte but one too.
fn names_last_byte(count: usize) -> Vec<Name> {
    let bytes = |own: usize| {
        let mut bytes = vec![b'x'; 100];
        bytes[98] = b'a' + (own / 256) as u8;
        bytes[99] = (own % 256) as u8;
        bytes
    };
    (0..count).map(|own| Name { at: 0, bytes: bytes(own) }).collect()
}

/// Names of equal length that the archive's test 5 has to compare by pairs: it hashes a name word by word, and the
/// hashes of these have the same place among its 4,096 marks.
fn names_one_place(count: usize) -> Vec<Name> {
    let mix = |hash: u64, word: u32| (hash + u64::from(word)) * 2_654_435_769 / 1_048_576 % 16_777_216;
    let before = [u32::from_le_bytes(*b"xxxx"); 28].into_iter().fold(mix(0, 116), mix);
    let last = (0..=u32::MAX).filter(|word| mix(before, *word) % 4096 == 0);
    let bytes = |word: u32| [[b'x'; 112].as_slice(), &word.to_le_bytes()].concat();
    last.take(count).map(|word| Name { at: 0, bytes: bytes(word) }).collect()
}

pub(crate) fn leaf() -> Type {
    leaf_of(0)
}

/// Leaves of different numbers are different types.
pub(crate) fn leaf_of(own: usize) -> Type {
    let mut copied = Binding::default();
    copied[0] = word(own);
    Type { name: word(0), span: Span::default(), inner: Inner::Leaf { leaf: word(0), copied } }
}

/// A struct of these members.
pub(crate) fn of_members(members: Vec<Member>) -> Type {
    Type { name: word(0), span: Span::default(), inner: Inner::Struct { size: word(0), members } }
}

/// A module with one name, one type and one global expression.
pub(crate) fn base() -> Module {
    Module { names: names(1), types: vec![leaf()], expressions: vec![literal(0)], ..Module::default() }
}

pub(crate) fn constant() -> Constant {
    Constant { name: word(0), span: Span::default(), ty: word(0), init: word(0) }
}

pub(crate) fn override_record() -> Override {
    Override { name: word(0), span: Span::default(), id: word(0), ty: word(0), init: word(1) }
}

pub(crate) fn global() -> Global {
    Global {
        name: word(0),
        span: Span::default(),
        space: [word(0); 2],
        binding: [word(0); 3],
        ty: word(0),
        init: word(1),
        decorations: word(0),
    }
}

pub(crate) fn of_kind(kind: u32, values: Vec<Value>) -> Expression {
    Expression { kind: kind.into(), span: Span::default(), values }
}

pub(crate) fn literal(low: usize) -> Expression {
    of_kind(expression::LITERAL, vec![Value::One(word(3)), Value::One(word(low)), Value::One(word(0))])
}

/// A Unary of a lower expression.
fn unary(operand: usize) -> Expression {
    of_kind(expression::UNARY, vec![Value::One(word(0)), Value::One(word(operand))])
}

fn argument() -> Argument {
    Argument { name: word(0), ty: word(0), binding: Binding::default() }
}

fn local(init: usize) -> Local {
    Local { span: Span::default(), name: word(0), ty: word(0), init: word(init) }
}

/// A function that bears name 0.
pub(crate) fn named() -> Function {
    Function { name: word(1), ..Function::default() }
}

/// A module of one function.
pub(crate) fn one(function: Function) -> Module {
    Module { functions: vec![function], ..base() }
}

pub(crate) fn made(kind: u32, body: Body) -> Statement {
    Statement { at: 0, kind: kind.into(), span: Span::default(), body }
}

pub(crate) fn emit(start: usize, end: usize) -> Statement {
    made(statement::EMIT, Body::Emit { start: word(start), end: word(end) })
}

/// A Call without arguments; the result is optional.
pub(crate) fn call(callee: usize, result: usize) -> Statement {
    let values = vec![Value::One(word(callee)), Value::List(Vec::new()), Value::One(word(result))];
    made(statement::CALL, Body::Plain(values))
}

/// So many functions, each with the calls that it is given.
pub(crate) fn functions(count: usize, callees: impl Fn(usize) -> Vec<usize>) -> Module {
    let function = |own| Function {
        name: word(own + 1),
        body: callees(own).into_iter().map(|callee| call(callee, 0)).collect(),
        ..Function::default()
    };
    Module { names: names(count), functions: (0..count).map(function).collect(), ..Module::default() }
}

/// An entry point that makes these calls.
pub(crate) fn calling_entry(callees: Vec<usize>) -> EntryPoint {
    let body = callees.into_iter().map(|callee| call(callee, 0)).collect();
    let function = Function { body, ..Function::default() };
    EntryPoint { name: word(1), function, ..EntryPoint::default() }
}

/// So many functions and calls between them, drawn; without rings in a sequence of their own.
pub fn graph(random: &mut Random, count: usize, calls: usize, rings: bool) -> Module {
    let mut sequence: Vec<usize> = (0..count).collect();
    for i in (1..count).rev() {
        sequence.swap(i, random.below(i + 1));
    }
    let mut callees = vec![Vec::new(); count];
    for _ in 0..calls {
        let (one, other) = (random.below(count), random.below(count));
        if rings || sequence[one] < sequence[other] {
            callees[other].push(one);
        }
    }
    functions(count, |own| callees[own].clone())
}

/// The next function, if there is one.
fn successor(own: usize, count: usize) -> Vec<usize> {
    if own + 1 < count {
        vec![own + 1]
    } else {
        Vec::new()
    }
}

fn entry_points(count: usize) -> Module {
    let entry = EntryPoint { name: word(1), ..EntryPoint::default() };
    Module { entry_points: vec![entry; count], ..base() }
}

fn pairs(count: usize) -> Module {
    let pairs = (0..count).map(|key| (word(key), word(0))).collect();
    Module { special: Special { pairs, ..Special::default() }, ..base() }
}

fn members(count: usize) -> Module {
    let member = Member { name: word(0), ty: word(0), offset: word(0), binding: Binding::default() };
    Module { types: vec![leaf(), of_members(vec![member; count])], ..Module::default() }
}

fn named_expressions(count: usize) -> Module {
    let name = |own: usize| Named { expression: word(own), name: word(1) };
    let function = Function { expressions: vec![literal(0); 1024], ..named() };
    one(Function { named: (0..count).map(|own| name(own % 1024)).collect(), ..function })
}

/// A body of blocks in blocks, so many deep.
fn nested(depth: usize) -> Block {
    match depth {
        1 => Vec::new(),
        _ => vec![made(statement::BLOCK, Body::Block(nested(depth - 1)))],
    }
}

/// Loops in bodies of loops, so many blocks deep.
fn nested_loops(depth: usize) -> Block {
    if depth == 1 {
        return Vec::new();
    }
    let body = Body::Loop { body: nested_loops(depth - 1), continuing: Vec::new(), break_if: word(0) };
    vec![made(statement::LOOP, body)]
}

pub(crate) fn barrier() -> Statement {
    made(9, Body::Plain(vec![Value::One(word(0))]))
}

/// A module of exactly so many words: one function of barriers, filled up by names.
fn of_words(total: usize) -> Module {
    let mut module = one(Function { body: vec![barrier(); (total - 100) / 5], ..named() });
    let have = write(&module).len() / 4;
    // A further name takes its offset, its length and its bytes.
    module.names.push(Name { at: 0, bytes: vec![b'f'; 4 * (total - have - 2)] });
    module
}

/// Unary on Unary on a literal, in one Emit.
fn chained_expressions(count: usize) -> Function {
    let mut expressions = vec![literal(0)];
    expressions.extend((1..count).map(|own| unary(own - 1)));
    Function { expressions, body: vec![emit(1, count)], ..named() }
}

/// The same, with an Emit for each.
fn emitted_one_by_one(count: usize) -> Function {
    let body = (1..count).map(|own| emit(own, own + 1)).collect();
    Function { body, ..chained_expressions(count) }
}

/// One Compose that reads a literal so many times.
fn composed(count: usize) -> Function {
    let compose = of_kind(expression::COMPOSE, vec![Value::One(word(0)), Value::List(vec![word(0); count])]);
    Function { expressions: vec![literal(0), compose], body: vec![emit(1, 2)], ..named() }
}

/// Locals that all have the end of one long chain as their initialiser.
pub(crate) fn initialised_locals(locals: usize, expressions: usize) -> Function {
    let chain = chained_expressions(expressions);
    Function { locals: vec![local(expressions); locals], body: Vec::new(), ..chain }
}
