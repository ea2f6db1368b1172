//! Every small body over a fixed set of expressions: what test 6 decides, without a gap.
//!
//! One function has a literal, two emitted expressions (the second reads the first), a result of a call and an
//! initialiser expression. Its body is any block of so many statements, counted with those inside them, from a
//! small alphabet: Emits of each, reads of each, every way to leave, and every statement with blocks.

use crate::fields::{expression, statement};
use crate::module::*;
use crate::random::Random;

/// The numbers of the expressions.
const LITERAL: u32 = 0;
const FIRST: u32 = 1;
const SECOND: u32 = 2;
const RESULT: u32 = 3;
const INITIALISER: u32 = 4;

/// What break_if may be: none, or one of those that are evaluated.
const BREAK_IFS: [u32; 4] = [0, FIRST + 1, SECOND + 1, RESULT + 1];

/// The module whose function has this body.
pub fn module(body: Block) -> Module {
    let one = |value: u32| Value::One(value.into());
    let of_kind = |kind: u32, values| Expression { kind: kind.into(), span: Span::default(), values };
    let expressions = vec![
        of_kind(expression::LITERAL, vec![one(3), one(0), one(0)]),
        of_kind(expression::UNARY, vec![one(0), one(LITERAL)]),
        of_kind(expression::UNARY, vec![one(0), one(FIRST)]),
        of_kind(expression::CALL_RESULT, vec![one(0)]),
        of_kind(expression::SPLAT, vec![one(0), one(LITERAL)]),
    ];
    let local = Local { span: Span::default(), name: 0.into(), ty: 0.into(), init: (INITIALISER + 1).into() };
    let function = Function { name: 1.into(), locals: vec![local], expressions, body, ..Function::default() };
    let leaf = Inner::Leaf { leaf: 0.into(), copied: Binding::default() };
    Module {
        names: vec![Name { at: 0, bytes: b"f".to_vec() }],
        types: vec![Type { name: 0.into(), span: Span::default(), inner: leaf }],
        functions: vec![function],
        ..Module::default()
    }
}

/// Every block of each size up to `most`: `blocks(most)[n]` are those of n statements.
pub fn blocks(most: usize) -> Vec<Vec<Block>> {
    let mut blocks = vec![vec![Vec::new()]];
    let mut statements = vec![Vec::new()];
    for size in 1..=most {
        let of_size = statements_of(size, &blocks);
        statements.push(of_size);
        let mut of_size = Vec::new();
        for first in 1..=size {
            for statement in &statements[first] {
                for rest in &blocks[size - first] {
                    let mut block = vec![statement.clone()];
                    block.extend(rest.iter().cloned());
                    of_size.push(block);
                }
            }
        }
        blocks.push(of_size);
    }
    blocks
}

/// Every statement of this size, over the blocks of lower sizes.
fn statements_of(size: usize, blocks: &[Vec<Block>]) -> Vec<Statement> {
    let inner = size - 1;
    let mut statements = if inner == 0 { leaves() } else { Vec::new() };
    for block in &blocks[inner] {
        statements.push(made(statement::BLOCK, Body::Block(block.clone())));
        statements.push(switch(vec![block.clone()]));
    }
    for first in 0..=inner {
        for accept in &blocks[first] {
            for reject in &blocks[inner - first] {
                let (accept, reject) = (accept.clone(), reject.clone());
                let branch =
                    Body::If { condition: LITERAL.into(), accept: accept.clone(), reject: reject.clone() };
                statements.push(made(statement::IF, branch));
                for break_if in BREAK_IFS {
                    statements.push(looping(accept.clone(), reject.clone(), break_if));
                }
            }
        }
    }
    statements
}

/// Calls `each` with every body that is one Loop of three statements without blocks, or of two that may be a block
/// around one: shared in every way between its body and its continuing block, with every break_if.
pub fn loops(each: &mut impl FnMut(Block)) {
    let leaves = leaves();
    for one in &leaves {
        for two in &leaves {
            for three in &leaves {
                shared(&[one, two, three], each);
            }
        }
    }
    let around = around(&leaves);
    for one in &around {
        for two in &around {
            shared(&[one, two], each);
        }
    }
}

/// The loops of these statements.
fn shared(statements: &[&Statement], each: &mut impl FnMut(Block)) {
    let block = |part: &[&Statement]| part.iter().copied().cloned().collect();
    for cut in 0..=statements.len() {
        for break_if in BREAK_IFS {
            each(vec![looping(block(&statements[..cut]), block(&statements[cut..]), break_if)]);
        }
    }
}

/// The statements without blocks, and every statement with blocks around one that leaves or evaluates.
fn around(leaves: &[Statement]) -> Vec<Statement> {
    let mut all = leaves.to_vec();
    let telling = |kind: u32| matches!(kind, statement::BREAK..=statement::RETURN | statement::CALL);
    let first = &leaves[1];
    for leaf in leaves.iter().filter(|leaf| telling(leaf.kind.value)).chain([first]) {
        let block = || vec![leaf.clone()];
        all.push(made(statement::BLOCK, Body::Block(block())));
        all.push(made(
            statement::IF,
            Body::If { condition: LITERAL.into(), accept: block(), reject: vec![] },
        ));
        all.push(made(
            statement::IF,
            Body::If { condition: LITERAL.into(), accept: vec![], reject: block() },
        ));
        all.push(switch(vec![block()]));
        all.push(looping(block(), vec![], 0));
        all.push(looping(vec![], block(), 0));
    }
    all
}

/// A block of this size, drawn.
pub fn draw(random: &mut Random, size: usize) -> Block {
    let mut block = Vec::new();
    let mut left = size;
    while left > 0 {
        let first = random.between(1, left);
        block.push(draw_statement(random, first));
        left -= first;
    }
    block
}

fn draw_statement(random: &mut Random, size: usize) -> Statement {
    if size == 1 && !random.once_in(4) {
        return random.pick(&leaves()).clone();
    }
    let first = random.between(0, size - 1);
    let (one, other) = (draw(random, first), draw(random, size - 1 - first));
    match random.below(6) {
        0 => made(statement::BLOCK, Body::Block(one.into_iter().chain(other).collect())),
        1 => made(statement::IF, Body::If { condition: LITERAL.into(), accept: one, reject: other }),
        2 => switch(vec![one, other]),
        _ => looping(one, other, *random.pick(&BREAK_IFS)),
    }
}

fn made(kind: u32, body: Body) -> Statement {
    Statement { at: 0, kind: kind.into(), span: Span::default(), body }
}

/// A Switch with these cases; each falls through.
fn switch(blocks: Vec<Block>) -> Statement {
    let value = Value::Variant(2.into(), Vec::new());
    let case = |body| Case { value: value.clone(), body, fall_through: 1.into() };
    let cases = blocks.into_iter().map(case).collect();
    made(statement::SWITCH, Body::Switch { selector: LITERAL.into(), cases })
}

fn looping(body: Block, continuing: Block, break_if: u32) -> Statement {
    made(statement::LOOP, Body::Loop { body, continuing, break_if: break_if.into() })
}

/// The statements without blocks.
fn leaves() -> Vec<Statement> {
    let one = |value: u32| Value::One(value.into());
    let plain = |kind, values| made(kind, Body::Plain(values));
    let emit =
        |start: u32, end: u32| made(statement::EMIT, Body::Emit { start: start.into(), end: end.into() });
    let read = |number| plain(statement::STORE, vec![one(LITERAL), one(number)]);
    vec![
        emit(FIRST, FIRST),
        emit(FIRST, FIRST + 1),
        emit(SECOND, SECOND + 1),
        emit(FIRST, SECOND + 1),
        emit(LITERAL, LITERAL + 1),
        emit(RESULT, RESULT + 1),
        emit(INITIALISER, INITIALISER + 1),
        read(FIRST),
        read(SECOND),
        read(RESULT),
        read(INITIALISER),
        plain(statement::CALL, vec![one(0), Value::List(Vec::new()), one(RESULT + 1)]),
        plain(statement::BREAK, Vec::new()),
        plain(statement::CONTINUE, Vec::new()),
        plain(statement::RETURN, vec![one(0)]),
        plain(statement::KILL, Vec::new()),
    ]
}
