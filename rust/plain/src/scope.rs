//! Test 6: the Scope paragraph of document 01, for every function record.
//!
//! One walk over the statements in text order. It carries the set of expressions in scope, which grows along a
//! block and is taken back at its end, the set of those evaluated so far, and what stands around the statement.
//! Numbers are in range and operands are lower here: tests 3 and 4 came before.

use std::collections::HashSet;

use crate::fields::{self, expression, statement};
use crate::intake::{functions, reached};
use crate::module::*;
use crate::Refused;

type Test = Result<(), Refused>;

/// Test 6 over the whole image.
pub(crate) fn test_6(module: &Module) -> Test {
    for function in functions(module) {
        let mut walk = Walk::new(function);
        walk.block(&function.body, Around::default())?;
    }
    Ok(())
}

/// A block that a Break or a Continue may leave.
#[derive(Clone, Copy, PartialEq)]
enum Leaving {
    Nothing,
    LoopBody,
    Continuing,
    Switch,
}

/// What stands around a statement.
#[derive(Clone, Copy)]
struct Around {
    /// The innermost Loop block or Switch.
    for_break: Leaving,
    /// The innermost Loop block.
    for_continue: Leaving,
    /// Whether any continuing block does.
    continuing: bool,
}

impl Default for Around {
    fn default() -> Self {
        Around { for_break: Leaving::Nothing, for_continue: Leaving::Nothing, continuing: false }
    }
}

impl Around {
    fn in_body(self) -> Self {
        Around { for_break: Leaving::LoopBody, for_continue: Leaving::LoopBody, ..self }
    }

    fn in_continuing(self) -> Self {
        let continuing = Leaving::Continuing;
        Around { for_break: continuing, for_continue: continuing, continuing: true }
    }

    fn in_switch(self) -> Self {
        Around { for_break: Leaving::Switch, ..self }
    }
}

/// The state of the walk over one function.
struct Walk<'a> {
    function: &'a Function,
    /// The non-standing expressions that initialisers of locals reach.
    initialisers: HashSet<u32>,
    /// What is in scope beside the standing expressions, in the order in which it came.
    scope: Vec<u32>,
    evaluated: HashSet<u32>,
}

impl<'a> Walk<'a> {
    fn new(function: &'a Function) -> Self {
        let stands = |number: &u32| fields::standing(function.expressions[*number as usize].kind.value);
        let initialisers = reached(function).into_iter().filter(|number| !stands(number)).collect();
        Walk { function, initialisers, scope: Vec::new(), evaluated: HashSet::new() }
    }

    fn kind(&self, number: u32) -> u32 {
        self.function.expressions[number as usize].kind.value
    }

    /// A block of its own scope: what it brings is gone behind it.
    fn block(&mut self, block: &Block, around: Around) -> Test {
        let before = self.scope.len();
        self.statements(block, around)?;
        self.scope.truncate(before);
        Ok(())
    }

    /// Statements one after the other; what they bring stays in scope.
    fn statements(&mut self, statements: &[Statement], around: Around) -> Test {
        statements.iter().try_for_each(|statement| self.statement(statement, around))
    }

    fn statement(&mut self, statement: &Statement, around: Around) -> Test {
        for operand in statement.reads() {
            self.read(operand)?;
        }
        match &statement.body {
            Body::Emit { start, end } => self.emit(*start, *end)?,
            Body::Block(block) => self.block(block, around)?,
            Body::If { accept, reject, .. } => {
                self.block(accept, around)?;
                self.block(reject, around)?;
            }
            Body::Switch { cases, .. } => {
                for case in cases {
                    self.block(&case.body, around.in_switch())?;
                }
            }
            Body::Loop { body, continuing, break_if } => {
                self.loop_blocks(body, continuing, *break_if, around)?
            }
            Body::Plain(_) => leaves_well(statement, around)?,
        }
        match statement.result() {
            Some(result) => self.result(statement, result),
            None => Ok(()),
        }
    }

    /// The continuing block and break_if also see the body's top level up to the first Continue of this loop,
    /// and break_if the continuing block's.
    fn loop_blocks(&mut self, body: &Block, continuing: &Block, break_if: Word, around: Around) -> Test {
        let before = self.scope.len();
        let cut = body.iter().position(continues).unwrap_or(body.len());
        self.statements(&body[..cut], around.in_body())?;
        let seen = self.scope.len();
        self.statements(&body[cut..], around.in_body())?;
        self.scope.truncate(seen);
        self.statements(continuing, around.in_continuing())?;
        if let Some(operand) = optional(break_if) {
            self.read(operand)?;
        }
        self.scope.truncate(before);
        Ok(())
    }

    /// An expression is read: it stands, or it is in scope and no initialiser expression.
    fn read(&self, operand: Operand) -> Test {
        let number = operand.number;
        if self.initialisers.contains(&number) {
            let rule = "outside initialisers nothing reads an initialiser expression";
            return Err(Refused::at(6, operand.at, rule));
        }
        if fields::standing(self.kind(number)) || self.scope.contains(&number) {
            return Ok(());
        }
        Err(Refused::at(6, operand.at, "what is read is in scope"))
    }

    /// An expression is evaluated, by one Emit or statement at most.
    fn evaluate(&mut self, operand: Operand) -> Test {
        if !self.evaluated.insert(operand.number) {
            let rule = "an expression is evaluated by one Emit or statement at most";
            return Err(Refused::at(6, operand.at, rule));
        }
        self.scope.push(operand.number);
        Ok(())
    }

    /// Each expression of the range in its turn. The own reads of initialiser expressions do not count.
    fn emit(&mut self, start: Word, end: Word) -> Test {
        for number in start.value..end.value {
            let kind = self.kind(number);
            if fields::standing(kind) || fields::result(kind) {
                let rule = "an Emit holds no standing or result kind";
                return Err(Refused::at(6, start.at, rule));
            }
            if !self.initialisers.contains(&number) {
                for operand in self.function.expressions[number as usize].operands() {
                    self.read(operand)?;
                }
            }
            self.evaluate(Operand { at: start.at, number })?;
        }
        Ok(())
    }

    /// A statement's result, which is in scope behind the statement.
    fn result(&mut self, statement: &Statement, result: Operand) -> Test {
        let record = &self.function.expressions[result.number as usize];
        let same_function = || {
            let number = |word: Word| word.value;
            record.callee().map(number) == statement.callee().map(number)
        };
        let fits = match statement.kind.value {
            statement::CALL => record.kind.value == expression::CALL_RESULT && same_function(),
            statement::ATOMIC => record.kind.value == expression::ATOMIC_RESULT,
            _ => record.kind.value == expression::WORK_GROUP_UNIFORM_LOAD_RESULT,
        };
        if !fits {
            let rule = "a statement's result is of the kind, and of the function, that the statement has";
            return Err(Refused::at(6, result.at, rule));
        }
        self.evaluate(result)
    }
}

/// That a Break, a Continue or a Return stands where it may.
fn leaves_well(statement: &Statement, around: Around) -> Test {
    let at = statement.kind.at;
    let barred = |leaving| matches!(leaving, Leaving::Nothing | Leaving::Continuing);
    match statement.kind.value {
        statement::BREAK if barred(around.for_break) => Err(Refused::at(
            6,
            at,
            "a Break stands in a Loop's body or a Switch, closer than any continuing block",
        )),
        statement::CONTINUE if barred(around.for_continue) => {
            Err(Refused::at(6, at, "a Continue stands in a Loop's body, closer than any continuing block"))
        }
        statement::RETURN if around.continuing => {
            Err(Refused::at(6, at, "no Return stands in a continuing block"))
        }
        _ => Ok(()),
    }
}

/// Whether a statement of a loop's body holds a Continue of that loop: at any depth, but in no inner loop.
pub(crate) fn continues(statement: &Statement) -> bool {
    if statement.kind.value == statement::CONTINUE {
        return true;
    }
    if statement.kind.value == statement::LOOP {
        return false;
    }
    statement.blocks().into_iter().flatten().any(continues)
}
