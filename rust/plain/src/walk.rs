//! Walks: what a body does when a list of numbers decides its branches, told as events.
//!
//! A walk is for comparing a function with what it was linked to. It takes a body that intake admitted, so a Break
//! and a Continue have their places.

use std::collections::HashSet;

use crate::fields::{self, statement};
use crate::intake::reached;
use crate::module::*;

/// What happens along a walk, by number of expression or function.
#[derive(Clone, Copy, Debug, PartialEq, Eq)]
pub enum Event {
    Read(u32),
    Evaluate(u32),
    Call(u32),
}

/// How a walk ends.
#[derive(Clone, Copy, Debug, PartialEq, Eq, PartialOrd, Ord)]
pub enum End {
    /// A number is wanted and none is left.
    Numbers,
    /// The case that is wanted is missing.
    Case,
    Body,
    Return,
    Kill,
}

/// The walk of a function's body by these numbers.
pub fn walk(function: &Function, numbers: &[u32]) -> (Vec<Event>, End) {
    let stands = |number: &u32| fields::standing(function.expressions[*number as usize].kind.value);
    let initialisers = reached(function).into_iter().filter(|number| !stands(number)).collect();
    let mut walk = Walk { function, initialisers, numbers: numbers.iter(), events: Vec::new() };
    let end = match walk.block(&function.body) {
        Err(end) => end,
        Ok(_) => End::Body,
    };
    (walk.events, end)
}

/// Where a statement leaves to, if the walk goes on.
#[derive(Clone, Copy, PartialEq)]
enum Leave {
    On,
    Break,
    Continue,
}

struct Walk<'a> {
    function: &'a Function,
    /// Initialiser expressions, which are left out.
    initialisers: HashSet<u32>,
    numbers: std::slice::Iter<'a, u32>,
    events: Vec<Event>,
}

impl Walk<'_> {
    fn number(&mut self) -> Result<u32, End> {
        self.numbers.next().copied().ok_or(End::Numbers)
    }

    fn reads(&mut self, operands: Vec<Operand>) {
        self.events.extend(operands.iter().map(|operand| Event::Read(operand.number)));
    }

    fn block(&mut self, block: &Block) -> Result<Leave, End> {
        for statement in block {
            let leave = self.statement(statement)?;
            if leave != Leave::On {
                return Ok(leave);
            }
        }
        Ok(Leave::On)
    }

    fn statement(&mut self, statement: &Statement) -> Result<Leave, End> {
        self.reads(statement.reads());
        match &statement.body {
            Body::Emit { start, end } => {
                self.emit(start.value..end.value);
                Ok(Leave::On)
            }
            Body::Block(block) => self.block(block),
            Body::If { accept, reject, .. } => match self.number()? {
                0 => self.block(reject),
                _ => self.block(accept),
            },
            Body::Switch { cases, .. } => self.switch(cases),
            Body::Loop { body, continuing, break_if } => self.rounds(body, continuing, *break_if),
            Body::Plain(_) => self.plain(statement),
        }
    }

    fn emit(&mut self, range: std::ops::Range<u32>) {
        for expression in range {
            if !self.initialisers.contains(&expression) {
                self.reads(self.function.expressions[expression as usize].operands());
                self.events.push(Event::Evaluate(expression));
            }
        }
    }

    /// The case of this index and, while one falls through, the next.
    fn switch(&mut self, cases: &[Case]) -> Result<Leave, End> {
        let mut index = self.number()? as usize;
        loop {
            let case = cases.get(index).ok_or(End::Case)?;
            match self.block(&case.body)? {
                Leave::Break => return Ok(Leave::On),
                Leave::Continue => return Ok(Leave::Continue),
                Leave::On if case.fall_through.value == 0 => return Ok(Leave::On),
                Leave::On => index += 1,
            }
        }
    }

    /// Rounds of a Loop: the body, the continuing block, break_if and a number.
    fn rounds(&mut self, body: &Block, continuing: &Block, break_if: Word) -> Result<Leave, End> {
        loop {
            if self.block(body)? == Leave::Break {
                return Ok(Leave::On);
            }
            self.block(continuing)?;
            self.reads(optional(break_if).into_iter().collect());
            let breaks = self.number()? != 0 && break_if.optional().is_some();
            if breaks {
                return Ok(Leave::On);
            }
        }
    }

    /// A statement without blocks, whose reads were told: it leaves, or it calls and evaluates its result.
    fn plain(&mut self, statement: &Statement) -> Result<Leave, End> {
        match statement.kind.value {
            statement::BREAK => return Ok(Leave::Break),
            statement::CONTINUE => return Ok(Leave::Continue),
            statement::RETURN => return Err(End::Return),
            statement::KILL => return Err(End::Kill),
            _ => (),
        }
        self.events.extend(statement.callee().map(|callee| Event::Call(callee.value)));
        self.events.extend(statement.result().map(|result| Event::Evaluate(result.number)));
        Ok(Leave::On)
    }
}
