//! Valid images from a seed: every kind of type, expression and statement, in shapes that intake accepts.
//!
//! Each record is made so that it meets the tests. A body is grown statement by statement over the set of what
//! is in scope, in the manner of test 6 but forwards: an expression is made when a statement wants it, so its
//! operands are lower and in scope. Expressions that nothing evaluates, and initialisers, are strewn between.

use crate::fields::{self, expression, limit, statement, Field, Row, CASE_VALUES, EXPRESSIONS, STATEMENTS};
use crate::module::*;
use crate::random::Random;
use crate::write::write;

/// How large an image becomes, and whether functions may call in rings.
#[derive(Clone, Copy, Debug)]
pub struct Options {
    /// The most functions.
    pub functions: usize,
    /// The most records of each other table.
    pub records: usize,
    /// About how many statements a function has, nested ones included.
    pub statements: usize,
    /// Whether a function may call any other and itself.
    pub rings: bool,
}

impl Options {
    /// Small images, of some hundred words.
    pub fn small() -> Self {
        Options { functions: 4, records: 4, statements: 8, rings: false }
    }

    /// Images of some thousand words.
    pub fn large() -> Self {
        Options { functions: 24, records: 24, statements: 40, rings: false }
    }

    /// The same with rings allowed.
    pub fn with_rings(self) -> Self {
        Options { rings: true, ..self }
    }
}

/// A valid module whose image fits the limit of bytes.
pub fn generate(random: &mut Random, options: Options) -> Module {
    let mut options = options;
    loop {
        let module = attempt(random, options);
        if write(&module).len() <= limit::BYTES {
            return module;
        }
        options.functions = options.functions.div_ceil(2);
        options.statements /= 2;
        options.records /= 2;
    }
}

/// The image of such a module.
pub fn image(random: &mut Random, options: Options) -> Vec<u8> {
    write(&generate(random, options))
}

/// A valid module of about so many words (at least some hundred), whose functions call only lower ones.
pub fn sized(random: &mut Random, words: usize) -> Module {
    let options = Options { functions: 0, records: 1 + words / 200, statements: 30, rings: false };
    let mut module = attempt(random, options);
    module.entry_points.clear();
    // A function that is too long is drawn again, shorter ones being common, so that the size comes near.
    let mut misses = 0;
    while misses < 20 && module.functions.len() < limit::FUNCTIONS as usize {
        let own = module.functions.len() as u32;
        let callable: Vec<u32> = (own.saturating_sub(8)..own).collect();
        let mut next = module.clone();
        next.names.push(Name { at: 0, bytes: format!("function{own}").into_bytes() });
        let mut function = function(random, &next, options, &callable);
        function.name = (next.names.len() as u32).into();
        next.functions.push(function);
        if write(&next).len() <= 4 * words {
            module = next;
        } else {
            misses += 1;
        }
    }
    module
}

fn attempt(random: &mut Random, options: Options) -> Module {
    let functions = random.between(0, options.functions);
    let entries = random.between(0, options.functions.min(limit::ENTRY_POINTS as usize));
    let mut module = Module::default();
    names(random, &mut module, functions + options.records + 1);
    types(random, &mut module, options);
    values(random, &mut module, options);
    globals(random, &mut module, options);
    special(random, &mut module);
    let callable = Callable::new(random, functions, options.rings);
    for own in 0..functions {
        let mut function = function(random, &module, options, callable.by(own));
        function.name = (1 + own as u32).into();
        module.functions.push(function);
    }
    for _ in 0..entries {
        let entry = entry_point(random, &module, options, &callable.all);
        module.entry_points.push(entry);
    }
    module
}

/// Which functions each function may call: any with rings, else those before it in a shuffled sequence.
struct Callable {
    all: Vec<u32>,
    place: Vec<usize>,
    rings: bool,
}

impl Callable {
    fn new(random: &mut Random, functions: usize, rings: bool) -> Self {
        let mut all: Vec<u32> = (0..functions as u32).collect();
        for i in (1..functions).rev() {
            all.swap(i, random.below(i + 1));
        }
        let mut place = vec![0; functions];
        for (at, own) in all.iter().enumerate() {
            place[*own as usize] = at;
        }
        Callable { all, place, rings }
    }

    fn by(&self, own: usize) -> &[u32] {
        if self.rings {
            &self.all
        } else {
            &self.all[..self.place[own]]
        }
    }
}

// ---- words ----

/// A copied word: now and then one with high bits.
fn copied(random: &mut Random) -> Word {
    match random.below(4) {
        0 => random.word().into(),
        1 => u32::MAX.into(),
        _ => (random.below(5) as u32).into(),
    }
}

fn array<const N: usize>(random: &mut Random) -> [Word; N] {
    std::array::from_fn(|_| copied(random))
}

fn span(random: &mut Random) -> Span {
    if random.once_in(2) {
        return Span::default();
    }
    array(random)
}

/// A number below a count that is not 0.
fn number(random: &mut Random, count: usize) -> Word {
    (random.below(count) as u32).into()
}

/// An optional number: none, or below the count.
fn optional_number(random: &mut Random, count: usize) -> Word {
    (random.below(count + 1) as u32).into()
}

fn name(random: &mut Random, module: &Module) -> Word {
    optional_number(random, module.names.len())
}

// ---- tables ----

/// Distinct names, the empty one and ones that are no UTF-8 among them.
fn names(random: &mut Random, module: &mut Module, count: usize) {
    let empty = random.below(2 * count);
    for own in 0..count {
        let mut bytes = format!("n{own}").into_bytes();
        let more = if random.once_in(4) { random.below(9) } else { 0 };
        bytes.extend((0..more).map(|_| random.below(256) as u8));
        // The prefix keeps names distinct: what follows starts with no digit.
        if bytes.get(1 + own.to_string().len()).is_some_and(u8::is_ascii_digit) {
            bytes.truncate(1 + own.to_string().len());
        }
        if own == empty {
            bytes.clear();
        }
        module.names.push(Name { at: 0, bytes });
    }
}

fn types(random: &mut Random, module: &mut Module, options: Options) {
    let count = random.between(1, options.records.max(1));
    for own in 0..count {
        let record =
            Type { name: name(random, module), span: span(random), inner: inner(random, module, own) };
        module.types.push(record);
    }
}

/// What type `own` is; the first is a leaf, as it has no lower type.
fn inner(random: &mut Random, module: &Module, own: usize) -> Inner {
    let kind = if own == 0 { 0 } else { random.below(fields::TYPE_KINDS.len()) };
    match kind {
        0 => Inner::Leaf { leaf: number(random, fields::LEAVES as usize), copied: array(random) },
        1 => Inner::Pointer { base: number(random, own), space: array(random) },
        2 => {
            let count = random.below(4);
            let members = (0..count).map(|_| member(random, module, own)).collect();
            Inner::Struct { size: copied(random), members }
        }
        3 => Inner::Array { base: number(random, own), size: copied(random), stride: copied(random) },
        _ => Inner::BindingArray { base: number(random, own), size: copied(random) },
    }
}

fn member(random: &mut Random, module: &Module, own: usize) -> Member {
    Member {
        name: name(random, module),
        ty: number(random, own),
        offset: copied(random),
        binding: array(random),
    }
}

/// Constants, overrides and global expressions, which name one another.
fn values(random: &mut Random, module: &mut Module, options: Options) {
    let count = random.between(0, options.records);
    if count > 0 {
        for _ in 0..random.between(0, options.records) {
            let record = Constant {
                name: name(random, module),
                span: span(random),
                ty: number(random, module.types.len()),
                init: number(random, count),
            };
            module.constants.push(record);
        }
    }
    for _ in 0..random.between(0, options.records) {
        let record = Override {
            name: name(random, module),
            span: span(random),
            id: copied(random),
            ty: number(random, module.types.len()),
            init: optional_number(random, count),
        };
        module.overrides.push(record);
    }
    for own in 0..count {
        let expression = global_expression(random, module, own);
        module.expressions.push(expression);
    }
}

/// Global expression `own`: its operands, and the inits of what it names, are lower.
fn global_expression(random: &mut Random, module: &Module, own: usize) -> Expression {
    let constants = numbers(&module.constants, |record| (record.init.value as usize) < own);
    let overrides =
        numbers(&module.overrides, |record| record.init.optional().is_none_or(|x| (x as usize) < own));
    let mut choice = Choice {
        types: module.types.len(),
        constants,
        overrides,
        operands: (0..own as u32).collect(),
        ..Choice::default()
    };
    choice.expression(random, fields::constant_kind)
}

/// The numbers of the records that a test accepts.
fn numbers<T>(records: &[T], accepts: impl Fn(&T) -> bool) -> Vec<u32> {
    (0..records.len() as u32).filter(|own| accepts(&records[*own as usize])).collect()
}

fn globals(random: &mut Random, module: &mut Module, options: Options) {
    for _ in 0..random.between(0, options.records) {
        let record = Global {
            name: name(random, module),
            span: span(random),
            space: array(random),
            binding: array(random),
            ty: number(random, module.types.len()),
            init: optional_number(random, module.expressions.len()),
            decorations: copied(random),
        };
        module.globals.push(record);
    }
}

fn special(random: &mut Random, module: &mut Module) {
    let types = module.types.len();
    module.special.places = std::array::from_fn(|_| optional_number(random, types));
    let first = random.word();
    for own in 0..random.below(4) as u32 {
        let pair = (first.wrapping_add(own * 0x1000_0001).into(), number(random, types));
        module.special.pairs.push(pair);
    }
}

fn entry_point(random: &mut Random, module: &Module, options: Options, callable: &[u32]) -> EntryPoint {
    EntryPoint {
        name: (1 + random.below(module.names.len()) as u32).into(),
        stage: copied(random),
        early_depth: array(random),
        workgroup: array(random),
        function: Function { name: name(random, module), ..function(random, module, options, callable) },
    }
}

// ---- expressions ----

/// What the fields of a record may name.
#[derive(Clone, Default)]
struct Choice {
    types: usize,
    constants: Vec<u32>,
    overrides: Vec<u32>,
    globals: usize,
    functions: Vec<u32>,
    arguments: usize,
    locals: usize,
    operands: Vec<u32>,
}

impl Choice {
    /// An expression of a kind that is accepted and whose fields have something to name.
    fn expression(&mut self, random: &mut Random, accepts: fn(u32) -> bool) -> Expression {
        let possible = |kind: &u32| accepts(*kind) && self.can(&EXPRESSIONS[*kind as usize]);
        let kinds: Vec<u32> = (0..EXPRESSIONS.len() as u32).filter(possible).collect();
        let kind = *random.pick(&kinds);
        self.of_kind(random, kind)
    }

    fn of_kind(&self, random: &mut Random, kind: u32) -> Expression {
        let values = self.values(random, &EXPRESSIONS[kind as usize]);
        Expression { kind: kind.into(), span: span(random), values }
    }

    /// Whether every number that a row must have can be given.
    fn can(&self, row: &Row) -> bool {
        row.fields.iter().all(|(_, field)| match field {
            Field::Type => self.types > 0,
            Field::Constant => !self.constants.is_empty(),
            Field::Override => !self.overrides.is_empty(),
            Field::Global => self.globals > 0,
            Field::Function => !self.functions.is_empty(),
            Field::Argument => self.arguments > 0,
            Field::Local => self.locals > 0,
            Field::Operand | Field::Operands | Field::Variant(_) => !self.operands.is_empty(),
            _ => true,
        })
    }

    fn values(&self, random: &mut Random, row: &Row) -> Vec<Value> {
        row.fields.iter().map(|(_, field)| self.value(random, *field)).collect()
    }

    fn value(&self, random: &mut Random, field: Field) -> Value {
        let operand = |random: &mut Random| -> Word { (*random.pick(&self.operands)).into() };
        Value::One(match field {
            Field::Copied => copied(random),
            Field::Code(names) => number(random, names.len()),
            Field::Type => number(random, self.types),
            Field::Constant => (*random.pick(&self.constants)).into(),
            Field::Override => (*random.pick(&self.overrides)).into(),
            Field::Global => number(random, self.globals),
            Field::Function => (*random.pick(&self.functions)).into(),
            Field::Argument => number(random, self.arguments),
            Field::Local => number(random, self.locals),
            Field::Operand => operand(random),
            Field::OptionalOperand if self.operands.is_empty() || random.once_in(2) => 0.into(),
            Field::OptionalOperand => (operand(random).value + 1).into(),
            Field::Operands => {
                let count = random.below(4);
                return Value::List((0..count).map(|_| operand(random)).collect());
            }
            Field::Variant(rows) => {
                let code = random.below(rows.len());
                return Value::Variant((code as u32).into(), self.values(random, &rows[code]));
            }
            // Results are given by the statement that has one.
            Field::Result | Field::OptionalResult => 0.into(),
        })
    }
}

/// Whether expressions of this kind are evaluated by an Emit.
fn emitted(kind: u32) -> bool {
    !fields::standing(kind) && !fields::result(kind)
}

/// Standing kinds that an initialiser may reach.
fn constant_standing(kind: u32) -> bool {
    fields::constant_kind(kind) && fields::standing(kind)
}

/// Kinds of initialiser expressions.
fn initialising(kind: u32) -> bool {
    fields::constant_kind(kind) && emitted(kind)
}

// ---- functions ----

/// A function without its name.
fn function(random: &mut Random, module: &Module, options: Options, callable: &[u32]) -> Function {
    let mut function = Function { span: span(random), ..Function::default() };
    for _ in 0..random.below(4) {
        let argument = Argument {
            name: name(random, module),
            ty: number(random, module.types.len()),
            binding: array(random),
        };
        function.arguments.push(argument);
    }
    if random.once_in(2) {
        let ty = number(random, module.types.len());
        function.result = Some(ResultType { ty, binding: array(random) });
    }
    let locals = random.below(4);
    let choice = Choice {
        types: module.types.len(),
        constants: numbers(&module.constants, |_| true),
        overrides: numbers(&module.overrides, |_| true),
        globals: module.globals.len(),
        functions: callable.to_vec(),
        arguments: function.arguments.len(),
        locals,
        operands: Vec::new(),
    };
    let statements = if options.statements == 0 { 0 } else { random.below(options.statements) };
    let mut body = Grow { random, function, choice, standing: vec![], scope: vec![], left: statements };
    body.initialisers(module, locals);
    let block = body.statements(Place { depth: 1, breaks: false, continues: false, returns: true });
    let prologue = std::mem::take(&mut body.function.body);
    let mut function = body.function;
    function.body = prologue.into_iter().chain(block.into_iter().map(|(_, statement)| statement)).collect();
    name_expressions(random, module, &mut function);
    function
}

/// Names for some expressions, each once.
fn name_expressions(random: &mut Random, module: &Module, function: &mut Function) {
    for own in 0..function.expressions.len() as u32 {
        if random.once_in(6) && function.named.len() < limit::NAMED as usize {
            let name = (1 + random.below(module.names.len()) as u32).into();
            function.named.push(Named { expression: own.into(), name });
        }
    }
    if function.named.len() > 1 && random.once_in(2) {
        function.named.reverse();
    }
}

/// What a block may hold.
#[derive(Clone, Copy)]
struct Place {
    depth: usize,
    breaks: bool,
    continues: bool,
    returns: bool,
}

impl Place {
    fn deeper(self) -> Self {
        Place { depth: self.depth + 1, ..self }
    }
}

/// A body that grows: what its function has so far, and what may be read where it stands.
struct Grow<'a> {
    random: &'a mut Random,
    function: Function,
    choice: Choice,
    standing: Vec<u32>,
    scope: Vec<u32>,
    /// Statements that may still be made.
    left: usize,
}

/// A statement, and the length of the scope before it.
type Placed = (usize, Statement);

impl Grow<'_> {
    /// Expressions that initialisers reach, the locals themselves, and now and then an Emit of one (P11).
    fn initialisers(&mut self, module: &Module, locals: usize) {
        let mut made = Vec::new();
        for _ in 0..self.random.below(5) {
            let stands = made.is_empty() || self.random.once_in(2);
            let accepts = if stands { constant_standing } else { initialising };
            self.choice.operands = made.clone();
            let number = self.append(accepts);
            made.push(number);
            if fields::standing(self.function.expressions[number as usize].kind.value) {
                self.standing.push(number);
            }
        }
        for _ in 0..locals {
            let init =
                if made.is_empty() || self.random.once_in(3) { 0 } else { 1 + self.random.pick(&made) };
            let local = Local {
                span: span(self.random),
                name: name(self.random, module),
                ty: number(self.random, module.types.len()),
                init: init.into(),
            };
            self.function.locals.push(local);
        }
        for number in crate::intake::reached(&self.function) {
            let kind = self.function.expressions[number as usize].kind.value;
            if emitted(kind) && self.random.once_in(4) {
                let emit = self.emit_of(number, number + 1);
                self.function.body.push(emit);
            }
        }
    }

    /// Appends an expression of an accepted kind with the operands of the choice.
    fn append(&mut self, accepts: fn(u32) -> bool) -> u32 {
        let expression = self.choice.expression(self.random, accepts);
        self.function.expressions.push(expression);
        self.function.expressions.len() as u32 - 1
    }

    /// Appends a standing expression.
    fn stand(&mut self) {
        self.choice.operands.clear();
        let number = self.append(fields::standing);
        self.standing.push(number);
    }

    /// What may be read here; there is always something.
    fn readable(&mut self) -> Vec<u32> {
        if self.standing.is_empty() || self.random.once_in(4) {
            self.stand();
        }
        self.standing.iter().chain(&self.scope).copied().collect()
    }

    /// One of those.
    fn operand(&mut self) -> u32 {
        let readable = self.readable();
        *self.random.pick(&readable)
    }

    fn room(&self) -> bool {
        self.function.expressions.len() + 8 < limit::EXPRESSIONS as usize
    }

    /// Some statements. What they bring into scope stays; the caller takes it back.
    fn statements(&mut self, place: Place) -> Vec<Placed> {
        let mut block: Vec<Placed> = Vec::new();
        let wanted = if place.depth == 1 { self.left } else { self.random.below(5).min(self.left) };
        while block.len() < wanted && self.left > 0 && self.room() {
            self.left -= 1;
            let before = self.scope.len();
            let statement = self.statement(place);
            block.push((before, statement));
            self.swap_emits(&mut block);
        }
        block
    }

    /// Now and then two Emits that do not read one another change places, so that numbers do not follow the text.
    fn swap_emits(&mut self, block: &mut [Placed]) {
        let [.., (before, first), (_, second)] = &*block else { return };
        let (Some((start, end)), Some((from, to))) = (emit_range(first), emit_range(second)) else { return };
        let apart = self.function.expressions[from..to]
            .iter()
            .flat_map(Expression::operands)
            .all(|operand| !(start..end).contains(&(operand.number as usize)));
        if apart && self.random.once_in(2) {
            let (before, first, second) = (*before, first.clone(), second.clone());
            // What was brought is in scope in the order of the text.
            let (length, both) = (self.scope.len(), end - start + to - from);
            self.scope[length - both..].rotate_right(to - from);
            let last = block.len() - 1;
            block[last - 1] = (before, second);
            block[last] = (before + to - from, first);
        }
    }

    /// A block of its own scope.
    fn block(&mut self, place: Place) -> Block {
        let before = self.scope.len();
        let block = self.statements(place).into_iter().map(|(_, statement)| statement).collect();
        self.scope.truncate(before);
        block
    }

    fn statement(&mut self, place: Place) -> Statement {
        let kind = match self.random.below(3) {
            0 => statement::EMIT,
            _ => self.random.below(STATEMENTS.len()) as u32,
        };
        let blocks = place.depth < limit::DEPTH;
        match kind {
            statement::BLOCK if blocks => {
                let block = self.block(place.deeper());
                self.made(kind, Body::Block(block))
            }
            statement::IF if blocks => self.branch(place.deeper()),
            statement::SWITCH if blocks => self.switch(place.deeper()),
            statement::LOOP if blocks => self.looping(place.deeper()),
            statement::BREAK if !place.breaks => self.emit(),
            statement::CONTINUE if !place.continues => self.emit(),
            statement::RETURN if !place.returns => self.emit(),
            statement::CALL if self.choice.functions.is_empty() => self.emit(),
            statement::EMIT..=statement::LOOP => self.emit(),
            _ => self.plain(kind),
        }
    }

    fn made(&mut self, kind: u32, body: Body) -> Statement {
        Statement { at: 0, kind: kind.into(), span: span(self.random), body }
    }

    fn emit_of(&mut self, start: u32, end: u32) -> Statement {
        self.made(statement::EMIT, Body::Emit { start: start.into(), end: end.into() })
    }

    /// Some emitted expressions and the Emit of them; before them now and then one that nothing evaluates.
    fn emit(&mut self) -> Statement {
        if self.random.once_in(4) {
            self.unused();
        }
        let mut readable = self.readable();
        let start = self.function.expressions.len() as u32;
        for _ in 0..self.random.below(4) {
            self.choice.operands = readable.clone();
            let number = self.append(emitted);
            readable.push(number);
            self.scope.push(number);
        }
        let end = self.function.expressions.len() as u32;
        self.emit_of(start, end)
    }

    /// An expression that nothing evaluates; it may read anything lower.
    fn unused(&mut self) {
        self.choice.operands = (0..self.function.expressions.len() as u32).collect();
        let number = self.append(|kind| !fields::standing(kind));
        debug_assert!(!self.scope.contains(&number));
    }

    fn branch(&mut self, place: Place) -> Statement {
        let condition = self.operand().into();
        let (accept, reject) = (self.block(place), self.block(place));
        self.made(statement::IF, Body::If { condition, accept, reject })
    }

    fn switch(&mut self, place: Place) -> Statement {
        let selector = self.operand().into();
        let mut cases = Vec::new();
        for _ in 0..self.random.below(4) {
            let value = self.choice.value(self.random, Field::Variant(CASE_VALUES));
            let body = self.block(Place { breaks: true, ..place });
            let fall_through = number(self.random, 2);
            cases.push(Case { value, body, fall_through });
        }
        self.made(statement::SWITCH, Body::Switch { selector, cases })
    }

    /// A Loop whose continuing block and break_if read what the body brought before its first Continue.
    fn looping(&mut self, place: Place) -> Statement {
        let before = self.scope.len();
        let body = self.statements(Place { breaks: true, continues: true, ..place });
        let seen =
            body.iter().find(|(_, statement)| crate::scope::continues(statement)).map(|(seen, _)| *seen);
        self.scope.truncate(seen.unwrap_or(self.scope.len()));
        let continuing = self.statements(Place { breaks: false, continues: false, returns: false, ..place });
        let break_if = if self.random.once_in(3) { 0 } else { self.operand() + 1 };
        self.scope.truncate(before);
        let bare = |block: Vec<Placed>| block.into_iter().map(|(_, statement)| statement).collect();
        let body = Body::Loop { body: bare(body), continuing: bare(continuing), break_if: break_if.into() };
        self.made(statement::LOOP, body)
    }

    /// A statement without blocks, and its result.
    fn plain(&mut self, kind: u32) -> Statement {
        self.choice.operands = self.readable();
        let mut values = self.choice.values(self.random, &STATEMENTS[kind as usize]);
        let wants = match kind {
            statement::ATOMIC => self.random.once_in(2).then_some(expression::ATOMIC_RESULT),
            statement::CALL => self.random.once_in(2).then_some(expression::CALL_RESULT),
            statement::WORK_GROUP_UNIFORM_LOAD => Some(expression::WORK_GROUP_UNIFORM_LOAD_RESULT),
            _ => None,
        };
        if let Some(result) = wants {
            let number = self.result(result, &values);
            let word = if kind == statement::WORK_GROUP_UNIFORM_LOAD { number } else { number + 1 };
            *values.last_mut().expect("a result is the last field") = Value::One(word.into());
        }
        self.made(kind, Body::Plain(values))
    }

    /// Appends the result expression; a Call's is of the function that is called.
    fn result(&mut self, kind: u32, values: &[Value]) -> u32 {
        let mut expression = self.choice.of_kind(self.random, kind);
        if kind == expression::CALL_RESULT {
            expression.values = vec![values[0].clone()];
        }
        self.function.expressions.push(expression);
        let number = self.function.expressions.len() as u32 - 1;
        self.scope.push(number);
        number
    }
}

/// An Emit's start and end.
fn emit_range(statement: &Statement) -> Option<(usize, usize)> {
    match &statement.body {
        Body::Emit { start, end } => Some((start.value as usize, end.value as usize)),
        _ => None,
    }
}
