//! An image as data: what [`crate::read`] makes of the bytes and [`crate::write`] makes bytes of.
//!
//! Numbers are kept as the words that stand in the image, each with its place, so that a refusal can say
//! where it was found. Counts, offsets, statement lengths and padding follow from the rest and are not kept.
//! An optional number is kept as its word too: 0 for none, else the number plus 1.

use crate::fields::{expression, statement, Field, Row, EXPRESSIONS, STATEMENTS};

/// A word and its place, counted in words from the image's start (0 in a module that was not read).
#[derive(Clone, Copy, Debug, Default)]
pub struct Word {
    pub at: usize,
    pub value: u32,
}

impl From<u32> for Word {
    fn from(value: u32) -> Self {
        Word { at: 0, value }
    }
}

impl Word {
    /// What an optional number's word means.
    pub fn optional(self) -> Option<u32> {
        self.value.checked_sub(1)
    }
}

/// Six copied words.
pub type Binding = [Word; 6];

/// Start and end; (0, 0) is undefined.
pub type Span = [Word; 2];

/// A whole image.
#[derive(Clone, Debug, Default)]
pub struct Module {
    pub names: Vec<Name>,
    pub types: Vec<Type>,
    pub constants: Vec<Constant>,
    pub overrides: Vec<Override>,
    pub globals: Vec<Global>,
    pub expressions: Vec<Expression>,
    pub functions: Vec<Function>,
    pub entry_points: Vec<EntryPoint>,
    pub special: Special,
}

/// A name: any bytes, the empty string among them.
#[derive(Clone, Debug, Default)]
pub struct Name {
    pub at: usize,
    pub bytes: Vec<u8>,
}

/// A type. Its base and members are lower-numbered types.
#[derive(Clone, Debug)]
pub struct Type {
    pub name: Word,
    pub span: Span,
    pub inner: Inner,
}

/// The five kinds of types.
#[derive(Clone, Debug)]
pub enum Inner {
    Leaf { leaf: Word, copied: [Word; 6] },
    Pointer { base: Word, space: [Word; 2] },
    Struct { size: Word, members: Vec<Member> },
    Array { base: Word, size: Word, stride: Word },
    BindingArray { base: Word, size: Word },
}

impl Inner {
    /// The kind's number.
    pub fn kind(&self) -> u32 {
        match self {
            Inner::Leaf { .. } => 0,
            Inner::Pointer { .. } => 1,
            Inner::Struct { .. } => 2,
            Inner::Array { .. } => 3,
            Inner::BindingArray { .. } => 4,
        }
    }
}

/// A struct's member.
#[derive(Clone, Debug)]
pub struct Member {
    pub name: Word,
    pub ty: Word,
    pub offset: Word,
    pub binding: Binding,
}

#[derive(Clone, Debug)]
pub struct Constant {
    pub name: Word,
    pub span: Span,
    pub ty: Word,
    pub init: Word,
}

#[derive(Clone, Debug)]
pub struct Override {
    pub name: Word,
    pub span: Span,
    pub id: Word,
    pub ty: Word,
    /// Optional.
    pub init: Word,
}

#[derive(Clone, Debug)]
pub struct Global {
    pub name: Word,
    pub span: Span,
    pub space: [Word; 2],
    pub binding: [Word; 3],
    pub ty: Word,
    /// Optional.
    pub init: Word,
    pub decorations: Word,
}

/// What stands for one field of a row.
#[derive(Clone, Debug)]
pub enum Value {
    One(Word),
    List(Vec<Word>),
    /// The code, and the values of that code's fields.
    Variant(Word, Vec<Value>),
}

/// An expression, global or of a function. Its kind's row says what its values mean.
#[derive(Clone, Debug)]
pub struct Expression {
    pub kind: Word,
    pub span: Span,
    pub values: Vec<Value>,
}

impl Expression {
    /// The row of its kind.
    pub fn row(&self) -> &'static Row {
        &EXPRESSIONS[self.kind.value as usize]
    }

    /// The words of its fields, in their order.
    pub fn words(&self) -> Vec<(Field, Word)> {
        flat(self.row(), &self.values)
    }

    /// What it reads, in field order.
    pub fn operands(&self) -> Vec<Operand> {
        operands(&self.words())
    }

    /// A CallResult's function.
    pub fn callee(&self) -> Option<Word> {
        let is_call_result = self.kind.value == expression::CALL_RESULT;
        is_call_result.then(|| self.words()[0].1)
    }
}

/// An operand: the number of an expression, and where the word that gives it stands.
#[derive(Clone, Copy, Debug)]
pub struct Operand {
    pub at: usize,
    pub number: u32,
}

/// A function record, of the table or of an entry point.
#[derive(Clone, Debug, Default)]
pub struct Function {
    pub name: Word,
    pub span: Span,
    pub arguments: Vec<Argument>,
    pub result: Option<ResultType>,
    pub locals: Vec<Local>,
    pub expressions: Vec<Expression>,
    pub named: Vec<Named>,
    pub body: Block,
}

#[derive(Clone, Debug)]
pub struct Argument {
    pub name: Word,
    pub ty: Word,
    pub binding: Binding,
}

#[derive(Clone, Debug)]
pub struct ResultType {
    pub ty: Word,
    pub binding: Binding,
}

#[derive(Clone, Debug)]
pub struct Local {
    pub span: Span,
    pub name: Word,
    pub ty: Word,
    /// Optional.
    pub init: Word,
}

/// A name that is given to an expression.
#[derive(Clone, Debug)]
pub struct Named {
    pub expression: Word,
    pub name: Word,
}

#[derive(Clone, Debug, Default)]
pub struct EntryPoint {
    pub name: Word,
    pub stage: Word,
    pub early_depth: [Word; 2],
    pub workgroup: [Word; 3],
    pub function: Function,
}

/// Section 8: three optional types, and pairs of a key and a type.
#[derive(Clone, Debug, Default)]
pub struct Special {
    pub places: [Word; 3],
    pub pairs: Vec<(Word, Word)>,
}

/// A block of statements.
pub type Block = Vec<Statement>;

/// A statement; `at` is the place of its length.
#[derive(Clone, Debug)]
pub struct Statement {
    pub at: usize,
    pub kind: Word,
    pub span: Span,
    pub body: Body,
}

/// What a statement holds behind its span.
#[derive(Clone, Debug)]
pub enum Body {
    Emit {
        start: Word,
        end: Word,
    },
    Block(Block),
    If {
        condition: Word,
        accept: Block,
        reject: Block,
    },
    Switch {
        selector: Word,
        cases: Vec<Case>,
    },
    Loop {
        body: Block,
        continuing: Block,
        /// Optional.
        break_if: Word,
    },
    /// Any statement without blocks, by its kind's row.
    Plain(Vec<Value>),
}

/// A case of a Switch.
#[derive(Clone, Debug)]
pub struct Case {
    /// A variant of `fields::CASE_VALUES`.
    pub value: Value,
    pub body: Block,
    pub fall_through: Word,
}

impl Statement {
    /// The row of its kind.
    pub fn row(&self) -> &'static Row {
        &STATEMENTS[self.kind.value as usize]
    }

    /// The words of a plain statement's fields, in their order; of others none.
    pub fn words(&self) -> Vec<(Field, Word)> {
        match &self.body {
            Body::Plain(values) => flat(self.row(), values),
            _ => Vec::new(),
        }
    }

    /// What it reads itself before its blocks, in field order; break_if is left to the one who follows a Loop.
    pub fn reads(&self) -> Vec<Operand> {
        match &self.body {
            Body::If { condition, .. } => vec![required(*condition)],
            Body::Switch { selector, .. } => vec![required(*selector)],
            _ => operands(&self.words()),
        }
    }

    /// A Call's function.
    pub fn callee(&self) -> Option<Word> {
        let is_call = self.kind.value == statement::CALL;
        is_call.then(|| self.words()[0].1)
    }

    /// The expression that it evaluates as its result.
    pub fn result(&self) -> Option<Operand> {
        let result = |(field, word): (Field, Word)| match field {
            Field::Result => Some(required(word)),
            Field::OptionalResult => optional(word),
            _ => None,
        };
        self.words().into_iter().find_map(result)
    }

    /// Its blocks, in their order.
    pub fn blocks(&self) -> Vec<&Block> {
        match &self.body {
            Body::Block(block) => vec![block],
            Body::If { accept, reject, .. } => vec![accept, reject],
            Body::Switch { cases, .. } => cases.iter().map(|case| &case.body).collect(),
            Body::Loop { body, continuing, .. } => vec![body, continuing],
            Body::Emit { .. } | Body::Plain(_) => Vec::new(),
        }
    }
}

/// Calls `each` for every statement of a block and of the blocks inside it, in image order.
pub fn each_statement<'a>(block: &'a Block, each: &mut impl FnMut(&'a Statement)) {
    for statement in block {
        each(statement);
        for inner in statement.blocks() {
            each_statement(inner, each);
        }
    }
}

/// The words of a row's values with what they mean. A list gives its members as operands; a variant gives its
/// code as copied (it was tested when it was read) and then its fields.
pub fn flat(row: &Row, values: &[Value]) -> Vec<(Field, Word)> {
    let mut words = Vec::new();
    for ((_, field), value) in row.fields.iter().zip(values) {
        match (field, value) {
            (Field::Operands, Value::List(list)) => {
                words.extend(list.iter().map(|word| (Field::Operand, *word)))
            }
            (Field::Variant(rows), Value::Variant(code, inner)) => {
                words.push((Field::Copied, *code));
                words.extend(flat(&rows[code.value as usize], inner));
            }
            (field, Value::One(word)) => words.push((*field, *word)),
            _ => unreachable!("a value follows its field"),
        }
    }
    words
}

/// The operands among a record's words.
fn operands(words: &[(Field, Word)]) -> Vec<Operand> {
    let operand = |(field, word): &(Field, Word)| match field {
        Field::Operand => Some(required(*word)),
        Field::OptionalOperand => optional(*word),
        _ => None,
    };
    words.iter().filter_map(operand).collect()
}

/// An operand that is always there.
fn required(word: Word) -> Operand {
    Operand { at: word.at, number: word.value }
}

/// An operand that may be none.
pub fn optional(word: Word) -> Option<Operand> {
    let at = word.at;
    word.optional().map(|number| Operand { at, number })
}
