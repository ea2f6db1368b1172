//! Reads the text form back: from text to the bytes of an image.
//!
//! The text is cut into tokens, and the tokens are read from left to right by the same rows that wrote them.
//! Keys stand in their order; one that was left out stands for 0. A text that is not of the form is told with
//! its line and column, what was found there and what was expected. `docs/TEXT.md` has the grammar.

use crate::fields::{Field, Row, CASE_VALUES, EXPRESSIONS, LEAF_TYPES, STATEMENTS, TYPE_KINDS};
use crate::module::*;
use crate::text::{BYTES, PLACES, SECTION_KEYS, TEXT};
use crate::write::write;

/// A text that is not of the form: where, and what is wrong there.
#[derive(Clone, Debug, PartialEq, Eq)]
pub struct TextError {
    /// Counted from 1.
    pub line: usize,
    /// Counted from 1, in characters.
    pub column: usize,
    pub message: String,
}

impl std::fmt::Display for TextError {
    fn fmt(&self, f: &mut std::fmt::Formatter) -> std::fmt::Result {
        write!(f, "line {}, column {}: {}", self.line, self.column, self.message)
    }
}

impl std::error::Error for TextError {}

type Parsed<T> = Result<T, TextError>;

/// The image that a text stands for. It need not be one that intake accepts.
///
/// ```
/// let image = plain::assemble("wuldgisp-text 1\nspecial_types { }\n").unwrap();
/// assert_eq!(plain::intake(&image), Ok(()));
/// let error = plain::assemble("wuldgisp-text 1\nnames { tone }\n").unwrap_err();
/// assert_eq!((error.line, error.column), (2, 9));
/// ```
pub fn assemble(text: &str) -> Parsed<Vec<u8>> {
    let mut tokens = tokens(text)?;
    tokens.reverse();
    let mut parser = Parser { tokens, end: end(text), depth: 0 };
    if parser.take_word(BYTES) {
        return parser.bytes();
    }
    if !parser.take_word(TEXT) {
        return Err(parser.expects(&format!("the heading {TEXT} 1 or {BYTES}")));
    }
    parser.edition()?;
    Ok(write(&parser.module()?))
}

/// A place in a text: line and column, counted from 1.
pub type Place = (usize, usize);

/// The place behind the last character.
fn end(text: &str) -> Place {
    let line = text.lines().count().max(1);
    (line, text.lines().last().map_or(0, |line| line.chars().count()) + 1)
}

/// A piece of the text.
#[derive(Clone, Debug, PartialEq)]
enum Token {
    /// A word or a number.
    Word(String),
    /// A string's bytes.
    Quoted(Vec<u8>),
    /// One of `= [ ] { } ( )`.
    Mark(char),
}

/// The tokens, each with its place.
fn tokens(text: &str) -> Parsed<Vec<(Place, Token)>> {
    let mut tokens = Vec::new();
    for (number, line) in text.lines().enumerate() {
        line_tokens(number + 1, line, &mut tokens)?;
    }
    Ok(tokens)
}

fn line_tokens(number: usize, line: &str, tokens: &mut Vec<(Place, Token)>) -> Parsed<()> {
    let (mut rest, mut column) = (line, 1);
    while let Some(first) = rest.chars().next() {
        let (place, from) = ((number, column), rest);
        match first {
            '#' => return Ok(()),
            '"' => {
                let (bytes, behind) = string(place, rest)?;
                tokens.push((place, Token::Quoted(bytes)));
                rest = behind;
            }
            '=' | '[' | ']' | '{' | '}' | '(' | ')' => {
                tokens.push((place, Token::Mark(first)));
                rest = &rest[1..];
            }
            _ if first.is_whitespace() => rest = &rest[first.len_utf8()..],
            _ => {
                let ends = |c: char| c.is_whitespace() || "#\"=[]{}()".contains(c);
                let end = rest.find(ends).unwrap_or(rest.len());
                tokens.push((place, Token::Word(rest[..end].to_owned())));
                rest = &rest[end..];
            }
        }
        column += from[..from.len() - rest.len()].chars().count();
    }
    Ok(())
}

/// A string, from its first quote on to the end of its line: its bytes, and what stands behind it.
pub fn string((line, column): Place, text: &str) -> Result<(Vec<u8>, &str), TextError> {
    let error = |rest: &[u8], message: &str| {
        let before = String::from_utf8_lossy(&text.as_bytes()[..text.len() - rest.len()]).chars().count();
        TextError { line, column: column + before, message: message.to_owned() }
    };
    let mut bytes = Vec::new();
    let mut rest = &text.as_bytes()[1..];
    loop {
        match rest {
            [] => {
                return Err(error(rest, "expected a quote that ends the string, found the end of the line"))
            }
            [b'"', ..] => return Ok((bytes, &text[text.len() - rest.len() + 1..])),
            [b'\\', b'x', high, low, ..] => {
                let digit = |byte: u8| (byte as char).to_digit(16);
                let (Some(high), Some(low)) = (digit(*high), digit(*low)) else {
                    return Err(error(rest, "expected two hexadecimal digits behind \\x"));
                };
                bytes.push((16 * high + low) as u8);
                rest = &rest[4..];
            }
            [b'\\', byte @ (b'"' | b'\\'), ..] => {
                bytes.push(*byte);
                rest = &rest[2..];
            }
            [b'\\', ..] => {
                return Err(error(rest, "expected \\x and two digits, \\\" or \\\\ behind a backslash"))
            }
            [byte, ..] => {
                bytes.push(*byte);
                rest = &rest[1..];
            }
        }
    }
}

/// A number of 32 bits, decimal or behind 0x hexadecimal.
pub fn number(word: &str) -> Option<u32> {
    let (digits, radix) = match word.strip_prefix("0x") {
        Some(digits) => (digits, 16),
        None => (word, 10),
    };
    // The library's reading would take a sign too.
    let unsigned = !digits.starts_with('+');
    u32::from_str_radix(digits, radix).ok().filter(|_| unsigned)
}

/// The tokens that are left, the next one last.
struct Parser {
    tokens: Vec<(Place, Token)>,
    end: Place,
    /// Blocks around the next token.
    depth: usize,
}

/// The deepest block of a text.
const DEEPEST: usize = 100;

impl Parser {
    fn peek(&self) -> Option<&Token> {
        self.tokens.last().map(|(_, token)| token)
    }

    /// An error at the next token.
    fn error(&self, message: String) -> TextError {
        let (line, column) = self.tokens.last().map_or(self.end, |(place, _)| *place);
        TextError { line, column, message }
    }

    /// The next token, as a message shows it.
    fn found(&self) -> String {
        match self.peek() {
            Some(Token::Word(word)) => format!("'{}'", word.escape_debug()),
            Some(Token::Mark(mark)) => format!("'{mark}'"),
            Some(Token::Quoted(bytes)) => format!("the string {}", crate::text::quoted(bytes)),
            None => "the end of the text".to_owned(),
        }
    }

    /// The error that something else was expected than the next token.
    fn expects(&self, expected: &str) -> TextError {
        self.error(format!("expected {expected}, found {}", self.found()))
    }

    /// The edition behind the heading.
    fn edition(&mut self) -> Parsed<()> {
        match self.peek() {
            Some(Token::Word(word)) if word == "1" => {
                self.tokens.pop();
                Ok(())
            }
            Some(Token::Word(word)) if word.parse::<u64>().is_ok() => {
                Err(self.error(format!("edition {word} of the text form is not known: expected edition 1")))
            }
            _ => Err(self.expects("the edition of the text form, 1")),
        }
    }

    /// The error that no section is next that may stand there.
    fn no_section(&self) -> TextError {
        let keys = SECTION_KEYS.join(", ");
        match self.peek() {
            Some(Token::Word(word)) if SECTION_KEYS.contains(&word.as_str()) => {
                self.error(format!("section {word} is out of its place: the order is {keys}"))
            }
            Some(Token::Word(word)) => self.error(format!(
                "there is no section '{}': expected one of {keys}, in this order",
                word.escape_debug()
            )),
            None => self.error(format!("the text ends before its last section, {}", SECTION_KEYS[8])),
            _ => self.expects(&format!("one of the sections {keys}")),
        }
    }

    /// Takes this word if it is next.
    fn take_word(&mut self, word: &str) -> bool {
        let next = self.peek() == Some(&Token::Word(word.to_owned()));
        if next {
            self.tokens.pop();
        }
        next
    }

    fn take_mark(&mut self, mark: char) -> bool {
        let next = self.peek() == Some(&Token::Mark(mark));
        if next {
            self.tokens.pop();
        }
        next
    }

    fn mark(&mut self, mark: char) -> Parsed<()> {
        match self.take_mark(mark) {
            true => Ok(()),
            false => Err(self.expects(&format!("'{mark}'"))),
        }
    }

    fn word(&mut self, expected: &str) -> Parsed<String> {
        match self.peek().cloned() {
            Some(Token::Word(word)) => {
                self.tokens.pop();
                Ok(word)
            }
            _ => Err(self.expects(expected)),
        }
    }

    fn number(&mut self) -> Parsed<u32> {
        let read = match self.peek() {
            Some(Token::Word(word)) => number(word),
            _ => None,
        };
        let number = read.ok_or(self.expects("a number below 4294967296"))?;
        self.tokens.pop();
        Ok(number)
    }

    /// Whether `key=` is next; it is taken.
    fn take_key(&mut self, key: &str) -> Parsed<bool> {
        let there = self.take_word(key);
        if there {
            self.mark('=')?;
        }
        Ok(there)
    }

    fn key(&mut self, key: &str) -> Parsed<()> {
        match self.take_key(key)? {
            true => Ok(()),
            false => Err(self.expects(&format!("{key}="))),
        }
    }

    /// `key=number`.
    fn field(&mut self, key: &str) -> Parsed<Word> {
        self.key(key)?;
        Ok(self.number()?.into())
    }

    /// `key=number` for an optional number; without it none.
    fn optional(&mut self, key: &str) -> Parsed<Word> {
        match self.take_key(key)? {
            true => self.optional_number(),
            false => Ok(0.into()),
        }
    }

    /// `none` or a number, as an optional number's word.
    fn optional_number(&mut self) -> Parsed<Word> {
        if self.take_word("none") {
            return Ok(0.into());
        }
        let error = self.expects("a number below 4294967295");
        Ok(self.number()?.checked_add(1).ok_or(error)?.into())
    }

    /// `key=[..]` of N words; without it zeros.
    fn copied<const N: usize>(&mut self, key: &str) -> Parsed<[Word; N]> {
        if !self.take_key(key)? {
            return Ok([Word::default(); N]);
        }
        let error = self.expects(&format!("a list of {N} words"));
        self.list()?.try_into().map_err(|_| error)
    }

    /// Words between brackets.
    fn list(&mut self) -> Parsed<Vec<Word>> {
        self.mark('[')?;
        let mut words = Vec::new();
        while !self.take_mark(']') {
            words.push(self.number()?.into());
        }
        Ok(words)
    }

    fn name(&mut self) -> Parsed<Word> {
        self.optional("name")
    }

    fn span(&mut self) -> Parsed<Span> {
        self.copied("span")
    }

    /// Elements between braces.
    fn braced<T>(&mut self, element: impl Fn(&mut Self) -> Parsed<T>) -> Parsed<Vec<T>> {
        self.mark('{')?;
        let mut elements = Vec::new();
        while !self.take_mark('}') {
            elements.push(element(self)?);
        }
        Ok(elements)
    }

    /// A section under its key; without it empty.
    fn section<T>(&mut self, key: &str, element: impl Fn(&mut Self) -> Parsed<T>) -> Parsed<Vec<T>> {
        match self.take_word(key) {
            true => self.braced(element),
            false => Ok(Vec::new()),
        }
    }

    /// Elements that each start with the same word, as many as there are.
    fn while_word<T>(&mut self, word: &str, element: impl Fn(&mut Self) -> Parsed<T>) -> Parsed<Vec<T>> {
        let mut elements = Vec::new();
        while self.take_word(word) {
            elements.push(element(self)?);
        }
        Ok(elements)
    }

    /// The word that starts an element.
    fn head(&mut self, word: &str) -> Parsed<()> {
        match self.take_word(word) {
            true => Ok(()),
            false => Err(self.expects(word)),
        }
    }

    /// Pairs of hexadecimal digits to the end.
    fn bytes(&mut self) -> Parsed<Vec<u8>> {
        let mut bytes = Vec::new();
        while !self.tokens.is_empty() {
            let error = self.expects("pairs of hexadecimal digits");
            let group = self.word("pairs of hexadecimal digits")?;
            if group.len() % 2 != 0 || !group.bytes().all(|byte| byte.is_ascii_hexdigit()) {
                return Err(error);
            }
            for at in (0..group.len()).step_by(2) {
                bytes.push(u8::from_str_radix(&group[at..at + 2], 16).map_err(|_| error.clone())?);
            }
        }
        Ok(bytes)
    }

    fn module(&mut self) -> Parsed<Module> {
        let key = SECTION_KEYS;
        let module = Module {
            names: self.section(key[0], Self::name_record)?,
            types: self.section(key[1], Self::ty)?,
            constants: self.section(key[2], Self::constant)?,
            overrides: self.section(key[3], Self::override_record)?,
            globals: self.section(key[4], Self::global)?,
            expressions: self.section(key[5], Self::expression)?,
            functions: self.section(key[6], Self::function)?,
            entry_points: self.section(key[7], Self::entry_point)?,
            special: self.special()?,
        };
        match self.tokens.is_empty() {
            true => Ok(module),
            false => {
                let found = self.found();
                Err(self.error(format!("found {found} behind {}, which is the last section", key[8])))
            }
        }
    }

    fn name_record(&mut self) -> Parsed<Name> {
        match self.peek().cloned() {
            Some(Token::Quoted(bytes)) => {
                self.tokens.pop();
                Ok(Name { at: 0, bytes })
            }
            _ => Err(self.expects("a name between quotes")),
        }
    }

    fn ty(&mut self) -> Parsed<Type> {
        let expected = format!("a kind of type, {}", one_of(&TYPE_KINDS));
        let error = self.expects(&expected);
        let kind = self.word(&expected)?;
        let kind = TYPE_KINDS.iter().position(|name| *name == kind).ok_or(error)?;
        Ok(Type { name: self.name()?, span: self.span()?, inner: self.inner(kind)? })
    }

    fn inner(&mut self, kind: usize) -> Parsed<Inner> {
        Ok(match kind {
            0 => Inner::Leaf { leaf: self.code_field("leaf", LEAF_TYPES)?, copied: self.copied("copied")? },
            1 => Inner::Pointer { base: self.field("base")?, space: self.copied("space")? },
            2 => Inner::Struct { size: self.field("size")?, members: self.braced(Self::member)? },
            3 => Inner::Array {
                base: self.field("base")?,
                size: self.field("size")?,
                stride: self.field("stride")?,
            },
            _ => Inner::BindingArray { base: self.field("base")?, size: self.field("size")? },
        })
    }

    fn member(&mut self) -> Parsed<Member> {
        self.head("member")?;
        Ok(Member {
            name: self.name()?,
            ty: self.field("type")?,
            offset: self.field("offset")?,
            binding: self.copied("binding")?,
        })
    }

    fn constant(&mut self) -> Parsed<Constant> {
        self.head("constant")?;
        Ok(Constant {
            name: self.name()?,
            span: self.span()?,
            ty: self.field("type")?,
            init: self.field("init")?,
        })
    }

    fn override_record(&mut self) -> Parsed<Override> {
        self.head("override")?;
        Ok(Override {
            name: self.name()?,
            span: self.span()?,
            id: self.field("id")?,
            ty: self.field("type")?,
            init: self.optional("init")?,
        })
    }

    fn global(&mut self) -> Parsed<Global> {
        self.head("global")?;
        Ok(Global {
            name: self.name()?,
            span: self.span()?,
            space: self.copied("space")?,
            binding: self.copied("binding")?,
            ty: self.field("type")?,
            init: self.optional("init")?,
            decorations: self.field("decorations")?,
        })
    }

    /// A kind's number by its row's name.
    fn kind(&mut self, rows: &[Row], expected: &str) -> Parsed<u32> {
        let error = self.expects(expected);
        let name = self.word(expected)?;
        let own = rows.iter().position(|row| row.name == name).ok_or(error)?;
        Ok(own as u32)
    }

    fn expression(&mut self) -> Parsed<Expression> {
        let kind = self.kind(EXPRESSIONS, "a kind of expression")?;
        let span = self.span()?;
        let values = self.values(&EXPRESSIONS[kind as usize])?;
        Ok(Expression { kind: kind.into(), span, values })
    }

    /// The fields of a row under their keys.
    fn values(&mut self, row: &Row) -> Parsed<Vec<Value>> {
        let mut values = Vec::new();
        for (key, field) in row.fields {
            values.push(match field {
                Field::OptionalOperand | Field::OptionalResult => Value::One(self.optional(key)?),
                _ => {
                    self.key(key)?;
                    self.value(*field)?
                }
            });
        }
        Ok(values)
    }

    /// A value behind its key.
    fn value(&mut self, field: Field) -> Parsed<Value> {
        Ok(match field {
            Field::Code(names) => Value::One(self.code(names)?),
            Field::OptionalOperand | Field::OptionalResult => Value::One(self.optional_number()?),
            Field::Operands => Value::List(self.list()?),
            Field::Variant(rows) => self.variant(rows)?,
            _ => Value::One(self.number()?.into()),
        })
    }

    /// A code by its name, or a number.
    fn code(&mut self, names: &[&str]) -> Parsed<Word> {
        for (own, name) in names.iter().enumerate() {
            if self.take_word(name) {
                return Ok((own as u32).into());
            }
        }
        let error = self.expects(&format!("{} or a number", one_of(names)));
        Ok(self.number().map_err(|_| error)?.into())
    }

    /// `key=code`.
    fn code_field(&mut self, key: &str, names: &[&str]) -> Parsed<Word> {
        self.key(key)?;
        self.code(names)
    }

    fn variant(&mut self, rows: &[Row]) -> Parsed<Value> {
        let names: Vec<&str> = rows.iter().map(|row| row.name).collect();
        let code = self.kind(rows, &one_of(&names))?;
        let row = &rows[code as usize];
        let mut values = Vec::new();
        if !row.fields.is_empty() {
            self.mark('(')?;
            for (_, field) in row.fields {
                values.push(self.value(*field)?);
            }
            self.mark(')')?;
        }
        Ok(Value::Variant(code.into(), values))
    }

    fn function(&mut self) -> Parsed<Function> {
        self.head("function")?;
        let (name, span) = (self.name()?, self.span()?);
        self.mark('{')?;
        let function = Function {
            name,
            span,
            arguments: self.while_word("argument", Self::argument)?,
            result: self.result_type()?,
            locals: self.while_word("local", Self::local)?,
            expressions: self.section("expressions", Self::expression)?,
            named: self.section("named", Self::named)?,
            body: self.body()?,
        };
        self.mark('}')?;
        Ok(function)
    }

    fn argument(&mut self) -> Parsed<Argument> {
        Ok(Argument { name: self.name()?, ty: self.field("type")?, binding: self.copied("binding")? })
    }

    fn result_type(&mut self) -> Parsed<Option<ResultType>> {
        match self.take_word("result") {
            true => Ok(Some(ResultType { ty: self.field("type")?, binding: self.copied("binding")? })),
            false => Ok(None),
        }
    }

    fn local(&mut self) -> Parsed<Local> {
        Ok(Local {
            span: self.span()?,
            name: self.name()?,
            ty: self.field("type")?,
            init: self.optional("init")?,
        })
    }

    fn named(&mut self) -> Parsed<Named> {
        self.head("expression")?;
        Ok(Named { expression: self.field("number")?, name: self.name()? })
    }

    fn body(&mut self) -> Parsed<Block> {
        self.head("body")?;
        self.block()
    }

    /// A block. Texts may pass the image's limit of depth, so that it can be tested, but not by far.
    fn block(&mut self) -> Parsed<Block> {
        if self.depth == DEEPEST {
            return Err(self.expects(&format!("blocks nested {DEEPEST} deep at most")));
        }
        self.depth += 1;
        let block = self.braced(Self::statement);
        self.depth -= 1;
        block
    }

    fn statement(&mut self) -> Parsed<Statement> {
        let kind = self.kind(&STATEMENTS, "a kind of statement")?;
        let span = self.span()?;
        let body = match STATEMENTS[kind as usize].name {
            "Emit" => Body::Emit { start: self.field("start")?, end: self.field("end")? },
            "Block" => Body::Block(self.block()?),
            "If" => self.branch()?,
            "Switch" => Body::Switch { selector: self.field("selector")?, cases: self.braced(Self::case)? },
            "Loop" => self.looping()?,
            _ => Body::Plain(self.values(&STATEMENTS[kind as usize])?),
        };
        Ok(Statement { at: 0, kind: kind.into(), span, body })
    }

    fn branch(&mut self) -> Parsed<Body> {
        let condition = self.field("condition")?;
        let accept = self.block()?;
        self.head("else")?;
        Ok(Body::If { condition, accept, reject: self.block()? })
    }

    fn looping(&mut self) -> Parsed<Body> {
        let body = self.block()?;
        self.head("continuing")?;
        Ok(Body::Loop { body, continuing: self.block()?, break_if: self.optional("break_if")? })
    }

    fn case(&mut self) -> Parsed<Case> {
        self.head("case")?;
        Ok(Case {
            value: self.variant(CASE_VALUES)?,
            body: self.block()?,
            fall_through: self.field("fall_through")?,
        })
    }

    fn entry_point(&mut self) -> Parsed<EntryPoint> {
        self.head("entry_point")?;
        let mut entry = EntryPoint {
            name: self.name()?,
            stage: self.field("stage")?,
            early_depth: self.copied("early_depth")?,
            workgroup: self.copied("workgroup")?,
            function: Function::default(),
        };
        self.mark('{')?;
        entry.function = self.function()?;
        self.mark('}')?;
        Ok(entry)
    }

    fn special(&mut self) -> Parsed<Special> {
        let mut special = Special::default();
        if !self.take_word(SECTION_KEYS[8]) {
            return Err(self.no_section());
        }
        self.mark('{')?;
        for (key, place) in PLACES.iter().zip(&mut special.places) {
            *place = self.optional(key)?;
        }
        special.pairs =
            self.while_word("pair", |parser| Ok((parser.field("key")?, parser.field("type")?)))?;
        self.mark('}')?;
        Ok(special)
    }
}

/// Names to choose from, all of them where they are few.
fn one_of(names: &[&str]) -> String {
    match names.len() {
        ..=18 => format!("one of {}", names.join(" ")),
        many => format!("one of the {many} names from {} to {}", names[0], names[many - 1]),
    }
}
