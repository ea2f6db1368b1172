//! The fields of every expression and of every statement without blocks, as tables, and the limits.
//!
//! Kinds, codes and limits stand here once: reading, writing, testing, listing, the text form and the
//! generator all follow these rows. A field is what one word (or one list, or one variant) means.

/// What a field of a record means.
#[derive(Clone, Copy, Debug, PartialEq, Eq)]
pub enum Field {
    /// A word that is copied and never tested.
    Copied,
    /// A code below the count of these names.
    Code(&'static [&'static str]),
    /// A number in the table of types.
    Type,
    /// A number in the table of constants.
    Constant,
    /// A number in the table of overrides.
    Override,
    /// A number in the table of globals.
    Global,
    /// A number in the table of functions.
    Function,
    /// A number of an argument of the same function.
    Argument,
    /// A number of a local of the same function.
    Local,
    /// A number of an expression of the same table, which is read.
    Operand,
    /// The same, or none.
    OptionalOperand,
    /// A count, and as many operands.
    Operands,
    /// A number of the expression that the statement evaluates.
    Result,
    /// The same, or none.
    OptionalResult,
    /// A code, and the fields that the code has.
    Variant(&'static [Row]),
}

/// A record's kind, or a variant: its name and its named fields in their order.
#[derive(Clone, Copy, Debug, PartialEq, Eq)]
pub struct Row {
    pub name: &'static str,
    pub fields: &'static [(&'static str, Field)],
}

/// A row; a short name for the tables below.
const fn row(name: &'static str, fields: &'static [(&'static str, Field)]) -> Row {
    Row { name, fields }
}

/// The limits of an image.
pub mod limit {
    /// Bytes of an image.
    pub const BYTES: usize = 65_536;
    /// Records of a table, the pairs of special types among them.
    pub const RECORDS: u32 = 512;
    pub const FUNCTIONS: u32 = 256;
    pub const ENTRY_POINTS: u32 = 16;
    pub const EXPRESSIONS: u32 = 1_024;
    pub const NAMED: u32 = 1_024;
    pub const LOCALS: u32 = 128;
    pub const ARGUMENTS: u32 = 32;
    pub const MEMBERS: u32 = 64;
    /// Depth of nested blocks; a body is at depth 1.
    pub const DEPTH: usize = 32;
}

/// The sections in their order; `SECTIONS[k]` has its count in word 2 + 2k and its offset in word 3 + 2k.
pub const SECTIONS: [&str; 9] = [
    "names",
    "types",
    "constants",
    "overrides",
    "globals",
    "global expressions",
    "functions",
    "entry points",
    "special types",
];

/// The kinds of types.
pub const TYPE_KINDS: [&str; 5] = ["leaf", "pointer", "struct", "array", "binding_array"];

/// A leaf's number is below this.
pub const LEAVES: u32 = LEAF_TYPES.len() as u32;

/// The leaf types, in the order of naga's `TypeInner`.
pub const LEAF_TYPES: &[&str] = &[
    "Scalar",
    "Vector",
    "Matrix",
    "Atomic",
    "ValuePointer",
    "Image",
    "Sampler",
    "AccelerationStructure",
    "RayQuery",
];

/// What the copied words of each leaf type mean to whoever writes and lists images; nothing tests them. Words behind
/// the last that is named are 0.
pub const LEAF_WORDS: [&[(&str, Field)]; LEAF_TYPES.len()] = [
    &[KIND, WIDTH],
    &[("size", Field::Code(VECTOR_SIZE)), KIND, WIDTH],
    &[("columns", Field::Code(VECTOR_SIZE)), ("rows", Field::Code(VECTOR_SIZE)), KIND, WIDTH],
    &[KIND, WIDTH],
    &[("size", Field::Code(OPTIONAL_SIZE)), KIND, WIDTH, ("space", Field::Copied), ("access", Field::Copied)],
    &[
        ("dim", Field::Code(DIMENSION)),
        ("arrayed", Field::Code(BOOL)),
        ("class", Field::Variant(IMAGE_CLASS)),
    ],
    &[("comparison", Field::Code(BOOL))],
    &[("vertex_return", Field::Code(BOOL))],
    &[("vertex_return", Field::Code(BOOL))],
];
const KIND: (&str, Field) = ("kind", Field::Code(SCALAR));
const WIDTH: (&str, Field) = ("width", Field::Copied);
const OPTIONAL_SIZE: &[&str] = &["none", "Bi", "Tri", "Quad"];
const DIMENSION: &[&str] = &["D1", "D2", "D3", "Cube"];
const IMAGE_CLASS: &[Row] = &[
    row("Sampled", &[KIND, ("multi", Field::Code(BOOL))]),
    row("Depth", &[("multi", Field::Code(BOOL))]),
    row("Storage", &[("format", Field::Copied), ("access", Field::Copied)]),
    row("External", &[]),
];

const BOOL: &[&str] = &["no", "yes"];
const COMPONENT: &[&str] = &["X", "Y", "Z", "W"];
const GATHER: &[&str] = &["none", "X", "Y", "Z", "W"];
const VECTOR_SIZE: &[&str] = &["Bi", "Tri", "Quad"];
const LITERAL: &[&str] =
    &["F64", "F32", "F16", "U32", "I32", "U64", "I64", "Bool", "AbstractInt", "AbstractFloat"];
const UNARY: &[&str] = &["Negate", "LogicalNot", "BitwiseNot"];
const BINARY: &[&str] = &[
    "Add",
    "Subtract",
    "Multiply",
    "Divide",
    "Modulo",
    "Equal",
    "NotEqual",
    "Less",
    "LessEqual",
    "Greater",
    "GreaterEqual",
    "And",
    "ExclusiveOr",
    "InclusiveOr",
    "LogicalAnd",
    "LogicalOr",
    "ShiftLeft",
    "ShiftRight",
];
const AXIS: &[&str] = &["X", "Y", "Width"];
const CONTROL: &[&str] = &["Coarse", "Fine", "None"];
const RELATIONAL: &[&str] = &["All", "Any", "IsNan", "IsInf"];
const SCALAR: &[&str] = &["Sint", "Uint", "Float", "Bool", "AbstractInt", "AbstractFloat"];
const MATH: &[&str] = &[
    "Abs",
    "Min",
    "Max",
    "Clamp",
    "Saturate",
    "Cos",
    "Cosh",
    "Sin",
    "Sinh",
    "Tan",
    "Tanh",
    "Acos",
    "Asin",
    "Atan",
    "Atan2",
    "Asinh",
    "Acosh",
    "Atanh",
    "Radians",
    "Degrees",
    "Ceil",
    "Floor",
    "Round",
    "Fract",
    "Trunc",
    "Modf",
    "Frexp",
    "Ldexp",
    "Exp",
    "Exp2",
    "Log",
    "Log2",
    "Pow",
    "Dot",
    "Dot4I8Packed",
    "Dot4U8Packed",
    "Outer",
    "Cross",
    "Distance",
    "Length",
    "Normalize",
    "FaceForward",
    "Reflect",
    "Refract",
    "Sign",
    "Fma",
    "Mix",
    "Step",
    "SmoothStep",
    "Sqrt",
    "InverseSqrt",
    "Inverse",
    "Transpose",
    "Determinant",
    "QuantizeToF16",
    "CountTrailingZeros",
    "CountLeadingZeros",
    "CountOneBits",
    "ReverseBits",
    "ExtractBits",
    "InsertBits",
    "FirstTrailingBit",
    "FirstLeadingBit",
    "Pack4x8snorm",
    "Pack4x8unorm",
    "Pack2x16snorm",
    "Pack2x16unorm",
    "Pack2x16float",
    "Pack4xI8",
    "Pack4xU8",
    "Pack4xI8Clamp",
    "Pack4xU8Clamp",
    "Unpack4x8snorm",
    "Unpack4x8unorm",
    "Unpack2x16snorm",
    "Unpack2x16unorm",
    "Unpack2x16float",
    "Unpack4xI8",
    "Unpack4xU8",
];

const LEVEL: &[Row] = &[
    row("Auto", &[]),
    row("Zero", &[]),
    row("Exact", &[("level", Field::Operand)]),
    row("Bias", &[("bias", Field::Operand)]),
    row("Gradient", &[("x", Field::Operand), ("y", Field::Operand)]),
];
const QUERY: &[Row] = &[
    row("Size", &[("level", Field::OptionalOperand)]),
    row("NumLevels", &[]),
    row("NumLayers", &[]),
    row("NumSamples", &[]),
];
const ATOMIC: &[Row] = &[
    row("Add", &[]),
    row("Subtract", &[]),
    row("And", &[]),
    row("ExclusiveOr", &[]),
    row("InclusiveOr", &[]),
    row("Min", &[]),
    row("Max", &[]),
    row("Exchange", &[("compare", Field::OptionalOperand)]),
];

/// The value of a Switch's case.
pub const CASE_VALUES: &[Row] =
    &[row("I32", &[("value", Field::Copied)]), row("U32", &[("value", Field::Copied)]), row("Default", &[])];

/// The kinds of expressions.
pub const EXPRESSIONS: &[Row] = &[
    row("Literal", &[("code", Field::Code(LITERAL)), ("low", Field::Copied), ("high", Field::Copied)]),
    row("Constant", &[("constant", Field::Constant)]),
    row("Override", &[("override", Field::Override)]),
    row("ZeroValue", &[("type", Field::Type)]),
    row("Compose", &[("type", Field::Type), ("components", Field::Operands)]),
    row("Access", &[("base", Field::Operand), ("index", Field::Operand)]),
    row("AccessIndex", &[("base", Field::Operand), ("index", Field::Copied)]),
    row("Splat", &[("size", Field::Code(VECTOR_SIZE)), ("value", Field::Operand)]),
    row(
        "Swizzle",
        &[
            ("size", Field::Code(VECTOR_SIZE)),
            ("vector", Field::Operand),
            ("first", Field::Code(COMPONENT)),
            ("second", Field::Code(COMPONENT)),
            ("third", Field::Code(COMPONENT)),
            ("fourth", Field::Code(COMPONENT)),
        ],
    ),
    row("FunctionArgument", &[("argument", Field::Argument)]),
    row("GlobalVariable", &[("global", Field::Global)]),
    row("LocalVariable", &[("local", Field::Local)]),
    row("Load", &[("pointer", Field::Operand)]),
    row(
        "ImageSample",
        &[
            ("image", Field::Operand),
            ("sampler", Field::Operand),
            ("gather", Field::Code(GATHER)),
            ("coordinate", Field::Operand),
            ("array_index", Field::OptionalOperand),
            ("offset", Field::OptionalOperand),
            ("level", Field::Variant(LEVEL)),
            ("depth_ref", Field::OptionalOperand),
            ("clamp_to_edge", Field::Code(BOOL)),
        ],
    ),
    row(
        "ImageLoad",
        &[
            ("image", Field::Operand),
            ("coordinate", Field::Operand),
            ("array_index", Field::OptionalOperand),
            ("sample", Field::OptionalOperand),
            ("level", Field::OptionalOperand),
        ],
    ),
    row("ImageQuery", &[("image", Field::Operand), ("query", Field::Variant(QUERY))]),
    row("Unary", &[("op", Field::Code(UNARY)), ("expr", Field::Operand)]),
    row("Binary", &[("op", Field::Code(BINARY)), ("left", Field::Operand), ("right", Field::Operand)]),
    row("Select", &[("condition", Field::Operand), ("accept", Field::Operand), ("reject", Field::Operand)]),
    row(
        "Derivative",
        &[("axis", Field::Code(AXIS)), ("ctrl", Field::Code(CONTROL)), ("expr", Field::Operand)],
    ),
    row("Relational", &[("fun", Field::Code(RELATIONAL)), ("argument", Field::Operand)]),
    row(
        "Math",
        &[
            ("fun", Field::Code(MATH)),
            ("arg", Field::Operand),
            ("arg1", Field::OptionalOperand),
            ("arg2", Field::OptionalOperand),
            ("arg3", Field::OptionalOperand),
        ],
    ),
    row("As", &[("expr", Field::Operand), ("kind", Field::Code(SCALAR)), ("convert", Field::Copied)]),
    row("CallResult", &[("function", Field::Function)]),
    row("AtomicResult", &[("type", Field::Type), ("comparison", Field::Code(BOOL))]),
    row("WorkGroupUniformLoadResult", &[("type", Field::Type)]),
    row("ArrayLength", &[("array", Field::Operand)]),
];

/// The kinds of statements. Emit, Block, If, Switch and Loop have a shape of their own ([`crate::module::Body`]),
/// so their rows have no fields.
pub const STATEMENTS: [Row; 17] = [
    row("Emit", &[]),
    row("Block", &[]),
    row("If", &[]),
    row("Switch", &[]),
    row("Loop", &[]),
    row("Break", &[]),
    row("Continue", &[]),
    row("Return", &[("value", Field::OptionalOperand)]),
    row("Kill", &[]),
    row("ControlBarrier", &[("flags", Field::Copied)]),
    row("MemoryBarrier", &[("flags", Field::Copied)]),
    row("Store", &[("pointer", Field::Operand), ("value", Field::Operand)]),
    row(
        "ImageStore",
        &[
            ("image", Field::Operand),
            ("coordinate", Field::Operand),
            ("array_index", Field::OptionalOperand),
            ("value", Field::Operand),
        ],
    ),
    row(
        "Atomic",
        &[
            ("pointer", Field::Operand),
            ("fun", Field::Variant(ATOMIC)),
            ("value", Field::Operand),
            ("result", Field::OptionalResult),
        ],
    ),
    row("WorkGroupUniformLoad", &[("pointer", Field::Operand), ("result", Field::Result)]),
    row(
        "Call",
        &[("function", Field::Function), ("arguments", Field::Operands), ("result", Field::OptionalResult)],
    ),
    row(
        "ImageAtomic",
        &[
            ("image", Field::Operand),
            ("coordinate", Field::Operand),
            ("array_index", Field::OptionalOperand),
            ("fun", Field::Variant(ATOMIC)),
            ("value", Field::Operand),
        ],
    ),
];

/// Numbers of the statement kinds that some rule speaks of.
pub mod statement {
    pub const EMIT: u32 = 0;
    pub const BLOCK: u32 = 1;
    pub const IF: u32 = 2;
    pub const SWITCH: u32 = 3;
    pub const LOOP: u32 = 4;
    pub const BREAK: u32 = 5;
    pub const CONTINUE: u32 = 6;
    pub const RETURN: u32 = 7;
    pub const KILL: u32 = 8;
    pub const STORE: u32 = 11;
    pub const ATOMIC: u32 = 13;
    pub const WORK_GROUP_UNIFORM_LOAD: u32 = 14;
    pub const CALL: u32 = 15;
}

/// Numbers of the expression kinds that some rule speaks of.
pub mod expression {
    pub const LITERAL: u32 = 0;
    pub const CONSTANT: u32 = 1;
    pub const OVERRIDE: u32 = 2;
    pub const ZERO_VALUE: u32 = 3;
    pub const COMPOSE: u32 = 4;
    pub const SPLAT: u32 = 7;
    pub const GLOBAL_VARIABLE: u32 = 10;
    pub const UNARY: u32 = 16;
    pub const CALL_RESULT: u32 = 23;
    pub const ATOMIC_RESULT: u32 = 24;
    pub const WORK_GROUP_UNIFORM_LOAD_RESULT: u32 = 25;
}

/// Whether expressions of this kind stand: they are in scope from the start.
pub fn standing(kind: u32) -> bool {
    matches!(kind, 0..=3 | 9..=11)
}

/// Whether expressions of this kind are results of statements.
pub fn result(kind: u32) -> bool {
    matches!(kind, 23..=25)
}

/// Whether a global expression, or one that a local's initialiser reaches, may be of this kind.
pub fn constant_kind(kind: u32) -> bool {
    matches!(kind, 0..=8 | 16..=18 | 20..=22)
}
