//! Images on which an import leads from one thing to the next as deep as an image can: functions that call, initialisers
//! of operands, constants of expressions of constants, types of types, each chain at the end of the one before.

use crate::cases::{self, leaf, of_kind, word, Case};
use crate::fields::{expression, limit};
use crate::module::*;
use crate::write::write;

/// How long each chain is.
#[derive(Clone, Copy, Debug)]
pub struct Depths {
    pub functions: usize,
    pub initialisers: usize,
    pub constants: usize,
    pub types: usize,
}

/// All four, as long as an image of 65,536 bytes has room; the first may be any.
pub fn depths(functions: usize) -> Depths {
    let (initialisers, types) = (limit::EXPRESSIONS as usize, limit::RECORDS as usize);
    let fits = |constants: &usize| {
        let depths = Depths { functions, initialisers, constants: *constants, types };
        write(&module(depths)).len() <= limit::BYTES
    };
    let constants = (1..limit::RECORDS as usize).take_while(fits).last().expect("one constant fits");
    Depths { functions, initialisers, constants, types }
}

/// One function, and 256; with names for a report.
pub fn images() -> Vec<Case> {
    let image = |functions: usize| {
        let depths = depths(functions);
        let name = format!("chains of 1,024 initialisers, {} constants and 512 types", depths.constants);
        let name = if functions == 1 { name } else { format!("{functions} functions to {name}") };
        (name, write(&module(depths)))
    };
    vec![image(1), image(limit::FUNCTIONS as usize)]
}

/// The image of such chains: function 0 leads to all of them, and an entry point calls it.
pub fn module(depths: Depths) -> Module {
    let Depths { functions, .. } = depths;
    let mut module =
        cases::functions(functions, |own| if own + 1 < functions { vec![own + 1] } else { Vec::new() });
    module.types = pointers(depths.types);
    (module.constants, module.expressions) = constants(depths.constants, depths.types - 1);
    let last = initialised(depths.initialisers, depths.constants - 1);
    let function = module.functions.last_mut().expect("there is a function");
    *function = Function { name: function.name, ..last };
    module.entry_points = vec![cases::calling_entry(vec![0])];
    module
}

/// Pointers to pointers to a leaf.
pub(crate) fn pointers(count: usize) -> Vec<Type> {
    let pointer =
        |base: usize| Type { inner: Inner::Pointer { base: word(base), space: [word(0); 2] }, ..leaf() };
    [leaf()].into_iter().chain((1..count).map(|own| pointer(own - 1))).collect()
}

/// Constants whose inits name the constant before; that of the first is a ZeroValue of this type.
fn constants(count: usize, ty: usize) -> (Vec<Constant>, Vec<Expression>) {
    let constant = |own: usize| Constant { init: word(own), ..cases::constant() };
    let mut expressions = vec![of_kind(expression::ZERO_VALUE, vec![Value::One(word(ty))])];
    let naming = |own: usize| of_kind(expression::CONSTANT, vec![Value::One(word(own - 1))]);
    expressions.extend((1..count).map(naming));
    ((0..count).map(constant).collect(), expressions)
}

/// A function with a local whose initialiser leads over Unaries to this constant.
fn initialised(count: usize, constant: usize) -> Function {
    let mut function = cases::initialised_locals(1, count);
    function.expressions[0] = of_kind(expression::CONSTANT, vec![Value::One(word(constant))]);
    function
}
