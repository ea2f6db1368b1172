//! `redirect_function` on the image itself: calls of one function become calls of another.
//!
//! It tests 1 to 6, then 13 (a name number outside the table), 8 and 9 (no function of that name), 10 and 11
//! (types of arguments, up to the shorter list, and of the result), and changes nothing where one fails.

use crate::intake::admit;
use crate::module::*;
use crate::Refused;

/// Changes the words of Call and CallResult that name the original, everywhere but in the replacement and in
/// functions of an omitted name; entry points always change. Answers both function numbers.
pub fn redirect(
    image: &mut [u8],
    original: u32,
    replacement: u32,
    omit: &[u32],
) -> Result<(u32, u32), Refused> {
    let module = admit(image)?;
    for name in [original, replacement].iter().chain(omit) {
        if *name as usize >= module.names.len() {
            return Err(Refused::of(13, "a name number given by the caller is below the count of names"));
        }
    }
    let from = find(&module, original).ok_or(Refused::of(8, "a function bears the original's name"))?;
    let to = find(&module, replacement).ok_or(Refused::of(9, "a function bears the replacement's name"))?;
    comparable(&module.functions[from as usize], &module.functions[to as usize])?;
    for word in mentions(&module, to, omit) {
        if word.value == from {
            image[4 * word.at..4 * word.at + 4].copy_from_slice(&to.to_le_bytes());
        }
    }
    Ok((from, to))
}

/// The function of the table that bears this name.
fn find(module: &Module, name: u32) -> Option<u32> {
    let bears = |function: &Function| function.name.optional() == Some(name);
    module.functions.iter().position(bears).map(|own| own as u32)
}

fn comparable(original: &Function, replacement: &Function) -> Result<(), Refused> {
    for (left, right) in original.arguments.iter().zip(&replacement.arguments) {
        if left.ty.value != right.ty.value {
            let rule = "arguments of the original and the replacement have the same types";
            return Err(Refused::at(10, right.ty.at, rule));
        }
    }
    let result = |function: &Function| function.result.as_ref().map(|result| result.ty.value);
    if result(original) != result(replacement) {
        return Err(Refused::of(11, "results of the original and the replacement have the same type"));
    }
    Ok(())
}

/// Every word that names a function, in the functions that redirecting looks at.
fn mentions(module: &Module, replacement: u32, omit: &[u32]) -> Vec<Word> {
    let mut words = Vec::new();
    for (own, function) in module.functions.iter().enumerate() {
        let omitted = function.name.optional().is_some_and(|name| omit.contains(&name));
        if own as u32 != replacement && !omitted {
            mentions_in(function, &mut words);
        }
    }
    for entry in &module.entry_points {
        mentions_in(&entry.function, &mut words);
    }
    words
}

fn mentions_in(function: &Function, words: &mut Vec<Word>) {
    words.extend(function.expressions.iter().filter_map(Expression::callee));
    each_statement(&function.body, &mut |statement| words.extend(statement.callee()));
}
