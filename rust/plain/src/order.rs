//! The order of the functions in a linked module: the rounds of `Redirector::into_module`.
//!
//! In each round the functions whose callees have all been placed are placed, in source order. When a round
//! places none, those that are left are the ones from which a chain of calls reaches a ring: refusal 12.

use std::collections::BTreeSet;

use crate::intake::admit;
use crate::module::*;
use crate::Refused;

/// The source number of each function in output order, for an image.
pub fn order(image: &[u8]) -> Result<Vec<u32>, Refused> {
    order_of(&admit(image)?)
}

/// The same for a module that intake admitted.
pub fn order_of(module: &Module) -> Result<Vec<u32>, Refused> {
    let waiting = module.functions.iter().map(|function| callees(&function.body)).enumerate();
    rounds(waiting.map(|(own, callees)| (own as u32, callees)).collect()).map_err(|left| {
        let rule = "no chain of calls reaches a ring";
        Refused { left, ..Refused::of(12, rule) }
    })
}

/// Functions and their callees, in rounds: the functions in the order in which they are placed, or the count of
/// those that no round places.
pub(crate) fn rounds(mut waiting: Vec<(u32, BTreeSet<u32>)>) -> Result<Vec<u32>, u32> {
    let mut order = Vec::new();
    while !waiting.is_empty() {
        let (ready, rest): (Vec<_>, Vec<_>) =
            waiting.into_iter().partition(|(_, callees)| callees.is_empty());
        if ready.is_empty() {
            return Err(rest.len() as u32);
        }
        waiting = rest;
        for (own, _) in ready {
            order.push(own);
            for (_, callees) in &mut waiting {
                callees.remove(&own);
            }
        }
    }
    Ok(order)
}

/// The functions that a body calls, in reach or not.
pub(crate) fn callees(body: &Block) -> BTreeSet<u32> {
    let mut callees = BTreeSet::new();
    each_statement(body, &mut |statement| callees.extend(statement.callee().map(|word| word.value)));
    callees
}
