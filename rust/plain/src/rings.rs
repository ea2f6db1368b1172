//! Rings of calls by name: which functions refusal 12 leaves waiting, and one ring among them.

use std::collections::BTreeSet;

use crate::module::*;

/// What refusal 12 is about, by the numbers of functions.
#[derive(Clone, Debug, PartialEq, Eq)]
pub struct Rings {
    /// The functions from which a chain of calls reaches a ring.
    pub left: Vec<u32>,
    /// One ring: each calls the next, and the last calls the first.
    pub ring: Vec<u32>,
}

/// The rings of a module whose numbers are in range; none where calls have an order.
pub fn rings(module: &Module) -> Option<Rings> {
    let calls: Vec<BTreeSet<u32>> = module.functions.iter().map(callees).collect();
    let mut left: BTreeSet<u32> = (0..calls.len() as u32).collect();
    // What calls nothing that is left reaches no ring.
    loop {
        let free = |own: &u32| calls[*own as usize].is_disjoint(&left);
        let free: Vec<u32> = left.iter().copied().filter(free).collect();
        if free.is_empty() {
            break;
        }
        left.retain(|own| !free.contains(own));
    }
    let start = *left.first()?;
    let ring = ring_from(start, |own| *calls[own as usize].intersection(&left).next().expect("none is free"));
    Some(Rings { left: left.into_iter().collect(), ring })
}

/// The ring that a chain ends in which follows `next` from a function on.
fn ring_from(start: u32, next: impl Fn(u32) -> u32) -> Vec<u32> {
    let mut chain = vec![start];
    loop {
        let own = next(chain[chain.len() - 1]);
        if let Some(at) = chain.iter().position(|before| *before == own) {
            return chain.split_off(at);
        }
        chain.push(own);
    }
}

/// The functions that a function calls, reached or not.
fn callees(function: &Function) -> BTreeSet<u32> {
    let mut callees = BTreeSet::new();
    each_statement(&function.body, &mut |statement| {
        callees.extend(statement.callee().map(|word| word.value))
    });
    callees
}

#[cfg(test)]
mod tests {
    use crate::module::Module;

    fn module(calls: &[&[u32]]) -> Module {
        let names: String = (0..calls.len()).map(|own| format!("\"f{own}\" ")).collect();
        let body = |callees: &[u32]| -> String {
            callees.iter().map(|callee| format!("Call function={callee} arguments=[] ")).collect()
        };
        let functions: String = calls
            .iter()
            .enumerate()
            .map(|(own, callees)| format!("function name={own} {{ body {{ {} }} }} ", body(callees)))
            .collect();
        let text =
            format!("wuldgisp-text 1 names {{ {names} }} functions {{ {functions} }} special_types {{ }}");
        crate::read(&crate::assemble(&text).unwrap()).unwrap()
    }

    #[test]
    fn one_ring_and_all_that_reach_it() {
        assert_eq!(super::rings(&module(&[&[1], &[], &[1]])), None);
        let rings = super::rings(&module(&[&[1], &[2, 4], &[3], &[1], &[]])).unwrap();
        assert_eq!((rings.left, rings.ring), (vec![0, 1, 2, 3], vec![1, 2, 3]));
        let rings = super::rings(&module(&[&[0]])).unwrap();
        assert_eq!((rings.left, rings.ring), (vec![0], vec![0]));
    }
}
