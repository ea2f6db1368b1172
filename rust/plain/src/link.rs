//! Linking: an image in output order, without what no function and no entry point needs.
//!
//! `Redirector::into_module`: a fresh session, the source with a span offset of 0, its functions in output order,
//! and the finish with entry points. It tests 1 to 6, 7, 12; the linked image is never longer than the source.

use crate::derive::{Derived, Map, Maps, Source};
use crate::intake::admit;
use crate::module::Module;
use crate::order::order_of;
use crate::write::write;
use crate::Refused;

/// Links an image into an output that is at least as long; answers the bytes written. Bytes past them stay.
pub fn link(image: &[u8], output: &mut [u8]) -> Result<u32, Refused> {
    let module = admit(image)?;
    if output.len() < image.len() {
        return Err(Refused::of(7, "the output is as long as the image"));
    }
    let linked = write(&linked(module)?.module);
    output[..linked.len()].copy_from_slice(&linked);
    Ok(linked.len() as u32)
}

/// A linked module, and where the records of its source went.
pub struct Linked {
    pub module: Module,
    pub maps: Maps,
    /// The place of each function.
    pub functions: Vec<u32>,
    /// The expressions of each function, by its source number, and then those of each entry point.
    pub own: Vec<Map>,
}

/// Links a module that intake admitted; refused is a ring, by 12.
pub fn linked(module: Module) -> Result<Linked, Refused> {
    let order = order_of(&module)?;
    let mut derived = Derived::default();
    derived.set_shader_source(Source::new(module, 0));
    let mut functions = vec![0; order.len()];
    for function in order {
        functions[function as usize] = derived.import_function(function);
    }
    let (entries, of_entries): (Vec<_>, Vec<_>) = derived.localize_entry_points().into_iter().unzip();
    let of_functions = functions.iter().map(|place| derived.functions[*place as usize].expressions.clone());
    let own = of_functions.chain(of_entries).collect();
    Ok(Linked { module: derived.module(entries), maps: derived.maps, functions, own })
}

/// The answer as the C function gives it: the refusal in the low half; in the high half the bytes written, or with
/// 12 the functions from which a chain reaches a ring.
pub fn answer(linked: Result<u32, Refused>) -> u64 {
    match linked {
        Ok(length) => u64::from(length) << 32,
        Err(refused) => u64::from(refused.left) << 32 | u64::from(refused.number),
    }
}
