//! A session: the operations of derive.rs with document 01's refusals around them.
//!
//! Setting tests 1 to 6 and 21; an import 20, 13, 22, 21; finishing 20, 22, 21, 7. What may still be refused is done
//! on a copy of the derived module, which is taken over when it is not; so a refusal leaves everything as it was.

use std::collections::{BTreeMap, BTreeSet};

use crate::derive::{Derived, Source};
use crate::intake::admit;
use crate::module::Module;
use crate::order::{callees, rounds};
use crate::Refused;

/// A session that has no source and has derived nothing, until it is told to.
#[derive(Clone, Default)]
pub struct Session {
    derived: Derived,
}

type Answer<T> = Result<T, Refused>;

fn no_source() -> Refused {
    Refused::of(20, "a source is set")
}

fn full() -> Refused {
    Refused::of(21, "the derived image keeps to 65536 bytes and to the limits of its tables")
}

impl Session {
    pub fn new() -> Self {
        Session::default()
    }

    /// Sets a source and imports its special types.
    pub fn set_shader_source(&mut self, image: &[u8], span_offset: u32) -> Answer<()> {
        let source = Source::new(admit(image)?, span_offset);
        self.change(|derived| derived.set_shader_source(source))
    }

    /// Without a source this changes nothing.
    pub fn clear_shader_source(&mut self) {
        self.derived.clear_shader_source();
    }

    pub fn map_span(&self, start: u32, end: u32) -> Answer<(u32, u32)> {
        self.source()?;
        Ok(self.derived.map_span(start, end))
    }

    pub fn import_type(&mut self, ty: u32) -> Answer<u32> {
        self.given(ty, |module| module.types.len())?;
        self.change(|derived| derived.import_type(ty))
    }

    /// The name is a number in the source's table of names.
    pub fn rename_type(&mut self, ty: u32, name: u32) -> Answer<u32> {
        self.given(ty, |module| module.types.len())?;
        self.given(name, |module| module.names.len())?;
        self.change(|derived| derived.rename_type(ty, Some(name)))
    }

    pub fn import_const(&mut self, constant: u32) -> Answer<u32> {
        self.given(constant, |module| module.constants.len())?;
        self.change(|derived| derived.import_const(constant))
    }

    pub fn import_pipeline_override(&mut self, number: u32) -> Answer<u32> {
        self.given(number, |module| module.overrides.len())?;
        self.change(|derived| derived.import_pipeline_override(number))
    }

    pub fn import_global(&mut self, global: u32) -> Answer<u32> {
        self.given(global, |module| module.globals.len())?;
        self.change(|derived| derived.import_global(global))
    }

    pub fn import_global_expression(&mut self, expression: u32) -> Answer<u32> {
        self.given(expression, |module| module.expressions.len())?;
        self.change(|derived| derived.import_global_expression(expression))
    }

    /// Appends the function, whether or not one of its name is derived.
    pub fn import_function(&mut self, function: u32) -> Answer<u32> {
        let source = self.given(function, |module| module.functions.len())?;
        if self.known(source, function) {
            self.no_ring(source, source.callees[function as usize].iter().copied())?;
        } else {
            self.no_ring(source, [function])?;
        }
        self.change(|derived| derived.import_function(function))
    }

    /// The derived function of this function's name; where there is none it is imported.
    pub fn import_function_if_new(&mut self, function: u32) -> Answer<u32> {
        let source = self.given(function, |module| module.functions.len())?;
        self.no_ring(source, [function])?;
        self.change(|derived| derived.import_function_if_new(function))
    }

    /// The same.
    pub fn map_function_handle(&mut self, function: u32) -> Answer<u32> {
        let source = self.given(function, |module| module.functions.len())?;
        self.no_ring(source, [function])?;
        self.change(|derived| derived.map_function_handle(function))
    }

    /// Whether any special type is derived.
    pub fn has_required_special_types(&self) -> bool {
        let special = &self.derived.special;
        !special.pairs.is_empty() || special.places.iter().any(|place| place.optional().is_some())
    }

    /// Writes the derived image at the output's start and starts afresh; answers its length in bytes.
    pub fn finish(&mut self, output: &mut [u8]) -> Answer<u32> {
        let image = self.derived.image(Vec::new()).ok_or(full())?;
        self.write_out(&image, output)
    }

    /// The same with the entry points of the source.
    pub fn finish_with_entry_points(&mut self, output: &mut [u8]) -> Answer<u32> {
        let source = self.source()?;
        for entry in &source.module.entry_points {
            self.no_ring(source, callees(&entry.function.body))?;
        }
        let mut derived = self.derived.clone();
        let entries = derived.localize_entry_points().into_iter().map(|(entry, _)| entry).collect();
        let image = derived.image(entries).ok_or(full())?;
        self.write_out(&image, output)
    }

    fn write_out(&mut self, image: &[u8], output: &mut [u8]) -> Answer<u32> {
        match output.get_mut(..image.len()) {
            None => Err(Refused::of(7, "the output is as long as the derived image")),
            Some(start) => {
                start.copy_from_slice(image);
                *self = Session::new();
                Ok(image.len() as u32)
            }
        }
    }

    /// 20: the source that is set.
    fn source(&self) -> Answer<&Source> {
        self.derived.shader.as_deref().ok_or(no_source())
    }

    /// 20 and 13: the source, of which a number is given in a table of this length.
    fn given(&self, number: u32, length: fn(&Module) -> usize) -> Answer<&Source> {
        let source = self.source()?;
        if number as usize >= length(&source.module) {
            return Err(Refused::of(13, "a number given by the caller is below the count of its table"));
        }
        Ok(source)
    }

    /// Whether a function of this source function's name is derived.
    fn known(&self, source: &Source, function: u32) -> bool {
        self.derived.function_map.contains_key(source.function_name(function))
    }

    /// 22: whether importing these functions, where their names are unknown, follows calls through functions whose
    /// names are unknown back to one of those.
    fn no_ring(&self, source: &Source, functions: impl IntoIterator<Item = u32>) -> Answer<()> {
        let unknown = |function: &u32| !self.known(source, *function);
        let mut met = BTreeMap::new();
        let mut waiting: Vec<u32> = functions.into_iter().filter(unknown).collect();
        while let Some(function) = waiting.pop() {
            met.entry(function).or_insert_with(|| {
                let all = source.callees[function as usize].iter().copied();
                let callees: BTreeSet<u32> = all.filter(unknown).collect();
                waiting.extend(&callees);
                callees
            });
        }
        let rule = "no chain of calls through functions of unknown names comes back to one of them";
        rounds(met.into_iter().collect()).map(|_| ()).map_err(|_| Refused::of(22, rule))
    }

    /// Changes the derived module, unless its image would pass a limit: 21.
    fn change<T>(&mut self, change: impl FnOnce(&mut Derived) -> T) -> Answer<T> {
        let mut derived = self.derived.clone();
        let answer = change(&mut derived);
        derived.image(Vec::new()).ok_or(full())?;
        self.derived = derived;
        Ok(answer)
    }
}
