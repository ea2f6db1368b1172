//! The image of a derived module: its names numbered by first appearance in the sections after them.

use std::collections::HashMap;

use crate::derive::{Derived, Map};
use crate::fields::limit;
use crate::module::*;
use crate::write::write;

impl Derived {
    /// The entry points of the source, carried over; what they call is imported.
    pub fn localize_entry_points(&mut self) -> Vec<(EntryPoint, Map)> {
        let source = self.source();
        let entries = source.module.entry_points.iter();
        entries.map(|entry| self.localize_entry_point(entry)).collect()
    }

    fn localize_entry_point(&mut self, entry: &EntryPoint) -> (EntryPoint, Map) {
        let localized = self.localize_function(&entry.function);
        let entry = EntryPoint {
            name: self.import_name(entry.name),
            stage: entry.stage,
            early_depth: entry.early_depth,
            workgroup: entry.workgroup,
            function: localized.function,
        };
        (entry, localized.expressions)
    }

    /// The derived module with these entry points.
    pub fn module(&self, entry_points: Vec<EntryPoint>) -> Module {
        let mut module = Module {
            names: Vec::new(),
            types: self.types.records.clone(),
            constants: self.constants.records.clone(),
            overrides: self.overrides.records.clone(),
            globals: self.globals.records.clone(),
            expressions: self.expressions.records.clone(),
            functions: self.functions.iter().map(|localized| localized.function.clone()).collect(),
            entry_points,
            special: self.special.clone(),
        };
        let mut numbers = HashMap::new();
        let mut names = Vec::new();
        each_name(&mut module, &mut |name| {
            if let Some(interned) = name.optional() {
                let next = names.len() as u32;
                let number = *numbers.entry(interned).or_insert(next);
                if number == next {
                    let bytes = self.names.texts[interned as usize].to_vec();
                    names.push(Name { at: 0, bytes });
                }
                *name = (number + 1).into();
            }
        });
        module.names = names;
        module
    }

    /// The image of the derived module with these entry points; none where it would pass a limit.
    pub fn image(&self, entry_points: Vec<EntryPoint>) -> Option<Vec<u8>> {
        let module = self.module(entry_points);
        if !in_limits(&module) {
            return None;
        }
        Some(write(&module)).filter(|image| image.len() <= limit::BYTES)
    }
}

/// Whether no table has more records than its limit. Lists inside a record are never longer than in its source.
fn in_limits(module: &Module) -> bool {
    let records = [
        module.names.len(),
        module.types.len(),
        module.constants.len(),
        module.overrides.len(),
        module.globals.len(),
        module.expressions.len(),
        module.special.pairs.len(),
    ];
    records.iter().all(|count| *count <= limit::RECORDS as usize)
        && module.functions.len() <= limit::FUNCTIONS as usize
        && module.entry_points.len() <= limit::ENTRY_POINTS as usize
}

/// Calls `each` for every optional name of the records, in image order.
fn each_name(module: &mut Module, each: &mut impl FnMut(&mut Word)) {
    for record in &mut module.types {
        each(&mut record.name);
        if let Inner::Struct { members, .. } = &mut record.inner {
            members.iter_mut().for_each(|member| each(&mut member.name));
        }
    }
    module.constants.iter_mut().for_each(|record| each(&mut record.name));
    module.overrides.iter_mut().for_each(|record| each(&mut record.name));
    module.globals.iter_mut().for_each(|record| each(&mut record.name));
    module.functions.iter_mut().for_each(|function| each_name_of(function, each));
    for entry in &mut module.entry_points {
        each(&mut entry.name);
        each_name_of(&mut entry.function, each);
    }
}

fn each_name_of(function: &mut Function, each: &mut impl FnMut(&mut Word)) {
    each(&mut function.name);
    function.arguments.iter_mut().for_each(|argument| each(&mut argument.name));
    function.locals.iter_mut().for_each(|local| each(&mut local.name));
    function.named.iter_mut().for_each(|named| each(&mut named.name));
}
