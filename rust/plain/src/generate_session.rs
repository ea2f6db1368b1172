//! Sessions from a seed: sources, steps over them and the length of an output.
//!
//! Most sessions are a handful of small sources, which share names, functions and records, and steps drawn over
//! them, with numbers now and then out of range and parts now and then cut. Others are large or deep, fill a table to
//! its limit or the image to its last word, and step over it ([`crate::fill`]).

use crate::cases;
use crate::fields::limit;
use crate::fill::{deep, full_image, full_table};
use crate::generate::{generate, sized, Options};
use crate::intake::admit;
use crate::module::*;
use crate::mutate::mutate;
use crate::random::Random;
use crate::steps::{operation, OPERATIONS};
use crate::twins::with_twins;
use crate::write::write;

/// What a session is run on.
#[derive(Clone, Debug)]
pub struct Generated {
    /// How the session was drawn, for a report.
    pub what: String,
    pub sources: Vec<u8>,
    pub steps: Vec<u32>,
    /// The length of the output in bytes.
    pub output: usize,
}

/// A session of any sort.
pub fn session(random: &mut Random) -> Generated {
    match random.below(80) {
        0..=3 => full_table(random),
        4..=5 => full_image(random),
        6..=7 => large(random),
        8 => deep(random),
        _ => small(random),
    }
}

/// A few small sources and steps over them.
pub fn small(random: &mut Random) -> Generated {
    let mut draft = Draft::new(random, "small sources");
    let mut modules: Vec<Module> = Vec::new();
    for _ in 0..random.between(1, 4) {
        let (module, image) = small_source(random, &modules);
        modules.extend(module);
        draft.add(image);
    }
    draft.some_steps(random, 40);
    draft.done()
}

/// A source and its module, if it is a valid one: drawn anew, or like one that is there.
fn small_source(random: &mut Random, before: &[Module]) -> (Option<Module>, Vec<u8>) {
    let like = (!before.is_empty() && random.once_in(3)).then(|| random.pick(before).clone());
    if let Some(module) = like {
        if random.once_in(3) {
            let module = renamed(random, module);
            let image = write(&module);
            return (Some(module), image);
        }
        let (_, image) = mutate(random, &module);
        return (admit(&image).ok(), image);
    }
    let options = *random.pick(&[
        Options::small(),
        Options::small().with_rings(),
        Options { functions: 2, records: 2, statements: 3, rings: false },
        Options { functions: 8, records: 6, statements: 4, rings: false },
        Options { functions: 6, records: 3, statements: 2, rings: true },
    ]);
    let module = if random.once_in(6) { calling(random) } else { generate(random, options) };
    let module = if random.once_in(2) { with_twins(random, module) } else { module };
    if random.once_in(12) {
        return (None, mutate(random, &module).1);
    }
    let image = write(&module);
    (Some(module), image)
}

/// Functions that only call, with names that such sources share, and entry points that call them.
fn calling(random: &mut Random) -> Module {
    let functions = random.between(1, 9);
    let (calls, rings) = (random.below(2 * functions), random.once_in(2));
    let mut module = cases::graph(random, functions, calls, rings);
    for _ in 0..random.below(3) {
        let callees = (0..random.below(3)).map(|_| random.below(functions)).collect();
        module.entry_points.push(cases::calling_entry(callees));
    }
    renamed(random, module)
}

/// The module with other texts for the numbers of its names: exchanged among them, or all of another length.
fn renamed(random: &mut Random, mut module: Module) -> Module {
    if random.once_in(2) {
        let by = random.below(module.names.len().max(1));
        module.names.rotate_left(by);
    } else {
        let more = vec![b'x'; random.between(1, 5)];
        module.names.iter_mut().for_each(|name| name.bytes.extend(&more));
    }
    module
}

/// Sources of many functions and some thousand words.
pub fn large(random: &mut Random) -> Generated {
    let mut draft = Draft::new(random, "large sources");
    for _ in 0..random.between(1, 2) {
        let words = *random.pick(&[2_000, 5_000, 9_000]);
        let module = match random.below(3) {
            0 => sized(random, words),
            1 => generate(random, Options::large()),
            _ => {
                let (functions, calls) = (random.between(100, 256), random.between(100, 400));
                let rings = random.once_in(4);
                cases::graph(random, functions, calls, rings)
            }
        };
        draft.add(write(&module));
    }
    draft.set(random, 0);
    for own in 0..random.below(60) as u32 {
        draft.step(operation::IMPORT_FUNCTION, own, 0, 0);
    }
    draft.some_steps(random, 20);
    draft.done()
}

// ---- drawing steps ----

/// A source in the draft: where its bytes are, and its module if intake admits them.
struct Part {
    start: u32,
    length: u32,
    module: Option<Module>,
}

/// A session that is under way.
pub(crate) struct Draft {
    pub made: Generated,
    parts: Vec<Part>,
    /// The source that the last `set` set, if none of the later steps takes it away.
    set: Option<usize>,
}

impl Draft {
    pub(crate) fn new(random: &mut Random, what: &str) -> Self {
        let output = match random.below(6) {
            0 => random.below(2_000),
            1 => limit::BYTES,
            2 => 2 * limit::BYTES,
            _ => 70_000,
        };
        let made = Generated { what: what.to_owned(), sources: Vec::new(), steps: Vec::new(), output };
        Draft { made, parts: Vec::new(), set: None }
    }

    pub(crate) fn done(self) -> Generated {
        self.made
    }

    /// Adds a source.
    fn add(&mut self, image: Vec<u8>) -> usize {
        let start = self.made.sources.len() as u32;
        let module = admit(&image).ok();
        self.parts.push(Part { start, length: image.len() as u32, module });
        self.made.sources.extend(image);
        self.parts.len() - 1
    }

    /// Adds a source that is valid and sets it.
    pub(crate) fn set_new(&mut self, random: &mut Random, module: Module) -> Module {
        let part = self.add(write(&module));
        self.set(random, part);
        module
    }

    pub(crate) fn step(&mut self, operation: u32, a: u32, b: u32, c: u32) {
        self.made.steps.extend([operation, a, b, c]);
    }

    /// Sets a source whole.
    fn set(&mut self, random: &mut Random, part: usize) {
        let Part { start, length, .. } = self.parts[part];
        let offset = match random.below(4) {
            0 => 0,
            1 => random.below(100) as u32,
            2 => u32::MAX - random.below(9) as u32,
            _ => random.word(),
        };
        self.step(operation::SET, start, length, offset);
        if self.parts[part].module.is_some() {
            self.set = Some(part);
        }
    }

    /// Sets a part that is no whole source: cut off, or reaching past the end.
    fn set_other(&mut self, random: &mut Random) {
        let Part { start, length, .. } = *random.pick(&self.parts);
        let (start, length) = match random.below(5) {
            0 => (start, length.saturating_sub(random.between(1, 8) as u32)),
            1 => (start, u32::MAX),
            2 => (start + 4, length),
            3 => (random.word(), random.word()),
            _ => (self.made.sources.len() as u32, length),
        };
        self.step(operation::SET, start, length, 0);
    }

    /// Up to so many steps of any sort, now and then some before the first source.
    pub(crate) fn some_steps(&mut self, random: &mut Random, most: usize) {
        if self.set.is_none() && !random.once_in(8) {
            let part = random.below(self.parts.len());
            self.set(random, part);
        }
        for _ in 0..random.between(1, most) {
            self.any_step(random);
        }
        if random.once_in(2) {
            self.finish(random);
        }
    }

    fn any_step(&mut self, random: &mut Random) {
        if self.set.is_none() && random.once_in(2) {
            let part = random.below(self.parts.len());
            return self.set(random, part);
        }
        match random.below(100) {
            0..=8 => {
                let part = random.below(self.parts.len());
                self.set(random, part);
            }
            9 => self.set_other(random),
            10 => {
                self.step(operation::CLEAR, 0, 0, 0);
                self.set = None;
            }
            11..=14 => {
                let (start, end) = (random.below(3) as u32, random.word());
                let end = if random.once_in(2) { start } else { end };
                self.step(operation::MAP_SPAN, start, end, 0);
            }
            15..=88 => self.import(random),
            89..=91 => self.step(operation::HAS_REQUIRED_SPECIAL_TYPES, 0, 0, 0),
            92..=97 => self.finish(random),
            98 => self.step(random.word().max(OPERATIONS.len() as u32), random.word(), 0, 0),
            _ => self.step(OPERATIONS.len() as u32, 0, 0, 0),
        }
    }

    /// An import of the source that is set.
    fn import(&mut self, random: &mut Random) {
        let nothing = Module::default();
        let module = self.set.and_then(|part| self.parts[part].module.as_ref()).unwrap_or(&nothing);
        let (number, count) = match random.below(15) {
            0..=1 => (operation::IMPORT_TYPE, module.types.len()),
            2..=3 => (operation::RENAME_TYPE, module.types.len()),
            4 => (operation::IMPORT_CONST, module.constants.len()),
            5 => (operation::IMPORT_PIPELINE_OVERRIDE, module.overrides.len()),
            6 => (operation::IMPORT_GLOBAL, module.globals.len()),
            7..=8 => (operation::IMPORT_GLOBAL_EXPRESSION, module.expressions.len()),
            9..=11 => (operation::IMPORT_FUNCTION, module.functions.len()),
            12..=13 => (operation::IMPORT_FUNCTION_IF_NEW, module.functions.len()),
            _ => (operation::MAP_FUNCTION_HANDLE, module.functions.len()),
        };
        let names = module.names.len();
        let (a, b) =
            (given(random, count), if number == operation::RENAME_TYPE { given(random, names) } else { 0 });
        self.step(number, a, b, 0);
    }

    /// A finish into the whole output or a part of it.
    fn finish(&mut self, random: &mut Random) {
        let number = *random.pick(&[operation::FINISH, operation::FINISH_WITH_ENTRY_POINTS]);
        let output = self.made.output;
        let (start, length) = match random.below(6) {
            0 => (random.below(output + 9), random.below(600)),
            1 => (random.below(2_000), u32::MAX as usize),
            2 => (random.word() as usize, random.word() as usize),
            _ => (0, output),
        };
        self.step(number, start as u32, length as u32, 0);
        if random.once_in(2) {
            self.set = None;
        }
    }
}

/// A number below the count, now and then one that is not.
pub(crate) fn given(random: &mut Random, count: usize) -> u32 {
    if count == 0 || random.once_in(16) {
        return match random.below(4) {
            0 => u32::MAX,
            1 => random.word(),
            _ => (count + random.below(3)) as u32,
        };
    }
    random.below(count) as u32
}
