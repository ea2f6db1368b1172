//! Steps over one image, which is all of the sources: the sessions that time and stack are measured with.

use plain::cases::{self, Case};
use plain::fields::limit;
use plain::random::Random;
use plain::steps::{operation, ANSWER, STEP};
use plain::{deep, generate, heavy};

use crate::archive::{self, Memory};

/// Steps, with room for their answers and for an image.
pub struct Script {
    steps: Vec<u32>,
    answers: Vec<u32>,
    output: Vec<u8>,
}

impl Script {
    /// Sets the image, takes these steps, and finishes with the entry points.
    fn new(image: &[u8], steps: impl IntoIterator<Item = (u32, u32)>) -> Self {
        let mut all = vec![operation::SET, 0, image.len() as u32, 0];
        steps.into_iter().for_each(|(operation, number)| all.extend([operation, number, 0, 0]));
        all.extend([operation::FINISH_WITH_ENTRY_POINTS, 0, limit::BYTES as u32, 0]);
        let answers = vec![0; all.len() / STEP * ANSWER];
        Script { steps: all, answers, output: vec![0; limit::BYTES] }
    }

    /// The same steps so many times.
    fn repeated(self, times: usize) -> Self {
        Script { steps: self.steps.repeat(times), answers: self.answers.repeat(times), ..self }
    }

    /// How many steps it has.
    pub fn steps(&self) -> usize {
        self.steps.len() / STEP
    }

    /// What link does: the functions in output order; none where there is a ring.
    pub fn in_order(image: &[u8]) -> Self {
        let order = plain::order(image).unwrap_or_default();
        Script::new(image, order.into_iter().map(|function| (operation::IMPORT_FUNCTION, function)))
    }

    /// The last function in output order by this operation, and with it those that it calls.
    pub fn nested(image: &[u8], operation: u32) -> Self {
        let last = plain::order(image).unwrap_or_default().pop();
        Script::new(image, last.map(|function| (operation, function)))
    }

    /// The entry points alone, and with them the functions that they call.
    pub fn entered(image: &[u8]) -> Self {
        Script::new(image, [])
    }

    /// Runs it by the archive; the answer of the call.
    pub fn run(&mut self, image: &[u8]) -> u64 {
        archive::session(image, &self.steps, &mut self.answers, &mut self.output)
    }

    /// The same in memory that is lent.
    pub fn run_in(&mut self, image: &[u8], memory: &mut Memory) -> u64 {
        archive::session_in(image, &self.steps, &mut self.answers, &mut self.output, memory)
    }

    pub fn output(&self) -> &[u8] {
        &self.output
    }
}

/// A session to measure: what it does, its image, and its steps.
pub type Measured = (String, Vec<u8>, Script);

/// Sessions of one deep import, of many small ones, of many images in one session, and of refused steps.
pub fn measured() -> Vec<Measured> {
    let mut all: Vec<Measured> = deep_images().into_iter().map(nested).collect();
    all.extend(deep_images().into_iter().take(1).map(in_order));
    all.push(by_steps("512 structs", operation::IMPORT_TYPE, limit::RECORDS));
    all.push(by_steps("256 functions alike", operation::IMPORT_FUNCTION_IF_NEW, 2 * limit::FUNCTIONS));
    all.extend([("once", 1), ("ten times", 10)].map(|(often, times)| {
        let image = plain::write(&generate::sized(&mut Random::new(1), 16_384));
        let script = Script::in_order(&image).repeated(times);
        (format!("a generated image: in output order, {often}"), image, script)
    }));
    all.push(full());
    all
}

/// Images of 256 functions that one of them leads to.
fn deep_images() -> Vec<Case> {
    let wanted = ["256 functions, each calls the one behind", "256 functions that call six lower ones"];
    let of_calls = cases::worst().into_iter().filter(|(name, _)| wanted.contains(&name.as_str()));
    of_calls.chain(deep::images().pop()).collect()
}

fn nested((name, image): Case) -> Measured {
    let script = Script::nested(&image, operation::MAP_FUNCTION_HANDLE);
    (format!("{name}: all by one import"), image, script)
}

fn in_order((name, image): Case) -> Measured {
    let script = Script::in_order(&image);
    (format!("{name}: in output order"), image, script)
}

/// An import of the records of a heavy image, one after the other, over and over.
fn by_steps(name: &str, operation: u32, steps: u32) -> Measured {
    let found = heavy::images().into_iter().find(|(own, _)| own == name);
    let (name, image) = found.expect("there is such an image");
    let count = if operation == operation::IMPORT_TYPE { limit::RECORDS } else { limit::FUNCTIONS };
    let script = Script::new(&image, (0..steps).map(|own| (operation, own % count)));
    (format!("{name}: {steps} steps"), image, script)
}

/// A function of nearly all words, and a hundred imports of it that are refused.
fn full() -> Measured {
    let found = cases::worst().pop().expect("there are worst cases");
    let (name, image) = found;
    let script = Script::new(&image, vec![(operation::IMPORT_FUNCTION, 0); 101]);
    (format!("{name}: imported, and 100 imports refused"), image, script)
}
