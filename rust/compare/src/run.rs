//! A differential run: what it was told, what has been compared so far, and how often each answer came up.

use std::collections::BTreeMap;
use std::path::PathBuf;

use plain::generate_session::Generated;
use plain::random::Random;
use plain::steps::{OPERATIONS, REFUSALS};

use crate::archive::Memory;
use crate::{image, session};

/// Failures that are printed whole; more are only counted.
const SHOWN: usize = 5;

/// The operations on one image, and every answer that link has.
const ON_IMAGES: [&str; 4] = ["intake", "order", "redirect", "link"];
const OF_LINK: [u32; 9] = [0, 1, 2, 3, 4, 5, 6, 7, 12];

/// The name of all numbers that are no operation of a session.
const NO_OPERATION: &str = "no operation";

/// What a run is told.
pub struct Settings {
    pub seed: u64,
    pub count: usize,
    pub short: bool,
    pub keep: Option<PathBuf>,
}

/// How often each answer of the plain reading came up.
#[derive(Default)]
struct Counts {
    on_images: BTreeMap<(&'static str, u32), usize>,
    /// By the number of the operation, all numbers that are none as one.
    of_steps: BTreeMap<(u32, u32), usize>,
}

/// What has been compared so far.
pub struct Run {
    pub settings: Settings,
    pub random: Random,
    pub passed: usize,
    pub failed: usize,
    /// Lent to every link of the run, and never cleared.
    memory: Memory,
    in_stage: Counts,
    in_all: Counts,
}

impl Run {
    pub fn new(settings: Settings) -> Self {
        let random = Random::new(settings.seed);
        let (memory, in_stage, in_all) = (Memory::new(), Counts::default(), Counts::default());
        Run { settings, random, passed: 0, failed: 0, memory, in_stage, in_all }
    }

    /// A stage, and what it came to.
    pub fn stage(&mut self, name: &str, stage: fn(&mut Self)) {
        let before = (self.passed, self.failed);
        self.in_stage = Counts::default();
        // Each stage has random numbers of its own, so that one alone can be changed.
        let seed =
            name.bytes().fold(self.settings.seed, |seed, byte| seed.wrapping_mul(31) + u64::from(byte));
        self.random = Random::new(seed);
        stage(self);
        println!("{name}: {} passed, {} failed", self.passed - before.0, self.failed - before.1);
        print!("{}", self.in_stage.report());
        self.in_all.add(&self.in_stage);
    }

    /// Counts a failure for each answer that some operation has and that never came up, so that no comparison is empty.
    pub fn every_answer_came_up(&mut self) {
        for missing in self.in_all.missing() {
            self.failed += 1;
            println!("FAILED: {missing} never came up");
        }
    }

    /// Compares everything on one image. `what` names it in a report.
    pub fn compare(&mut self, image: &[u8], what: &dyn Fn() -> String) {
        // Drawn first, so that a failure does not change what the rest of the run compares.
        let asked = image::Asked::draw(&mut self.random, image);
        let counts = &mut self.in_stage.on_images;
        let mut count = |operation, answer| *counts.entry((operation, answer)).or_default() += 1;
        match image::agrees(image, &asked, &mut self.memory, &mut count) {
            Ok(()) => self.passed += 1,
            Err(message) => self.fail(image, &what(), &message),
        }
    }

    /// Compares one session.
    pub fn compare_session(&mut self, session: &Generated) {
        let asked = session::Asked::draw(&mut self.random, &session.steps);
        match session::agrees(session, &asked, &mut self.memory) {
            Ok(answered) => {
                self.passed += 1;
                for (operation, answer) in answered {
                    let operation = operation.min(OPERATIONS.len() as u32);
                    *self.in_stage.of_steps.entry((operation, answer)).or_default() += 1;
                }
            }
            Err(message) => self.fail_session(session, &message),
        }
    }

    pub fn fail(&mut self, image: &[u8], what: &str, message: &str) {
        self.failed += 1;
        self.keep("img", image);
        self.show(what, message, || plain::text::text(image));
    }

    fn fail_session(&mut self, session: &Generated, message: &str) {
        self.failed += 1;
        self.keep("sources", &session.sources);
        self.keep("steps", session::text(session).as_bytes());
        self.show(&session.what, message, || session::text(session));
    }

    /// A file on the last failure, where they are kept.
    fn keep(&self, extension: &str, content: &[u8]) {
        let Some(folder) = &self.settings.keep else { return };
        let path = folder.join(format!("failed-{}.{extension}", self.failed));
        if let Err(error) = std::fs::write(&path, content) {
            eprintln!("differential: {}: {error}", path.display());
        }
    }

    fn show(&self, what: &str, message: &str, text: impl Fn() -> String) {
        if self.failed <= SHOWN {
            println!("FAILED {what}: {message}");
            for line in text().lines().take(60) {
                println!("    {line}");
            }
        }
    }
}

impl Counts {
    fn add(&mut self, other: &Counts) {
        for (key, count) in &other.on_images {
            *self.on_images.entry(*key).or_default() += count;
        }
        for (key, count) in &other.of_steps {
            *self.of_steps.entry(*key).or_default() += count;
        }
    }

    /// A line for each operation on images that was compared; one for sessions, and one for each of their operations.
    fn report(&self) -> String {
        let mut text = String::new();
        for operation in ON_IMAGES {
            let own = self.on_images.iter().filter(|((name, _), _)| *name == operation);
            text += &line(operation, own.map(|((_, answer), count)| (*answer, *count)));
        }
        text += &line("session", self.of_steps.iter().map(|((_, answer), count)| (*answer, *count)));
        for operation in 0..=OPERATIONS.len() as u32 {
            let own = self.of_steps.iter().filter(|((number, _), _)| *number == operation);
            let name = OPERATIONS.get(operation as usize).unwrap_or(&NO_OPERATION);
            text += &line(&format!("    {name}"), own.map(|((_, answer), count)| (*answer, *count)));
        }
        text
    }

    /// The answers that never came up.
    fn missing(&self) -> Vec<String> {
        let of_link = OF_LINK.into_iter().filter(|answer| !self.on_images.contains_key(&("link", *answer)));
        let mut missing: Vec<String> = of_link.map(|answer| format!("answer {answer} of link")).collect();
        for (operation, refusals) in REFUSALS.iter().enumerate() {
            let name = OPERATIONS.get(operation);
            let accepted = name.map(|_| &0);
            for answer in accepted.into_iter().chain(*refusals) {
                if !self.of_steps.contains_key(&(operation as u32, *answer)) {
                    let name = name.unwrap_or(&NO_OPERATION);
                    missing.push(format!("answer {answer} of {name} in a session"));
                }
            }
        }
        missing
    }
}

/// How often each answer came up; nothing where none did.
fn line(name: &str, answers: impl Iterator<Item = (u32, usize)>) -> String {
    let mut counts = BTreeMap::new();
    for (answer, count) in answers {
        *counts.entry(answer).or_insert(0) += count;
    }
    if counts.is_empty() {
        return String::new();
    }
    let counts: Vec<String> = counts.iter().map(|(answer, count)| format!("{answer} ({count})")).collect();
    format!("    {name} answers: {}\n", counts.join(", "))
}
