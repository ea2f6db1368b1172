//! A session for each refusal of each operation, by hand: its last step is that operation, and refused so.

use crate::cases::{self, word};
use crate::fields::statement;
use crate::fill::{Filling, Last, FILLING, WORDS};
use crate::generate_session::{Draft, Generated};
use crate::module::*;
use crate::random::Random;
use crate::steps::{operation, OPERATIONS};
use crate::write::write;
use crate::{bytes, words};

/// A session, the operation of its last step, and the refusal.
pub type Refusal = (Generated, u32, u32);

/// All of them.
pub fn sessions() -> Vec<Refusal> {
    let mut all = vec![(alone(OPERATIONS.len() as u32), OPERATIONS.len() as u32, 13)];
    all.extend(sources());
    for number in operation::MAP_SPAN..=operation::MAP_FUNCTION_HANDLE {
        all.push((alone(number), number, 20));
    }
    for number in operation::IMPORT_TYPE..=operation::MAP_FUNCTION_HANDLE {
        all.push((set_and(cases::base(), number, 9), number, 13));
    }
    for number in operation::IMPORT_FUNCTION..=operation::MAP_FUNCTION_HANDLE {
        all.push((set_and(ring(), number, 0), number, 22));
    }
    for filling in &FILLING {
        all.push(full(filling));
    }
    let finish = operation::FINISH_WITH_ENTRY_POINTS;
    all.push((alone(operation::FINISH), operation::FINISH, 7));
    all.push((set_and(cases::base(), finish, 0), finish, 7));
    all.push((alone(finish), finish, 20));
    all.push((set_and(ring(), finish, 0), finish, 22));
    all.push((full_image(), finish, 21));
    for (session, number, refusal) in &mut all {
        let name = OPERATIONS.get(*number as usize).unwrap_or(&"no operation");
        session.what = format!("{name} refused by {refusal}");
    }
    all
}

fn draft() -> Draft {
    Draft::new(&mut Random::new(0), "")
}

/// One step without a source, with numbers that are 0.
fn alone(number: u32) -> Generated {
    let mut draft = draft();
    draft.step(number, 0, 0, 0);
    draft.done()
}

/// One step on a source.
fn set_and(module: Module, number: u32, a: u32) -> Generated {
    let mut draft = draft();
    draft.set_new(&mut Random::new(0), module);
    draft.step(number, a, 0, 0);
    draft.done()
}

/// Sources that each of the tests refuses, the first of them being no bytes.
fn sources() -> Vec<Refusal> {
    let mut misplaced = words(&write(&Module::default()));
    misplaced[3] += 1;
    let type_alone =
        |inner: Inner| Module { types: vec![Type { inner, ..cases::leaf() }], ..Module::default() };
    let unknown = Inner::Leaf { leaf: word(9), copied: Binding::default() };
    let own = Inner::Pointer { base: word(0), space: Default::default() };
    let stop = cases::made(statement::BREAK, Body::Plain(Vec::new()));
    let images = [
        Vec::new(),
        bytes(&misplaced),
        write(&type_alone(unknown)),
        write(&type_alone(own)),
        write(&cases::one(Function::default())),
        write(&cases::one(Function { body: vec![stop], ..cases::named() })),
    ];
    let set = |(own, image): (usize, Vec<u8>)| {
        let mut draft = draft();
        draft.step(operation::SET, 0, image.len() as u32, 0);
        draft.made.sources = image;
        (draft.done(), operation::SET, own as u32 + 1)
    };
    images.into_iter().enumerate().map(set).collect()
}

/// A function that calls itself, and an entry point that calls it.
fn ring() -> Module {
    let entry_points = vec![cases::calling_entry(vec![0])];
    Module { entry_points, ..cases::functions(1, |own| vec![own]) }
}

/// A table that is full, and one record more by the import that brings a single one; special types come with a source.
fn full(filling: &Filling) -> Refusal {
    let (mut draft, mut random) = (draft(), Random::new(0));
    let all = filling.most - 2 * filling.more;
    draft.fill_table(&mut random, filling, [0..all / 2, all / 2..all]);
    draft.set_new(&mut random, (filling.source)(all..all + 8));
    let number = filling.single.map_or(operation::SET, |(number, _)| number);
    if number != operation::SET {
        draft.step(number, 0, 0, 0);
    }
    (draft.done(), number, 21)
}

/// An image that an entry point makes one word too long.
fn full_image() -> Generated {
    let mut draft = draft();
    draft.fill_image(&mut Random::new(0), Last::EntryPoint, WORDS + 1);
    draft.done()
}
