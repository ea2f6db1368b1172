//! Linking generated images: the linked image is valid, linking it again changes nothing, and its functions do what
//! their sources do, carried through the maps.

use std::collections::BTreeSet;

use plain::fields::Field;
use plain::generate::{generate, Options};
use plain::link::{link, linked, Linked};
use plain::module::{each_statement, Body, Expression, Function, Module, Word};
use plain::random::Random;
use plain::twins::with_twins;
use plain::walk::{walk, Event};
use plain::Map;

/// Generated modules of all sizes, with equal records and without, with rings and without.
fn modules() -> Vec<Module> {
    let mut modules = Vec::new();
    for seed in 0..1500 {
        let mut random = Random::new(seed);
        let options = match seed % 10 {
            0 => Options::large(),
            1 => Options::small().with_rings(),
            _ => Options::small(),
        };
        let mut module = generate(&mut random, options);
        if seed % 3 != 0 {
            module = with_twins(&mut random, module);
        }
        assert_eq!(plain::intake(&plain::write(&module)), Ok(()), "{seed}");
        modules.push(module);
    }
    let cases = plain::cases::limits().into_iter().chain(plain::cases::worst()).chain(plain::heavy::images());
    modules.extend(cases.filter_map(|(_, image)| plain::admit(&image).ok()));
    modules
}

#[test]
fn heavy_and_deep_images_link() {
    for (name, image) in plain::heavy::images().into_iter().chain(plain::deep::images()) {
        assert!((58_000..=65_536).contains(&image.len()), "{name}: {}", image.len());
        assert!(linked_image(&image).is_ok(), "{name}");
    }
}

/// The linked image, whose length link answers.
fn linked_image(image: &[u8]) -> Result<Vec<u8>, plain::Refused> {
    let mut output = vec![165; image.len()];
    let length = link(image, &mut output)? as usize;
    assert!(output[length..].iter().all(|byte| *byte == 165));
    output.truncate(length);
    Ok(output)
}

#[test]
fn a_linked_image_is_valid_and_links_to_itself() {
    let (mut refused, mut accepted) = (BTreeSet::new(), 0);
    for (own, module) in modules().iter().enumerate() {
        let image = plain::write(module);
        match linked_image(&image) {
            Ok(once) => {
                assert_eq!(plain::intake(&once), Ok(()), "{own}");
                assert_eq!(
                    linked_image(&once).as_ref(),
                    Ok(&once),
                    "{own}: linked twice\n{}",
                    plain::text::text(&image)
                );
                accepted += 1;
            }
            Err(ring) => {
                assert!(ring.left > 0);
                refused.insert(ring.number);
            }
        }
        let mut short = vec![165; image.len() - 1];
        assert_eq!(link(&image, &mut short).map_err(|refused| refused.number), Err(7));
        assert!(short.iter().all(|byte| *byte == 165));
    }
    assert_eq!(refused, BTreeSet::from([12]));
    assert!(accepted > 1000, "{accepted}");
}

/// Table functions, then those of entry points.
fn functions(module: &Module) -> Vec<&Function> {
    let entries = module.entry_points.iter().map(|entry| &entry.function);
    module.functions.iter().chain(entries).collect()
}

/// Each function of a module with the one it is linked to and the map of its expressions.
fn pairs<'a>(module: &'a Module, linked: &'a Linked) -> Vec<(&'a Function, &'a Function, &'a Map)> {
    let (old, new) = (functions(module), functions(&linked.module));
    let place = |own: usize| linked.functions.get(own).map_or(own, |place| *place as usize);
    (0..old.len()).map(|own| (old[own], new[place(own)], &linked.own[own])).collect()
}

/// The words of an expression with every reference carried through the maps.
fn carried(record: &Expression, linked: &Linked, own: &Map) -> Vec<u32> {
    let through = |map: &Map, number: u32| map[number as usize].expect("what is referred to is imported");
    let word = |(field, word): (Field, Word)| match field {
        Field::Type => through(&linked.maps.types, word.value),
        Field::Constant => through(&linked.maps.constants, word.value),
        Field::Override => through(&linked.maps.overrides, word.value),
        Field::Global => through(&linked.maps.globals, word.value),
        Field::Function => linked.functions[word.value as usize],
        Field::Operand => through(own, word.value),
        Field::OptionalOperand => word.optional().map_or(0, |number| through(own, number) + 1),
        _ => word.value,
    };
    record.words().into_iter().map(word).collect()
}

/// That each expression that was imported equals the record it is mapped to.
fn records_agree(old: &[Expression], new: &[Expression], linked: &Linked, own: &Map) {
    for (record, place) in old.iter().zip(own) {
        if let Some(place) = place {
            let found = &new[*place as usize];
            assert_eq!(found.kind.value, record.kind.value);
            let words: Vec<u32> = found.words().iter().map(|(_, word)| word.value).collect();
            assert_eq!(words, carried(record, linked, own));
        }
    }
    assert!((0..new.len() as u32).all(|number| own.contains(&Some(number))), "a record that nothing made");
}

#[test]
fn expressions_are_carried() {
    let mut shared = 0;
    for module in modules() {
        let Ok(linked) = linked(module.clone()) else { continue };
        records_agree(&module.expressions, &linked.module.expressions, &linked, &linked.maps.expressions);
        for (old, new, map) in pairs(&module, &linked) {
            records_agree(&old.expressions, &new.expressions, &linked, map);
            let mut evaluated = BTreeSet::new();
            for (own, number) in evaluated_by(old) {
                let first = evaluated.insert(map[number as usize]);
                assert!(first, "evaluation {own} shares its record");
            }
            shared += map.iter().flatten().count() - new.expressions.len();
        }
    }
    assert!(shared > 1000, "{shared}");
}

/// The expressions that a function's statements evaluate, those of initialisers left out.
fn evaluated_by(function: &Function) -> impl Iterator<Item = (usize, u32)> {
    let mut evaluated = BTreeSet::new();
    each_statement(&function.body, &mut |statement| {
        if let Body::Emit { start, end } = &statement.body {
            evaluated.extend(start.value..end.value);
        }
        evaluated.extend(statement.result().map(|result| result.number));
    });
    let inits = function.locals.iter().filter_map(|local| local.init.optional());
    let mut initialisers: BTreeSet<u32> = inits.collect();
    while let Some(number) = initialisers.pop_last() {
        evaluated.remove(&number);
        let operands = function.expressions[number as usize].operands();
        initialisers.extend(operands.iter().map(|operand| operand.number));
    }
    evaluated.into_iter().enumerate()
}

#[test]
fn walks_are_carried() {
    let (mut random, mut ends) = (Random::new(1), BTreeSet::new());
    for module in modules() {
        let Ok(linked) = linked(module.clone()) else { continue };
        for (old, new, map) in pairs(&module, &linked) {
            let expression = |number: u32| map[number as usize].expect("what a walk meets is imported");
            for _ in 0..5 {
                let numbers: Vec<u32> = (0..random.below(20)).map(|_| random.below(4) as u32).collect();
                let (events, end) = walk(old, &numbers);
                let carried = events.into_iter().map(|event| match event {
                    Event::Read(number) => Event::Read(expression(number)),
                    Event::Evaluate(number) => Event::Evaluate(expression(number)),
                    Event::Call(number) => Event::Call(linked.functions[number as usize]),
                });
                assert_eq!((carried.collect::<Vec<Event>>(), end), walk(new, &numbers));
                ends.insert(end);
            }
        }
    }
    assert_eq!(ends.len(), 5);
}
