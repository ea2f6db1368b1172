//! Generated images: intake accepts each, every kind occurs, and rings occur where they are allowed.

use std::collections::BTreeSet;

use plain::generate::{generate, Options};
use plain::module::{each_statement, Module};
use plain::random::Random;

/// Generated modules of all sizes.
fn modules() -> Vec<Module> {
    let mut modules = Vec::new();
    for seed in 0..300 {
        modules.push(generate(&mut Random::new(seed), Options::small()));
        modules.push(generate(&mut Random::new(seed), Options::small().with_rings()));
    }
    for seed in 0..40 {
        modules.push(generate(&mut Random::new(seed), Options::large()));
    }
    modules
}

#[test]
fn intake_accepts_each() {
    for (own, module) in modules().iter().enumerate() {
        let image = plain::write(module);
        if let Err(refused) = plain::intake(&image) {
            panic!("generated image {own}: {refused}");
        }
        let read = plain::read(&image).unwrap();
        assert_eq!(plain::write(&read), image, "generated image {own} is not written as it was read");
    }
}

#[test]
fn every_kind_occurs() {
    let (mut types, mut globals) = (BTreeSet::new(), BTreeSet::new());
    let (mut expressions, mut statements) = (BTreeSet::new(), BTreeSet::new());
    for module in modules() {
        types.extend(module.types.iter().map(|record| record.inner.kind()));
        globals.extend(module.expressions.iter().map(|record| record.kind.value));
        for function in &module.functions {
            expressions.extend(function.expressions.iter().map(|record| record.kind.value));
            each_statement(&function.body, &mut |statement| {
                statements.insert(statement.kind.value);
            });
        }
    }
    assert_eq!(types.len(), 5);
    assert_eq!(globals.len(), 15);
    assert_eq!(expressions.len(), 27);
    assert_eq!(statements.len(), 17);
}

#[test]
fn rings_occur_where_they_are_allowed() {
    let ring = |seed, options| plain::order_of(&generate(&mut Random::new(seed), options)).is_err();
    assert!((0..100).any(|seed| ring(seed, Options::small().with_rings())));
    assert!(!(0..100).any(|seed| ring(seed, Options::small())));
}

#[test]
fn limits_are_met_and_passed() {
    for (name, image) in plain::cases::limits() {
        let answer = plain::intake(&image).map_err(|refused| refused.number);
        let count: u32 = name.rsplit(' ').next().unwrap().parse().unwrap();
        let over = [513, 257, 17, 65, 33, 129, 1025, 16385].contains(&count);
        let expected = match (over, count) {
            (false, _) => Ok(()),
            (true, 16385) => Err(1),
            (true, _) => Err(2),
        };
        assert_eq!(answer, expected, "{name}");
    }
    for (name, image) in plain::cases::worst() {
        assert_eq!(plain::intake(&image), Ok(()), "{name}");
    }
}

#[test]
fn damage_gives_every_refusal() {
    let mut seen = BTreeSet::new();
    let mut random = Random::new(7);
    for _ in 0..2000 {
        let module = generate(&mut random, Options::small());
        let (_, damaged) = plain::mutate::mutate(&mut random, &module);
        seen.insert(plain::intake(&damaged).map_or_else(|refused| refused.number, |()| 0));
    }
    assert_eq!(seen, BTreeSet::from([0, 1, 2, 3, 4, 5, 6]));
}

#[test]
fn sized_modules_are_near_their_size() {
    for words in [512, 2048, 8192, 16384] {
        let image = plain::write(&plain::generate::sized(&mut Random::new(1), words));
        assert_eq!(plain::intake(&image), Ok(()));
        assert!(image.len() <= 4 * words && image.len() > 2 * words, "{} for {words}", image.len() / 4);
    }
}

#[test]
fn anything_can_be_damaged() {
    let mut random = Random::new(3);
    let tiny = Options { functions: 1, records: 0, statements: 2, rings: true };
    for _ in 0..3000 {
        plain::mutate::mutate(&mut random, &Module::default());
        let module = generate(&mut random, tiny);
        plain::mutate::mutate(&mut random, &module);
    }
}

#[test]
fn redirecting_keeps_an_image_valid() {
    let mut random = Random::new(9);
    let mut accepted = 0;
    for _ in 0..2000 {
        let module = generate(&mut random, Options::small());
        let names = module.functions.len();
        if names > 0 {
            let mut image = plain::write(&module);
            let (original, replacement) = (random.below(names) as u32, random.below(names) as u32);
            if plain::redirect(&mut image, original, replacement, &[]).is_ok() {
                accepted += 1;
                assert_eq!(plain::intake(&image), Ok(()));
            }
        }
    }
    assert!(accepted > 200, "{accepted}");
}
