//! What a differential run goes through: the vectors, an image at each limit and past it, short inputs without a gap,
//! every small body, generated images, damaged ones, random bytes, and sessions.

use std::path::{Path, PathBuf};

use plain::generate::{self, Options};
use plain::generate_session::Generated;
use plain::random::Random;
use plain::twins::with_twins;
use plain::{bodies, bytes, cases, deep, fill, generate_session, heavy, mutate, refused, words};

use crate::run::Run;
use crate::session;

/// A stage and its name.
pub type Stage = (&'static str, fn(&mut Run));

/// All of them.
pub const STAGES: [Stage; 11] = [
    ("vectors", vectors),
    ("limits and worst cases", limits),
    ("short bytes", short_bytes),
    ("changed words of small images", changed_words),
    ("several words changed", several_words),
    ("cut images", cut_images),
    ("small bodies", small_bodies),
    ("call graphs", call_graphs),
    ("generated", generated),
    ("random bytes", random_bytes),
    ("sessions", sessions),
];

/// The files of this extension among the repository's vectors, and in the folder that WULDGISP_VECTORS names.
fn files(extension: &str) -> Vec<PathBuf> {
    let own = Path::new(env!("CARGO_MANIFEST_DIR")).join("../../vectors");
    let other = std::env::var_os("WULDGISP_VECTORS").map(PathBuf::from);
    let mut files = Vec::new();
    for folder in [Some(own), other].into_iter().flatten() {
        let mut paths: Vec<PathBuf> =
            std::fs::read_dir(&folder).into_iter().flatten().flatten().map(|entry| entry.path()).collect();
        paths.retain(|path| path.extension().is_some_and(|own| own == extension));
        paths.sort();
        files.extend(paths);
    }
    files
}

/// A file that cannot be read is a failure too.
fn vectors(run: &mut Run) {
    for path in files("img") {
        let what = path.display().to_string();
        match std::fs::read(&path) {
            Ok(image) => run.compare(&image, &|| what.clone()),
            Err(error) => run.fail(&[], &what, &error.to_string()),
        }
    }
    for path in files("steps") {
        let what = path.display().to_string();
        let text = std::fs::read_to_string(&path).unwrap_or_default();
        let sources = std::fs::read(path.with_extension("sources")).unwrap_or_default();
        match session::read(what.clone(), &text, sources) {
            Some(session) => run.compare_session(&session),
            None => run.fail(&[], &what, "this is no session"),
        }
    }
}

fn limits(run: &mut Run) {
    let images = [cases::limits(), cases::worst(), heavy::images(), deep::images()];
    for (name, image) in images.into_iter().flatten() {
        run.compare(&image, &|| name.clone());
    }
}

/// Every input of up to two bytes, and one of each length up to 200 with a right edition and total.
fn short_bytes(run: &mut Run) {
    run.compare(&[], &|| "no bytes".to_owned());
    for first in 0..=255 {
        run.compare(&[first], &|| format!("byte {first}"));
        for second in 0..=255 {
            run.compare(&[first, second], &|| format!("bytes {first} {second}"));
        }
    }
    for length in 0..=200usize {
        for fill in [0, 1, 20, 0xff] {
            let mut image = vec![fill; length];
            let head = bytes(&[1, length as u32 / 4]);
            let copied = head.len().min(length);
            image[..copied].copy_from_slice(&head[..copied]);
            run.compare(&image, &|| format!("{length} bytes of {fill}"));
        }
    }
}

/// Values that some test tells apart: small numbers, bounds of codes, limits and what is past them, high bits.
const TELLING: [u32; 32] = [
    0,
    1,
    2,
    3,
    4,
    5,
    6,
    7,
    8,
    9,
    10,
    16,
    17,
    18,
    26,
    27,
    32,
    33,
    64,
    65,
    128,
    129,
    256,
    257,
    512,
    513,
    1024,
    1025,
    65_536,
    1 << 30,
    1 << 31,
    u32::MAX,
];

/// Images small enough to change every word.
const SMALL: Options = Options { functions: 2, records: 2, statements: 5, rings: true };

/// Small images in which every word in turn takes each of many values; of the shortest, every two words.
fn changed_words(run: &mut Run) {
    let empty = plain::write(&plain::Module::default());
    let few = [0, 1, 2, 3, 19, 20, 21, 22, 23, 24, u32::MAX];
    let shortest = words(&empty);
    for i in 0..shortest.len() {
        for j in 0..i {
            for (a, b) in few.iter().flat_map(|a| few.map(|b| (*a, b))) {
                let mut changed = shortest.clone();
                (changed[i], changed[j]) = (a, b);
                run.compare(&bytes(&changed), &|| format!("the empty image, word {i} {a}, word {j} {b}"));
            }
        }
    }
    let images = if run.settings.short { 12 } else { 60 };
    for own in 0..images {
        let image = words(&generate::image(&mut run.random, SMALL));
        for at in 0..image.len() {
            let near = [image[at].wrapping_sub(1), image[at].wrapping_add(1)];
            for value in TELLING.into_iter().chain(near) {
                let mut changed = image.clone();
                changed[at] = value;
                run.compare(&bytes(&changed), &|| format!("small image {own}, word {at} {value}"));
            }
        }
    }
}

/// Small images in which two or three words change: which test goes before which.
fn several_words(run: &mut Run) {
    for own in 0..4 * run.settings.count {
        let mut image = words(&generate::image(&mut run.random, SMALL));
        for _ in 0..run.random.between(2, 3) {
            let at = run.random.between(2, image.len() - 1);
            image[at] = match run.random.below(4) {
                0 => image[at].wrapping_add(1),
                1 => image[at].wrapping_sub(1),
                _ => *run.random.pick(&TELLING),
            };
        }
        run.compare(&bytes(&image), &|| format!("small image {own}, several words changed"));
    }
}

/// Images cut at every byte, with and without a total that fits.
fn cut_images(run: &mut Run) {
    for own in 0..3 {
        let image = generate::image(&mut run.random, Options::small());
        for length in 0..image.len() {
            let mut cut = image[..length].to_vec();
            run.compare(&cut, &|| format!("image {own} cut to {length} bytes"));
            if length >= 8 && length % 4 == 0 {
                cut[4..8].copy_from_slice(&(length as u32 / 4).to_le_bytes());
                run.compare(&cut, &|| format!("image {own} cut to {length} bytes, total fitting"));
            }
        }
    }
}

/// Every body of up to three statements, every loop of a few, and drawn ones of more.
fn small_bodies(run: &mut Run) {
    for (size, blocks) in bodies::blocks(3).into_iter().enumerate() {
        for (own, block) in blocks.into_iter().enumerate() {
            let image = plain::write(&bodies::module(block));
            run.compare(&image, &|| format!("body {own} of {size} statements"));
        }
    }
    let mut own = 0;
    bodies::loops(&mut |block| {
        run.compare(&plain::write(&bodies::module(block)), &|| format!("loop {own}"));
        own += 1;
    });
    for own in 0..10 * run.settings.count {
        let size = run.random.between(4, 9);
        let block = bodies::draw(&mut run.random, size);
        let image = plain::write(&bodies::module(block));
        run.compare(&image, &|| format!("drawn body {own} of {size} statements"));
    }
}

/// Functions that only call: sparse and dense, with rings and without.
fn call_graphs(run: &mut Run) {
    for own in 0..run.settings.count {
        let most = *run.random.pick(&[3, 8, 40, 256]);
        let functions = run.random.between(1, most);
        let calls = run.random.below(2 * functions + 1);
        let rings = run.random.once_in(2);
        let image = plain::write(&cases::graph(&mut run.random, functions, calls, rings));
        run.compare(&image, &|| format!("call graph {own} of {functions} functions and {calls} calls"));
    }
}

/// Generated images, each accepted, and each damaged in several ways.
fn generated(run: &mut Run) {
    for own in 0..run.settings.count {
        let options = match own % 8 {
            0 => Options::large(),
            1 => Options::large().with_rings(),
            2..=4 => Options::small().with_rings(),
            _ => Options::small(),
        };
        let module = generate::generate(&mut run.random, options);
        let module = if own % 3 == 0 { with_twins(&mut run.random, module) } else { module };
        let image = plain::write(&module);
        if let Err(refused) = plain::intake(&image) {
            run.fail(&image, &format!("generated {own}"), &format!("the generator's image is {refused}"));
        }
        for _ in 0..2 {
            run.compare(&image, &|| format!("generated {own}"));
        }
        for _ in 0..8 {
            let (way, damaged) = mutate::mutate(&mut run.random, &module);
            run.compare(&damaged, &|| format!("generated {own}, {way}"));
        }
    }
}

/// Random words under a header that is more or less right.
fn random_bytes(run: &mut Run) {
    for own in 0..4 * run.settings.count {
        let length = run.random.between(0, 400);
        let mut image: Vec<u8> = (0..length).map(|_| run.random.word() as u8).collect();
        if run.random.once_in(2) {
            let small = run.random.between(1, 5) as u32;
            let any: Vec<u32> = (0..length / 4).map(|_| run.random.word() % small).collect();
            image = bytes(&any);
        }
        if image.len() >= 80 && !run.random.once_in(8) {
            random_header(&mut run.random, &mut image);
        }
        run.compare(&image, &|| format!("random bytes {own}"));
    }
}

/// Edition and total that fit, and sections that share the words among them.
fn random_header(random: &mut Random, image: &mut Vec<u8>) {
    image.truncate(image.len() / 4 * 4);
    let mut all = words(image);
    let total = all.len();
    (all[0], all[1]) = (1, total as u32);
    let mut starts: Vec<usize> = (0..8).map(|_| random.between(20, total)).collect();
    starts.sort_unstable();
    starts.insert(0, 20);
    for (k, start) in starts.iter().enumerate() {
        let end = starts.get(k + 1).copied().unwrap_or(total);
        let most = (end - start).min(3);
        all[2 + 2 * k] = random.between(0, most) as u32;
        all[3 + 2 * k] = *start as u32;
        if all[2 + 2 * k] > 0 && k < 8 {
            all[*start] = all[2 + 2 * k];
        }
    }
    *image = bytes(&all);
}

/// Sessions at each limit and past it, one for each refusal of each operation, and drawn ones.
fn sessions(run: &mut Run) {
    let made = fill::limits().into_iter().map(|(session, _)| session);
    for session in made.chain(refused::sessions().into_iter().map(|(session, ..)| session)) {
        run.compare_session(&session);
    }
    for own in 0..run.settings.count {
        let seed = run.random.bits();
        let session = generate_session::session(&mut Random::new(seed));
        let what = format!("session {own} from seed {seed}: {}", session.what);
        run.compare_session(&Generated { what, ..session });
    }
}
