//! Benchmark: intake, order, redirect, link and sessions in nanoseconds a word, over sizes and on the worst cases.
//! Link and session are measured in memory of their own and in memory that is lent, which is made once and holds what
//! calls left.
//!
//! In one run, on the same images: the archive, the plain reading, and a copy of the bytes as the floor under any
//! of them. Redirecting writes into the image, so every call of it, of both sides, starts from a fresh copy, which is
//! part of its time. The session does what link does, step by step. The tables are those of `docs/PERFORMANCE.md`.

use std::fmt::Write;
use std::hint::black_box;
use std::process::ExitCode;

use compare::archive::{self, Memory};
use compare::grouped;
use compare::picture::{picture, Curve};
use compare::scripts::{self, Script};
use compare::timing::Timing;
use plain::cases::{self, Case};
use plain::random::Random;
use plain::{deep, heavy};

const HELP: &str = "\
benchmark: nanoseconds a word of intake, order, redirect, link and sessions

  benchmark [--quick] [--svg FILE]

  --quick     short batches: a look, not a measurement
  --svg FILE  also write the growth over sizes as a picture

Exit status: 0, or 2 for misuse.
";

/// The sizes in words; each is about twice the one before.
const SIZES: [usize; 7] = [256, 512, 1024, 2048, 4096, 8192, 16_384];

/// About the words of a round over images that differ, so many that none comes again soon.
const ROUND: usize = 262_144;

/// The columns: what is measured, and its colour in the picture.
const COLUMNS: [(&str, &str); 12] = [
    ("intake", "#1b6ca8"),
    ("order", "#2e8b57"),
    ("redirect", "#b5532a"),
    ("link", "#7b3fa0"),
    ("link, lent", "#e69500"),
    ("session", "#c02060"),
    ("session, lent", "#e06090"),
    ("intake, plain", "#1b6ca8"),
    ("order, plain", "#2e8b57"),
    ("redirect, plain", "#b5532a"),
    ("link, plain", "#7b3fa0"),
    ("copy", "#777777"),
];
/// Of these the microseconds a call are told too.
const LINK: usize = 3;
const LENT: usize = 4;
const SESSION: usize = 5;
const SESSION_LENT: usize = 6;

fn main() -> ExitCode {
    let settings = match settings() {
        Ok(Some(settings)) => settings,
        Ok(None) => {
            print!("{HELP}");
            return ExitCode::SUCCESS;
        }
        Err(message) => {
            eprintln!("benchmark: {message} (see benchmark --help)");
            return ExitCode::from(2);
        }
    };
    let timing = &settings.timing;
    let grown: Vec<Row> = SIZES.iter().map(|words| measured(timing, &sized(*words, *words as u64))).collect();
    println!("Over sizes, nanoseconds a word:\n");
    print!("{}", table(&grown));
    println!("\nThe power of the size by which time grows (1 is linear), by step and from first to last:\n");
    print!("{}", growth(&grown));
    println!("\nOver images that differ, each linked once in a round, nanoseconds a word:\n");
    print!("{}", rounds(timing));
    println!("\nImages on which a slow way of working shows, nanoseconds a word:\n");
    print!("{}", table(&measured_all(timing, cases::worst())));
    println!("\nImages on which linking has most to do, nanoseconds a word:\n");
    print!("{}", table(&measured_all(timing, [heavy::images(), deep::images()].concat())));
    println!("\nSessions, with `set` and `finish` among their steps:\n");
    print!("{}", sessions(timing));
    match &settings.svg {
        None => ExitCode::SUCCESS,
        Some(path) => match std::fs::write(path, growth_picture(&grown)) {
            Ok(()) => ExitCode::SUCCESS,
            Err(error) => {
                eprintln!("benchmark: {path}: {error}");
                ExitCode::from(2)
            }
        },
    }
}

struct Settings {
    timing: Timing,
    svg: Option<String>,
}

/// The settings that the words give; none asks for help.
fn settings() -> Result<Option<Settings>, String> {
    let mut settings = Settings { timing: Timing::whole(), svg: None };
    let mut words = std::env::args().skip(1);
    while let Some(word) = words.next() {
        match word.as_str() {
            "--help" | "-h" => return Ok(None),
            "--quick" => settings.timing = Timing::quick(),
            "--svg" => settings.svg = Some(words.next().ok_or("--svg wants a file behind it")?),
            _ => return Err(format!("there is no option '{word}'")),
        }
    }
    Ok(Some(settings))
}

/// An image, its size, and what each column took in nanoseconds a word.
struct Row {
    name: String,
    words: usize,
    figures: [f64; COLUMNS.len()],
}

/// A valid image of about so many words.
fn sized(words: usize, seed: u64) -> Case {
    let module = plain::generate::sized(&mut Random::new(seed), words);
    ("generated".to_owned(), plain::write(&module))
}

fn measured_all(timing: &Timing, cases: Vec<Case>) -> Vec<Row> {
    cases.iter().map(|case| measured(timing, case)).collect()
}

/// Measures every column on one image.
fn measured(timing: &Timing, (name, image): &Case) -> Row {
    let words = image.len() / 4;
    let (original, replacement) = names(image);
    let mut buffer = image.clone();
    let mut script = Script::in_order(image);
    let mut memory = Memory::new();
    let image = image.as_slice();
    let mut time = |run: &mut dyn FnMut(&mut [u8])| timing.best(|| run(&mut buffer)) / words as f64;
    let figures = [
        time(&mut |_| ignore(black_box(wuldgisp::intake(black_box(image))))),
        time(&mut |_| ignore(black_box(wuldgisp::order(black_box(image))))),
        time(&mut |buffer| {
            buffer.copy_from_slice(image);
            ignore(black_box(wuldgisp::redirect(black_box(buffer), original, replacement, &[])));
        }),
        time(&mut |buffer| ignore(black_box(archive::link(black_box(image), buffer)))),
        time(&mut |buffer| ignore(black_box(archive::link_in(black_box(image), buffer, &mut memory)))),
        time(&mut |_| ignore(black_box(script.run(black_box(image))))),
        time(&mut |_| ignore(black_box(script.run_in(black_box(image), &mut memory)))),
        time(&mut |_| ignore(black_box(plain::intake(black_box(image))))),
        time(&mut |_| ignore(black_box(plain::order(black_box(image))))),
        time(&mut |buffer| {
            buffer.copy_from_slice(image);
            ignore(black_box(plain::redirect(black_box(buffer), original, replacement, &[])));
        }),
        time(&mut |buffer| ignore(black_box(plain::link(black_box(image), buffer)))),
        time(&mut |buffer| black_box(buffer).copy_from_slice(black_box(image))),
    ];
    Row { name: name.clone(), words, figures }
}

/// Takes an answer that is measured and not used.
fn ignore<T>(_: T) {}

/// The names of two functions whose redirect is accepted and changes as many words as any near the start; else 0, 0.
fn names(image: &[u8]) -> (u32, u32) {
    let Ok(module) = plain::read(image) else { return (0, 0) };
    let names: Vec<u32> =
        module.functions.iter().take(24).filter_map(|function| function.name.optional()).collect();
    let mut found = (0, (0, 0));
    for (original, replacement) in names.iter().flat_map(|one| names.iter().map(|other| (*one, *other))) {
        let mut changed = image.to_vec();
        if plain::redirect(&mut changed, original, replacement, &[]).is_ok() {
            let count = 1 + changed.iter().zip(image).filter(|(new, old)| new != old).count();
            found = found.max((count, (original, replacement)));
        }
    }
    found.1
}

// ---- tables ----

/// The rows as a table, with the microseconds of link and of the session, each both ways, at the end.
fn table(rows: &[Row]) -> String {
    let mut text = heading(&["link, µs", "link, lent, µs", "session, µs", "session, lent, µs"]);
    for row in rows {
        write!(text, "| {} | {} |", row.name, grouped(row.words)).expect("a string takes all");
        for (figure, (name, _)) in row.figures.iter().zip(COLUMNS) {
            let digits = if name == "copy" { 2 } else { 1 };
            write!(text, " {figure:.digits$} |").expect("a string takes all");
        }
        for own in [LINK, LENT, SESSION, SESSION_LENT] {
            let time = row.figures[own] * row.words as f64 / 1000.0;
            write!(text, " {} |", grouped(time.round() as usize)).expect("a string takes all");
        }
        text.push('\n');
    }
    text
}

/// The names of the columns, with some more behind them, and the line below.
fn heading(more: &[&str]) -> String {
    let names: Vec<&str> = ["image", "words"].into_iter().chain(COLUMNS.map(|(name, _)| name)).collect();
    let names = [names.as_slice(), more].concat();
    format!("| {} |\n{}|\n", names.join(" | "), "|---".repeat(names.len()))
}

/// For each step from size to size, and for all of them, the power p such that the whole time grows as the size
/// to p: 1 is linear.
fn growth(rows: &[Row]) -> String {
    let mut text = heading(&[]);
    let (Some(first), Some(last)) = (rows.first(), rows.last()) else { return text };
    let steps = rows.windows(2).map(|pair| (&pair[0], &pair[1]));
    for (one, other) in steps.chain([(first, last)]) {
        write!(text, "| {} | {} to {} |", one.name, grouped(one.words), grouped(other.words))
            .expect("a string takes all");
        for own in 0..COLUMNS.len() {
            let size = (other.words as f64 / one.words as f64).ln();
            let power = 1.0 + (other.figures[own] / one.figures[own]).ln() / size;
            write!(text, " {power:.2} |").expect("a string takes all");
        }
        text.push('\n');
    }
    text
}

/// Rounds over generated images of about one size, each met once in a round: what is learnt of an image's branches is
/// of little use to the next one, as where every image is linked once.
fn rounds(timing: &Timing) -> String {
    let mut text = String::from(
        "| images | words of all | intake | link | link, lent | link, plain |\n|---|---|---|---|---|---|\n",
    );
    let mut buffer = vec![0; 65_536];
    let mut memory = Memory::new();
    for size in SIZES {
        let seeds = (0..ROUND / size).map(|own| (size * 1000 + own) as u64);
        let images: Vec<Vec<u8>> = seeds.map(|seed| sized(size, seed).1).collect();
        let words: usize = images.iter().map(|image| image.len() / 4).sum();
        let mut time = |run: &mut dyn FnMut(&[u8], &mut [u8])| {
            timing.best(|| images.iter().for_each(|image| run(black_box(image), &mut buffer))) / words as f64
        };
        let figures = [
            time(&mut |image, _| ignore(black_box(wuldgisp::intake(image)))),
            time(&mut |image, buffer| ignore(black_box(archive::link(image, buffer)))),
            time(&mut |image, buffer| ignore(black_box(archive::link_in(image, buffer, &mut memory)))),
            time(&mut |image, buffer| ignore(black_box(plain::link(image, buffer)))),
        ];
        let figures = figures.map(|figure| format!("{figure:.1}")).join(" | ");
        let (count, each, all) = (images.len(), grouped(words / images.len()), grouped(words));
        writeln!(text, "| {count} of {each} | {all} | {figures} |").expect("a string takes all");
    }
    text
}

/// Sessions, in microseconds.
fn sessions(timing: &Timing) -> String {
    let mut text =
        String::from("| session | words of the source | steps | µs | µs a step |\n|---|---|---|---|---|\n");
    for (name, image, mut script) in scripts::measured() {
        let time = timing.best(|| ignore(black_box(script.run(black_box(&image))))) / 1000.0;
        let (words, steps) = (grouped(image.len() / 4), script.steps());
        let (all, one) = (grouped(time.round() as usize), time / steps as f64);
        writeln!(text, "| {name} | {words} | {steps} | {all} | {one:.1} |").expect("a string takes all");
    }
    text
}

/// The growth over sizes as a picture.
fn growth_picture(rows: &[Row]) -> String {
    let sizes: Vec<f64> = rows.iter().map(|row| row.words as f64).collect();
    let curve = |(own, (name, colour)): (usize, &(&'static str, &'static str))| Curve {
        name,
        colour,
        dashed: name.ends_with("plain"),
        figures: rows.iter().map(|row| row.figures[own]).collect(),
    };
    let curves: Vec<Curve> = COLUMNS.iter().enumerate().map(curve).collect();
    picture(&sizes, &curves)
}
