//! Differential tests: the archive against the plain reading, every answer and every byte.
//!
//! On each image of the stages intake, order, a redirect and link are compared, and sessions whole: the number, what
//! comes with it, and every byte of what is lent and around it. Every link is made twice, in memory of its own and in
//! memory that is lent, one for the whole run. Of a linked image intake and a second link are asked too. A seed and a
//! count repeat a run; a failure is printed with its image in the text form, or its steps.

use std::process::ExitCode;

use compare::run::{Run, Settings};
use compare::stages::STAGES;

const HELP: &str = "\
differential: compares the proved archive with the plain reading of docs/RULES.md

  differential [--seed N] [--count N] [--short] [--keep FOLDER]

  --seed N       where the random numbers start (1)
  --count N      how many images and sessions are generated; each image is also damaged eight times (20000)
  --short        a count of 3000 and fewer small images: under two minutes
  --keep FOLDER  write each image that fails to this folder, and of a session its sources and steps

The last line is `N passed, M failed`. Exit status: 0 none failed, 1 some failed, 2 misuse.
";

fn main() -> ExitCode {
    let settings = match settings() {
        Ok(Some(settings)) => settings,
        Ok(None) => {
            print!("{HELP}");
            return ExitCode::SUCCESS;
        }
        Err(message) => {
            eprintln!("differential: {message} (see differential --help)");
            return ExitCode::from(2);
        }
    };
    println!("seed {}, count {}", settings.seed, settings.count);
    let mut run = Run::new(settings);
    for (name, stage) in STAGES {
        run.stage(name, stage);
    }
    run.every_answer_came_up();
    println!("{} passed, {} failed", run.passed, run.failed);
    ExitCode::from((run.failed > 0) as u8)
}

/// The settings that the words give; none asks for help.
fn settings() -> Result<Option<Settings>, String> {
    let mut settings = Settings { seed: 1, count: 20_000, short: false, keep: None };
    let mut count = None;
    let mut words = std::env::args().skip(1);
    while let Some(word) = words.next() {
        let mut value = || words.next().ok_or(format!("{word} wants a word behind it"));
        match word.as_str() {
            "--help" | "-h" => return Ok(None),
            "--short" => settings.short = true,
            "--seed" => settings.seed = value()?.parse().map_err(|_| "--seed wants a number")?,
            "--count" => count = Some(value()?.parse().map_err(|_| "--count wants a number")?),
            "--keep" => settings.keep = Some(value()?.into()),
            _ => return Err(format!("there is no option '{word}'")),
        }
    }
    settings.count = count.unwrap_or(if settings.short { 3_000 } else { settings.count });
    Ok(Some(settings))
}
