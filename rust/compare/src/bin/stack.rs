//! The smallest stack that each operation ran in, over the images that are hard for it.
//!
//! A stack that is too small ends the process, so each try is a process of its own: this program, with the operation, a
//! file and a size. Sizes are whole pages. What comes out is a measurement and no bound.

use std::path::Path;
use std::process::{Command, ExitCode, Stdio};

use compare::archive::{self, Memory};
use compare::grouped;
use compare::scripts::Script;
use plain::cases::{self, Case};
use plain::steps::operation;
use plain::{deep, heavy};

/// What is measured; all but the first five are sessions, the last in lent memory.
const OPERATIONS: [&str; 10] = [
    "intake",
    "order",
    "redirect",
    "link",
    "link, lent",
    "functions in output order",
    "import_function of the last",
    "map_function_handle of the last",
    "entry points alone",
    "entry points alone, lent",
];

/// The sizes that are tried, in pages of 4 KiB.
const PAGE: usize = 4096;
const LEAST: usize = 4;
const MOST: usize = 4096;

fn main() -> ExitCode {
    let words: Vec<String> = std::env::args().skip(1).collect();
    match words.as_slice() {
        [] => measure(),
        [operation, file, pages] => attempt(operation, file, pages),
        _ => {
            eprintln!("stack: the smallest stack of each operation; it takes no words");
            ExitCode::from(2)
        }
    }
}

/// Runs an operation on the image of a file in a thread of so many pages.
fn attempt(operation: &str, file: &str, pages: &str) -> ExitCode {
    let (Ok(image), Ok(pages)) = (std::fs::read(file), pages.parse::<usize>()) else {
        return ExitCode::from(2);
    };
    let call = call(operation, image);
    match std::thread::Builder::new().stack_size(pages * PAGE).spawn(call).map(|thread| thread.join()) {
        Ok(Ok(())) => ExitCode::SUCCESS,
        _ => ExitCode::FAILURE,
    }
}

/// The call, with everything that it is lent already there; its answer does not matter.
fn call(operation: &str, mut image: Vec<u8>) -> Box<dyn FnOnce() + Send> {
    let mut output = vec![0; image.len()];
    let mut memory = Memory::new();
    let mut script = match operation {
        "intake" => return Box::new(move || ignore(wuldgisp::intake(&image))),
        "order" => return Box::new(move || ignore(wuldgisp::order(&image))),
        "redirect" => return Box::new(move || ignore(wuldgisp::redirect(&mut image, 0, 1, &[0; 512]))),
        "link" => return Box::new(move || ignore(archive::link(&image, &mut output))),
        "link, lent" => {
            return Box::new(move || ignore(archive::link_in(&image, &mut output, &mut memory)));
        }
        "entry points alone, lent" => {
            let mut script = Script::entered(&image);
            return Box::new(move || ignore(script.run_in(&image, &mut memory)));
        }
        "functions in output order" => Script::in_order(&image),
        "import_function of the last" => Script::nested(&image, operation::IMPORT_FUNCTION),
        "map_function_handle of the last" => Script::nested(&image, operation::MAP_FUNCTION_HANDLE),
        _ => Script::entered(&image),
    };
    Box::new(move || ignore(script.run(&image)))
}

fn ignore<T>(_: T) {}

/// Every operation on every image, each in a process of its own.
fn measure() -> ExitCode {
    let folder = std::env::temp_dir().join(format!("wuldgisp-stack-{}", std::process::id()));
    let images: Vec<Case> =
        [cases::limits(), cases::worst(), heavy::images(), deep::images()].into_iter().flatten().collect();
    let file = |own: usize| folder.join(format!("{own}.img"));
    let written = std::fs::create_dir_all(&folder).and_then(|()| {
        images.iter().enumerate().try_for_each(|(own, (_, image))| std::fs::write(file(own), image))
    });
    if let Err(error) = written {
        eprintln!("stack: {}: {error}", folder.display());
        return ExitCode::from(2);
    }
    println!("| operation | KiB | the image that needs most |\n|---|---|---|");
    for operation in OPERATIONS {
        let (mut least, mut hardest) = (LEAST, "");
        for (own, (name, _)) in images.iter().enumerate() {
            let needed = smallest(operation, &file(own), least);
            if needed > least {
                (least, hardest) = (needed, name);
            }
        }
        println!("| {operation} | {} | {hardest} |", grouped(least * PAGE / 1024));
    }
    let _ = std::fs::remove_dir_all(&folder);
    ExitCode::SUCCESS
}

/// The fewest pages, from `least` on, that are enough.
fn smallest(operation: &str, file: &Path, least: usize) -> usize {
    if runs(operation, file, least) {
        return least;
    }
    let (mut low, mut high) = (least, MOST);
    while low + 1 < high {
        let middle = (low + high) / 2;
        if runs(operation, file, middle) {
            high = middle;
        } else {
            low = middle;
        }
    }
    high
}

fn runs(operation: &str, file: &Path, pages: usize) -> bool {
    let Ok(own) = std::env::current_exe() else { return false };
    let mut command = Command::new(own);
    command.arg(operation).arg(file).arg(pages.to_string()).stderr(Stdio::null());
    command.status().is_ok_and(|status| status.success())
}
