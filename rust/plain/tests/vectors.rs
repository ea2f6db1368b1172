//! The vectors: every answer of intake, every printed order, every linked and every redirected image, and every
//! answer and the output of every session agrees.
//!
//! They are read from the repository's `vectors/` and, where WULDGISP_VECTORS names a folder, from there too.

use std::path::{Path, PathBuf};

/// The folders of vectors that are there.
fn folders() -> Vec<PathBuf> {
    let own = Path::new(env!("CARGO_MANIFEST_DIR")).join("../../vectors");
    let other = std::env::var_os("WULDGISP_VECTORS").map(PathBuf::from);
    let mut folders: Vec<PathBuf> = Vec::new();
    if own.join("expected.tsv").exists() {
        folders.push(own);
    }
    if let Some(other) = other {
        assert!(other.join("expected.tsv").exists(), "WULDGISP_VECTORS has no expected.tsv");
        folders.push(other);
    }
    assert!(
        !folders.is_empty(),
        "there are no vectors: neither vectors/ at the repository's root nor WULDGISP_VECTORS"
    );
    folders
}

/// The rows of a table of the folder; a folder without that table has none.
fn rows(folder: &Path, table: &str) -> Vec<Vec<String>> {
    let text = std::fs::read_to_string(folder.join(table)).unwrap_or_default();
    text.lines().map(|line| line.split('\t').map(str::to_owned).collect()).collect()
}

fn bytes(folder: &Path, file: String) -> Vec<u8> {
    std::fs::read(folder.join(&file)).unwrap_or_else(|error| panic!("{file}: {error}"))
}

/// What the program `order` prints.
fn printed_order(image: &[u8]) -> Vec<u8> {
    let module = match plain::admit(image) {
        Ok(module) => module,
        Err(refused) => return format!("refused {}\n", refused.number).into_bytes(),
    };
    let order = match plain::order_of(&module) {
        Ok(order) => order,
        Err(refused) => return format!("refused 12 left {}\n", refused.left).into_bytes(),
    };
    let mut out = format!("functions {}\n", order.len()).into_bytes();
    for (new, source) in order.iter().enumerate() {
        let name = module.functions[*source as usize].name.optional().unwrap();
        out.extend(format!("{new} {source} ").into_bytes());
        out.extend(&module.names[name as usize].bytes);
        out.push(b'\n');
    }
    out
}

/// An answer as the tables write it.
fn answer<T>(result: Result<T, plain::Refused>) -> String {
    match result {
        Ok(_) => "ok".to_owned(),
        Err(refused) => format!("refused {}", refused.number),
    }
}

#[test]
fn intake_agrees() {
    for folder in folders() {
        for row in rows(&folder, "expected.tsv") {
            let image = bytes(&folder, format!("{}.img", row[0]));
            assert_eq!(answer(plain::intake(&image)), row[1], "{} {}", row[0], row[3]);
        }
    }
}

#[test]
fn order_agrees() {
    for folder in folders() {
        for row in rows(&folder, "expected.tsv") {
            let image = bytes(&folder, format!("{}.img", row[0]));
            if let Ok(expected) = std::fs::read(folder.join(format!("{}.order", row[0]))) {
                assert_eq!(printed_order(&image), expected, "{} {}", row[0], row[3]);
            }
            if row[2] != "-" {
                let link = match plain::order(&image) {
                    Ok(_) => "ok".to_owned(),
                    Err(refused) => format!("refused {} left {}", refused.number, refused.left),
                };
                assert_eq!(link, row[2], "{} {}", row[0], row[3]);
            }
        }
    }
}

#[test]
fn redirect_agrees() {
    for folder in folders() {
        for row in rows(&folder, "redirect.tsv") {
            let numbers =
                |text: &str| -> Vec<u32> { text.split_whitespace().map(|n| n.parse().unwrap()).collect() };
            let (names, omit) = (numbers(&row[1]), numbers(&row[2]));
            let mut image = bytes(&folder, format!("{}.img", row[0]));
            let before = image.clone();
            let result = plain::redirect(&mut image, names[0], names[1], &omit);
            assert_eq!(answer(result), row[3], "{}", row[0]);
            let expected = match result {
                Ok(_) => bytes(&folder, format!("{}.redirected", row[0])),
                Err(_) => before,
            };
            assert_eq!(image, expected, "{}", row[0]);
        }
    }
}

#[test]
fn link_agrees() {
    for folder in folders() {
        for row in rows(&folder, "expected.tsv") {
            let image = bytes(&folder, format!("{}.img", row[0]));
            let mut output = vec![165; image.len() + 8];
            let answer = match plain::link(&image, &mut output) {
                Ok(length) => {
                    let expected = bytes(&folder, format!("{}.linked", row[0]));
                    assert!(output[..length as usize] == expected, "{} {}: other bytes", row[0], row[3]);
                    assert!(output[length as usize..].iter().all(|byte| *byte == 165), "{}", row[0]);
                    "ok".to_owned()
                }
                Err(refused) => {
                    assert!(output.iter().all(|byte| *byte == 165), "{}", row[0]);
                    match refused.number {
                        12 => format!("refused 12 left {}", refused.left),
                        _ => "-".to_owned(),
                    }
                }
            };
            assert_eq!(answer, row[2], "{} {}", row[0], row[3]);
        }
    }
}

/// A session as its file of steps tells it.
struct Steps {
    output: usize,
    steps: Vec<u32>,
    answers: Vec<u32>,
}

/// The first line tells the output's length; each other line has the words of a step, `=`, and the words of its answer.
fn steps(text: &str) -> Steps {
    let mut lines = text.lines();
    let first = lines.next().and_then(|line| line.split(' ').nth(3)).expect("the first line tells a length");
    let mut all =
        Steps { output: first.parse().expect("a length is a number"), steps: vec![], answers: vec![] };
    for line in lines {
        let (words, _) = line.split_once('#').expect("a line ends in the operation's name");
        let (step, answer) = words.split_once('=').expect("a line has a step and its answer");
        all.steps.extend(step.split_whitespace().map(|word| word.parse::<u32>().expect("a word")));
        all.answers.extend(answer.split_whitespace().map(|word| word.parse::<u32>().expect("a word")));
    }
    all
}

#[test]
fn sessions_agree() {
    for folder in folders() {
        let mut files: Vec<PathBuf> =
            std::fs::read_dir(&folder).unwrap().map(|entry| entry.unwrap().path()).collect();
        files.retain(|file| file.extension().is_some_and(|extension| extension == "steps"));
        files.sort();
        assert!(!files.is_empty(), "there are no sessions");
        for file in files {
            let read = |extension| std::fs::read(file.with_extension(extension)).expect("a session's file");
            let expected = steps(&String::from_utf8(read("steps")).expect("steps are text"));
            let mut output = vec![165; expected.output];
            let mut answers = vec![165; expected.answers.len()];
            let answer = plain::steps::run(&read("sources"), &expected.steps, &mut answers, &mut output);
            for (own, (got, wanted)) in answers.chunks(3).zip(expected.answers.chunks(3)).enumerate() {
                assert_eq!(got, wanted, "{file:?}, step {own}");
            }
            let first = expected.answers.chunks(3).enumerate().find(|(_, answer)| answer[0] != 0);
            let first = first.map_or(0, |(own, answer)| (own as u64) << 32 | u64::from(answer[0]));
            assert_eq!(answer, first, "{file:?}");
            let mut bytes = read("output");
            bytes.resize(expected.output, 165);
            assert!(output == bytes, "{file:?}: other bytes");
        }
    }
}
