//! What the tests of the command line share: running it, and images to run it on.

#![allow(dead_code)] // Each test file uses some of it.

use std::io::Write;
use std::path::PathBuf;
use std::process::{Command, Output, Stdio};

pub const PROGRAM: &str = env!("CARGO_BIN_EXE_wuldgisp");

/// P6 of the marked cases: shade calls fog; tone; fog calls tone. One more name is borne by nothing.
pub const SHADE: &str = r#"wuldgisp-text 1
names { "shade" "tone" "fog" "no\xfe" }
functions {
  function name=0 { body { Call function=2 arguments=[] } }
  function name=1 { body { } }
  function name=2 { body { Call function=1 arguments=[] } }
}
special_types { }
"#;

/// Runs it with these words and this standard input.
pub fn run(words: &[&str], input: &[u8]) -> Output {
    let mut child = Command::new(PROGRAM)
        .args(words)
        .stdin(Stdio::piped())
        .stdout(Stdio::piped())
        .stderr(Stdio::piped())
        .spawn()
        .unwrap();
    // A command that reads nothing may have gone before all was written.
    let _ = child.stdin.take().unwrap().write_all(input);
    child.wait_with_output().unwrap()
}

/// The exit status, standard output and standard error.
pub fn answer(words: &[&str], input: &[u8]) -> (i32, String, String) {
    let output = run(words, input);
    let text = |bytes| String::from_utf8_lossy(bytes).into_owned();
    (output.status.code().unwrap(), text(&output.stdout), text(&output.stderr))
}

/// What a line of the shell ends with and writes, with `$PROGRAM` and `$IMAGE` set.
pub fn shell(line: &str) -> (i32, String, String) {
    let image = file("shell.img", &shade());
    let output =
        Command::new("sh").args(["-c", line]).env("PROGRAM", PROGRAM).env("IMAGE", image).output().unwrap();
    let text = |bytes| String::from_utf8_lossy(bytes).into_owned();
    (output.status.code().unwrap(), text(&output.stdout), text(&output.stderr))
}

pub fn shade() -> Vec<u8> {
    plain::assemble(SHADE).unwrap()
}

/// The same with tone calling shade: a ring of all three.
pub fn ring() -> Vec<u8> {
    let text = SHADE.replace("name=1 { body { }", "name=1 { body { Call function=0 arguments=[] }");
    plain::assemble(&text).unwrap()
}

/// A folder of the tests' own.
pub fn folder() -> PathBuf {
    let folder = PathBuf::from(env!("CARGO_TARGET_TMPDIR"));
    std::fs::create_dir_all(&folder).unwrap();
    folder
}

/// A file of the tests' own. Tests run side by side and share some, so it is put in place in one stroke.
pub fn file(name: &str, bytes: &[u8]) -> PathBuf {
    let path = folder().join(name);
    std::fs::create_dir_all(path.parent().unwrap()).unwrap();
    let beside = path.with_extension(format!("{:?}.part", std::thread::current().id()));
    std::fs::write(&beside, bytes).unwrap();
    std::fs::rename(&beside, &path).unwrap();
    path
}
