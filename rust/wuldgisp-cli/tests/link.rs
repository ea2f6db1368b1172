//! `link`, run as a user runs it: what it writes, byte for byte, what it tells, and that a refusal writes nothing.

mod tool;

use std::collections::BTreeSet;
use std::fs;
use std::path::{Path, PathBuf};

use tool::*;

fn vectors() -> PathBuf {
    Path::new(env!("CARGO_MANIFEST_DIR")).join("../../vectors")
}

/// The rows of a table of the vectors.
fn rows(table: &str) -> Vec<Vec<String>> {
    let text = fs::read_to_string(vectors().join(table)).unwrap();
    text.lines().map(|line| line.split('\t').map(str::to_owned).collect()).collect()
}

/// The image of a row.
fn image(name: &str) -> Vec<u8> {
    fs::read(vectors().join(name).with_extension("img")).unwrap()
}

/// What link answers to an image of `expected.tsv`.
fn expected(row: &[String]) -> &str {
    if row[2] == "-" {
        &row[1]
    } else {
        &row[2]
    }
}

/// What the plain reading links.
fn linked(image: &[u8]) -> Vec<u8> {
    let mut output = vec![0; image.len()];
    let length = plain::link(image, &mut output).unwrap();
    output.truncate(length as usize);
    output
}

/// An empty folder of the tests' own.
fn empty(name: &str) -> PathBuf {
    let folder = folder().join(name);
    let _ = fs::remove_dir_all(&folder);
    fs::create_dir_all(&folder).unwrap();
    folder
}

#[test]
fn one_image_goes_to_standard_output_or_to_a_file() {
    let (mut all, to) = (0, empty("link-one").join("to.img"));
    for row in rows("expected.tsv").iter().filter(|row| row[2] == "ok") {
        let from = vectors().join(&row[0]).with_extension("img");
        let wanted = fs::read(from.with_extension("linked")).unwrap();
        let output = run(&["link"], &image(&row[0]));
        assert_eq!((output.status.code(), output.stderr.as_slice()), (Some(0), &b""[..]), "{}", row[0]);
        assert!(output.stdout == wanted, "{}", row[0]);
        let words = ["link", from.to_str().unwrap(), "-o", to.to_str().unwrap()];
        let (status, out, err) = answer(&words, b"");
        let functions = plain::read(&wanted).unwrap().functions.len();
        let told = format!("{}: linked, {functions} functions, {} bytes\n", from.display(), wanted.len());
        assert_eq!((status, out, err), (0, told, String::new()));
        assert!(fs::read(&to).unwrap() == wanted, "{}", row[0]);
        all += 1;
    }
    assert_eq!(all, 40);
}

#[test]
fn a_folder_takes_the_images_that_are_linked() {
    let to = empty("link-folder").join("made/deep");
    let (from, into) = (vectors(), to.to_str().unwrap());
    let (status, out, err) = answer(&["link", "--folder", into, from.to_str().unwrap()], b"");
    assert_eq!(status, 1);
    let mut numbers = BTreeSet::new();
    for row in rows("expected.tsv") {
        let path = from.join(&row[0]).with_extension("img");
        let written = fs::read(to.join(&row[0]).with_extension("img")).ok();
        let wanted = fs::read(path.with_extension("linked")).ok();
        assert!(written == wanted, "{}", row[0]);
        let begins = match expected(&row) {
            "ok" => format!("{}: linked, ", path.display()),
            refused => format!("{}: {refused}: ", path.display()),
        };
        let lines = if wanted.is_some() { &out } else { &err };
        assert_eq!(lines.lines().filter(|line| line.starts_with(&begins)).count(), 1, "{begins}");
        numbers.insert(expected(&row).split(' ').nth(1).unwrap_or("0").to_owned());
    }
    assert_eq!(numbers.into_iter().collect::<Vec<_>>(), ["0", "1", "12", "2", "3", "4", "5", "6"]);
    // Each file there is what the plain reading links, and each has a line.
    for entry in fs::read_dir(&to).unwrap().flatten() {
        let source = fs::read(from.join(entry.file_name())).unwrap();
        assert!(fs::read(entry.path()).unwrap() == linked(&source), "{}", entry.path().display());
    }
    assert_eq!(out.lines().count(), fs::read_dir(&to).unwrap().count());
    // With 1 to 6 the rule is told, and the word where it is one that breaks it.
    let ruled = err.lines().filter(|line| line.contains("(rule: ") || line.contains("(word ")).count();
    let tested = rows("expected.tsv").iter().filter(|row| row[1] != "ok").count();
    assert_eq!(ruled, tested);
}

#[test]
fn in_place_changes_what_is_linked_alone() {
    let here = empty("link-in-place");
    for row in rows("expected.tsv") {
        fs::write(here.join(&row[0]).with_extension("img"), image(&row[0])).unwrap();
    }
    let words = ["link", "--in-place", "--quiet", here.to_str().unwrap()];
    for _ in 0..2 {
        // What is linked links to itself.
        assert_eq!(answer(&words, b""), (1, String::new(), String::new()));
        for row in rows("expected.tsv") {
            let linked = fs::read(vectors().join(&row[0]).with_extension("linked")).ok();
            let now = fs::read(here.join(&row[0]).with_extension("img")).unwrap();
            assert!(now == linked.unwrap_or(image(&row[0])), "{}", row[0]);
        }
    }
    assert_eq!(fs::read_dir(&here).unwrap().count(), rows("expected.tsv").len());
}

/// The options of a row of `redirect.tsv`, for redirect and for link.
fn options(row: &[String]) -> (Vec<String>, Vec<String>) {
    let (original, replacement) = row[1].split_once(' ').unwrap();
    let omit: Vec<String> = row[2].split_whitespace().map(|number| format!("--omit=@{number}")).collect();
    let both = [format!("--original=@{original}"), format!("--replacement=@{replacement}")];
    let one = [format!("--redirect=@{original}=@{replacement}")];
    (both.into_iter().chain(omit.clone()).collect(), one.into_iter().chain(omit).collect())
}

/// A command and its options, run on an image.
fn with(command: &str, options: &[String], image: &[u8]) -> (i32, Vec<u8>, String) {
    let words: Vec<&str> = [command].into_iter().chain(options.iter().map(String::as_str)).collect();
    let output = run(&words, image);
    (output.status.code().unwrap(), output.stdout, String::from_utf8_lossy(&output.stderr).into_owned())
}

#[test]
fn redirects_come_before_the_linking() {
    let (mut accepted, mut numbers) = (0, BTreeSet::new());
    for row in rows("redirect.tsv") {
        let (apart, together) = options(&row);
        let (status, redirected, _) = with("redirect", &apart, &image(&row[0]));
        let (one_step, out, err) = with("link", &together, &image(&row[0]));
        if row[3] == "ok" {
            assert!(redirected == fs::read(vectors().join(&row[0]).with_extension("redirected")).unwrap());
            let two_steps = with("link", &[], &redirected);
            assert!((one_step, out, err) == two_steps, "{}", row[0]);
            if one_step == 0 {
                assert!(two_steps.1 == linked(&redirected), "{}", row[0]);
                accepted += 1;
            }
        } else {
            let by = together[0].split_once('=').unwrap().1;
            let told = format!("standard input: redirect \"{by}\": {}: ", row[3]);
            assert_eq!((status, one_step, out.len()), (1, 1, 0), "{}", row[0]);
            assert!(err.starts_with(&told) && err.lines().count() == 1, "{err}");
            numbers.insert(row[3].clone());
        }
    }
    assert!(accepted > 5, "{accepted}");
    let all = ["refused 10", "refused 11", "refused 13", "refused 8", "refused 9"];
    assert_eq!(numbers.into_iter().collect::<Vec<_>>(), all);
}

#[test]
fn several_redirects_are_made_in_turn() {
    // shade calls fog, and fog tone: with tone for fog and then shade for tone, shade calls itself unless it is left out.
    let path = file("link-turn.img", &shade());
    let name = path.to_str().unwrap();
    let to = empty("link-turn");
    let words = ["link", "--redirect", "fog=tone", "--redirect=tone=@2", "--omit=fog", "--folder"];
    let words: Vec<&str> = words.into_iter().chain([to.to_str().unwrap(), name]).collect();
    let (status, out, err) = answer(&words, b"");
    let mut wanted = shade();
    plain::redirect(&mut wanted, 2, 1, &[2]).unwrap();
    plain::redirect(&mut wanted, 1, 2, &[2]).unwrap();
    let wanted = linked(&wanted);
    let told = format!(
        "{name}: function 2 becomes 1, 1 words changed; function 1 becomes 2, 1 words changed; \
         linked, 3 functions, {} bytes\n",
        wanted.len()
    );
    assert_eq!((status, out, err), (0, told, String::new()));
    assert!(fs::read(to.join("link-turn.img")).unwrap() == wanted);
    assert!(fs::read(&path).unwrap() == shade());
}

#[test]
fn rings_are_told_and_nothing_is_written() {
    let told = "standard input: refused 12 left 3: functions call one another in a ring\n  \
                left: 0 shade, 1 tone, 2 fog\n  a ring: 0 shade -> 2 fog -> 1 tone -> 0 shade\n";
    assert_eq!(answer(&["link"], &ring()), (1, String::new(), told.to_owned()));
    // P8: the ring that a redirect closes.
    let told = "standard input: refused 12 left 2: functions call one another in a ring\n  \
                left: 0 shade, 2 fog\n  a ring: 0 shade -> 2 fog -> 0 shade\n";
    let to = empty("link-ring").join("to.img");
    for more in [&[][..], &["-o", to.to_str().unwrap()]] {
        let words = [&["link", "--redirect=tone=shade"], more].concat();
        assert_eq!(answer(&words, &shade()), (1, String::new(), told.to_owned()));
    }
    assert!(!to.exists());
}

#[test]
fn names_may_have_equals_signs() {
    let image = |names: &str| {
        let functions: String = (0..names.matches(' ').count() + 1)
            .map(|own| format!("function name={own} {{ body {{ }} }} "))
            .collect();
        plain::assemble(&format!(
            "wuldgisp-text 1 names {{ {names} }} functions {{ {functions} }} special_types {{ }}"
        ))
        .unwrap()
    };
    let ask = |word: &str, names: &str| {
        let words = ["link", "-o", "/dev/null", "--redirect", word];
        let (status, out, err) = answer(&words, &image(names));
        (status, if status == 0 { out } else { err })
    };
    let becomes =
        |from: u32, to: u32| format!("standard input: function {from} becomes {to}, 0 words changed; ");
    for (word, names, from, to) in [
        ("a=b", r#""a" "b""#, 0, 1),
        ("a==b", r#""a=" "b""#, 0, 1),
        ("a=b=c", r#""a" "b=c" "c""#, 0, 1),
        ("a=b=c", r#""a" "a=b" "c""#, 1, 2),
        ("@1=b=c", r#""a" "b" "b=c""#, 1, 2),
        ("=@0", r#""x" """#, 1, 0),
    ] {
        let (status, told) = ask(word, names);
        assert_eq!((status, told.starts_with(&becomes(from, to))), (0, true), "{word}: {told}");
    }
    let told = |told: &str| (2, format!("wuldgisp: standard input: {told}\n"));
    assert_eq!(ask("a=c", r#""a" "b""#), told("there is no name \"c\" in the image"));
    assert_eq!(ask("@x=a", r#""a" "b""#), told("'@x' is no number of a name"));
    let none = "no equals sign in \"a=b=d\" parts two names of the image";
    assert_eq!(ask("a=b=d", r#""a" "b=c" "d""#), told(none));
    let several = "\"a=b=c\" can be two pairs of names of the image: give @ and their numbers";
    assert_eq!(ask("a=b=c", r#""a" "b=c" "a=b" "c""#), told(several));
}

#[test]
fn a_folder_keeps_the_paths_below_it() {
    let from = empty("link-below");
    file("link-below/a/x.img", &shade());
    file("link-below/b/x.img", &shade());
    file("link-below/y.img", b"no image");
    let to = empty("link-below-to");
    let words = ["link", "--folder", to.to_str().unwrap(), from.to_str().unwrap()];
    assert_eq!(answer(&words, b"").0, 1);
    for name in ["a/x.img", "b/x.img"] {
        assert!(fs::read(to.join(name)).unwrap() == linked(&shade()), "{name}");
    }
    assert!(!to.join("y.img").exists());
}

#[test]
fn files_that_would_be_one_are_misuse() {
    let (a, b) = (file("link-same/a/x.img", &shade()), file("link-same/b/x.img", &shade()));
    let to = folder().join("link-same-to");
    let _ = fs::remove_dir_all(&to);
    let (a, b, into) = (a.to_str().unwrap(), b.to_str().unwrap(), to.to_str().unwrap());
    let (status, out, err) = answer(&["link", "--folder", into, a, b], b"");
    let told = format!("wuldgisp: {a} and {b} would be the same file in {into}\n");
    assert_eq!((status, out, err), (2, String::new(), told));
    assert!(!to.exists());

    // A file that is yet to be read is not written over.
    let from = folder().join("link-over");
    let (x, below) = (file("link-over/x.img", &shade()), file("link-over/below/x.img", &ring()));
    let into = from.join("below");
    let words = ["link", "--folder", into.to_str().unwrap(), from.to_str().unwrap()];
    let (status, out, err) = answer(&words, b"");
    let (x, below) = (x.display(), below.display());
    let told = format!("wuldgisp: {x} would be written over {below}, which is to be read\n");
    assert_eq!((status, out, err), (2, String::new(), told));
    assert!(fs::read(into.join("x.img")).unwrap() == ring());
    // Over itself it may be.
    let x = from.join("x.img");
    let words = ["link", "--quiet", "--folder", from.to_str().unwrap(), x.to_str().unwrap()];
    assert_eq!(answer(&words, b""), (0, String::new(), String::new()));
    assert!(fs::read(x).unwrap() == linked(&shade()));
}

#[test]
fn one_file_that_fails_leaves_the_others() {
    let good = file("link-others/good.img", &shade());
    let (good, to) = (good.to_str().unwrap(), empty("link-others-to"));
    let words = ["link", "--redirect=fog=tone", "--folder", to.to_str().unwrap()];
    let other = file("link-others/other.img", &plain::assemble("wuldgisp-text 1 special_types { }").unwrap());
    let other = other.to_str().unwrap();
    let words = [&words[..], &["not-there.img", other, good]].concat();
    let (status, out, err) = answer(&words, b"");
    let told = format!(
        "wuldgisp: not-there.img: no such file\nwuldgisp: {other}: there is no name \"fog\" in the image\n"
    );
    assert_eq!((status, err), (2, told));
    assert!(out.starts_with(&format!("{good}: function 2 becomes 1, ")) && out.lines().count() == 1, "{out}");
    assert!(to.join("good.img").exists() && !to.join("other.img").exists());

    for no_folder in [good.to_owned(), format!("{good}/below")] {
        let (status, out, err) = answer(&["link", "--folder", &no_folder, good], b"");
        let told = format!("wuldgisp: {good}: the folder {no_folder} cannot be made: a file is in its way\n");
        assert_eq!((status, out, err), (2, String::new(), told));
    }
}

#[test]
fn link_answers_with_objects() {
    let to = empty("link-json");
    let (good, bad) = (file("link-json-good.img", &shade()), file("link-json-bad.img", b""));
    let (good, bad, to) = (good.to_str().unwrap(), bad.to_str().unwrap(), to.to_str().unwrap());
    let words = ["link", "--json", "--folder", to, "--redirect=fog=tone", good, bad];
    let (status, out, err) = answer(&words, b"");
    assert_eq!((status, err.as_str()), (1, ""));
    let mut redirected = shade();
    plain::redirect(&mut redirected, 2, 1, &[]).unwrap();
    let lines: Vec<&str> = out.lines().collect();
    let object = format!(
        "{{\"file\":\"{good}\",\"accepted\":true,\"functions\":3,\"bytes\":{},\"redirects\":[{{\"original\":2,\
         \"replacement\":1,\"words\":1}}]}}",
        linked(&redirected).len()
    );
    assert_eq!(lines[0], object);
    assert!(
        lines[1].starts_with(&format!("{{\"file\":\"{bad}\",\"accepted\":false,\"refusal\":1,")),
        "{out}"
    );
    let words = ["link", "--json", "-o", "/dev/null", "--redirect=@3=@1"];
    let (status, out, _) = answer(&words, &shade());
    let object =
        "{\"file\":\"-\",\"accepted\":false,\"refusal\":8,\"sentence\":\"no function bears the original's \
                  name\",\"redirect\":\"@3=@1\"}\n";
    assert_eq!((status, out.as_str()), (1, object));
    let (status, out, _) = answer(&["link", "--json", "-o", "/dev/null"], &ring());
    assert_eq!(status, 1);
    assert!(out.contains("\"refusal\":12,") && out.contains("\"ring\":[{"), "{out}");
}
