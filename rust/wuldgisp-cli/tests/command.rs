//! The command line, run as a user runs it: what it prints, and its exit status.

mod tool;

use tool::*;

#[test]
fn check_tells_a_line_each() {
    let good = file("check-good.img", &shade());
    let bad = file("check-bad.img", b"no image");
    let (good, bad) = (good.to_str().unwrap(), bad.to_str().unwrap());
    let (status, out, err) = answer(&["check", good], b"");
    assert_eq!((status, out, err), (0, format!("{good}: accepted\n"), String::new()));
    let (status, out, _) = answer(&["check", good, bad], b"");
    let refused =
        "refused 1: the size, the edition or the total of words is wrong (rule: an image has at least 80 bytes)";
    assert_eq!((status, out), (1, format!("{good}: accepted\n{bad}: {refused}\n")));
    let (status, out, err) = answer(&["check", "not-there.img", good], b"");
    assert_eq!(status, 2);
    assert_eq!(out, format!("{good}: accepted\n"));
    assert_eq!(err, "wuldgisp: not-there.img: no such file\n");
}

#[test]
fn check_reads_standard_input_of_any_length() {
    assert_eq!(answer(&["check"], &shade()).1, "standard input: accepted\n");
    let (status, out, _) = answer(&["check", "-"], &vec![0; 100_000]);
    assert_eq!(status, 1);
    assert!(out.ends_with("(rule: an image has at most 65536 bytes)\n"), "{out}");
}

#[test]
fn rings_are_named() {
    let told = "standard input: refused 12 left 3: functions call one another in a ring\n  \
                left: 0 shade, 1 tone, 2 fog\n  a ring: 0 shade -> 2 fog -> 1 tone -> 0 shade\n";
    assert_eq!(answer(&["check"], &ring()).0, 0);
    let (status, out, err) = answer(&["check", "--rings"], &ring());
    assert_eq!((status, out.as_str(), err.as_str()), (1, told, ""));
    assert_eq!(answer(&["check", "--rings"], &shade()).1, "standard input: accepted\n");
    let (status, out, err) = answer(&["order"], &ring());
    assert_eq!((status, out.as_str(), err.as_str()), (1, "refused 12 left 3\n", told));
    let (status, out, _) = answer(&["inspect"], &ring());
    assert_eq!(status, 0);
    assert!(out.ends_with("  a ring: 0 shade -> 2 fog -> 1 tone -> 0 shade\n"), "{out}");
}

#[test]
fn order_prints_as_the_program_does() {
    let (status, out, err) = answer(&["order"], &shade());
    assert_eq!((status, out.as_str(), err.as_str()), (0, "functions 3\n0 1 tone\n1 2 fog\n2 0 shade\n", ""));
    let (status, out, err) = answer(&["order"], b"");
    let told = "standard input: refused 1: the size, the edition or the total of words is wrong (rule: an image has \
                at least 80 bytes)\n";
    assert_eq!((status, out.as_str(), err.as_str()), (1, "refused 1\n", told));
    let good = file("order-good.img", &shade());
    let bad = file("order-bad.img", b"");
    let (good, bad) = (good.to_str().unwrap(), bad.to_str().unwrap());
    let (status, out, _) = answer(&["order", good, bad], b"");
    assert_eq!(status, 1);
    let lines = format!("{good}: functions 3: tone fog shade\n{}", told.replace("standard input", bad));
    assert_eq!(out, lines);
}

#[test]
fn order_prints_the_vectors() {
    let vectors = std::path::Path::new(env!("CARGO_MANIFEST_DIR")).join("../../vectors");
    let mut alike = 0;
    for entry in std::fs::read_dir(vectors).unwrap().flatten() {
        let path = entry.path();
        let Some(expected) =
            path.extension().filter(|end| *end == "order").map(|_| std::fs::read(&path).unwrap())
        else {
            continue;
        };
        let (_, out, _) = answer(&["order", path.with_extension("img").to_str().unwrap()], b"");
        // Names that a line cannot show stand between quotes.
        if !out.contains('"') {
            assert_eq!(out.as_bytes(), expected, "{}", path.display());
            alike += 1;
        }
    }
    assert!(alike > 30, "{alike}");
}

#[test]
fn names_with_control_characters_are_escaped() {
    let text = r#"wuldgisp-text 1
names { "a\x1b[2Jb" "no\xfe" "\x22quoted\x22" "gr\xc3\xbcn b" "\xe2\x80\xae" }
functions {
  function name=0 { body { } } function name=1 { body { } } function name=2 { body { } }
  function name=3 { body { } } function name=4 { body { } }
}
special_types { }"#;
    let image = plain::assemble(text).unwrap();
    let order = "functions 5\n0 0 \"a\\x1b[2Jb\"\n1 1 \"no\\xfe\"\n2 2 \"\\\"quoted\\\"\"\n3 3 grün b\n4 4 \"\\xe2\\x80\\xae\"\n";
    assert_eq!(answer(&["order"], &image).1, order);
    for words in [&["order"][..], &["order", "--json"], &["inspect"], &["inspect", "--json"]] {
        let (_, out, err) = answer(words, &image);
        let moves = |c: char| c.is_control() && c != '\n';
        assert!(!out.contains(moves) && !err.contains(moves), "{words:?}");
    }
    let odd = file("odd\x1b[2J\nname.img", b"");
    let (_, out, _) = answer(&["check", odd.to_str().unwrap()], b"");
    assert!(out.contains("odd\\u{1b}[2J\\nname.img\": refused 1: "), "{out}");
    let (_, _, err) = answer(&["ch\x1beck"], b"");
    assert_eq!(err, "wuldgisp: there is no command 'ch\\u{1b}eck' (see wuldgisp --help)\n");
}

#[test]
fn redirect_writes_the_image() {
    let output = run(&["redirect", "--original", "fog", "--replacement=tone"], &shade());
    assert_eq!(output.status.code(), Some(0));
    let mut expected = shade();
    plain::redirect(&mut expected, 2, 1, &[]).unwrap();
    assert_eq!(output.stdout, expected);

    let path = file("redirect.img", &shade());
    let name = path.to_str().unwrap();
    let words = ["redirect", "--original", "@2", "--replacement", "@1", "--in-place", name];
    let (status, out, _) = answer(&words, b"");
    assert_eq!((status, out), (0, format!("{name}: function 2 becomes 1, 1 words changed\n")));
    assert_eq!(std::fs::read(&path).unwrap(), expected);

    let omitted = ["redirect", "--original=fog", "--replacement=tone", "--omit=shade", "--omit", "fog"];
    assert_eq!(run(&omitted, &shade()).stdout, shade());
}

#[test]
fn redirect_tells_what_is_wrong() {
    let ask = |original, replacement| {
        answer(&["redirect", "--original", original, "--replacement", replacement], &shade())
    };
    let (status, _, err) = ask("mist", "tone");
    assert_eq!(
        (status, err.as_str()),
        (2, "wuldgisp: standard input: there is no name \"mist\" in the image\n")
    );
    let (status, _, err) = ask("@3", "tone");
    let message = "standard input: refused 8: no function bears the original's name\n";
    assert_eq!((status, err.as_str()), (1, message));
    let (status, _, err) = ask("@4", "tone");
    assert!(err.contains("refused 13: a number given by the caller"), "{err}");
    assert_eq!(status, 1);
    assert_eq!(ask("@x", "tone").0, 2);
    let words = ["redirect", "--original=fog", "--replacement=tone", "-o", "/no/such/folder/x"];
    let (status, _, err) = answer(&words, &shade());
    let told =
        "wuldgisp: standard input: /no/such/folder/x cannot be written: there is no folder /no/such/folder\n";
    assert_eq!((status, err.as_str()), (2, told));
    let folder = folder();
    let words = ["redirect", "--original=fog", "--replacement=tone", "-o", folder.to_str().unwrap()];
    let (status, _, err) = answer(&words, &shade());
    assert_eq!(status, 2);
    assert!(err.ends_with(" cannot be written: it is a folder\n"), "{err}");
}

#[test]
fn inspect_and_assemble_are_each_others_reverse() {
    let (status, text, _) = answer(&["inspect", "--text"], &shade());
    assert_eq!(status, 0);
    let output = run(&["assemble"], text.as_bytes());
    assert_eq!((output.status.code(), output.stdout), (Some(0), shade()));
    let (status, text, _) = answer(&["inspect", "--text"], b"any bytes");
    assert_eq!((status, text.as_str()), (1, "wuldgisp-bytes\n616e7920 62797465 73\n"));
    assert_eq!(run(&["assemble"], text.as_bytes()).stdout, b"any bytes");
    let (status, out, _) = answer(&["inspect"], &shade());
    assert_eq!(status, 0);
    assert!(out.contains("function 0 shade()"), "{out}");
}

#[test]
fn inspect_shows_spans_and_raw_words() {
    let text = SHADE.replace("name=1 {", "name=1 span=[7 9] {");
    let image = plain::assemble(&text).unwrap();
    assert!(!answer(&["inspect"], &image).1.contains("span"));
    assert!(answer(&["inspect", "--spans"], &image).1.contains("function 1 tone(), span 7..9\n"));
    let (status, out, _) = answer(&["inspect", "--raw"], &image);
    assert_eq!(status, 0);
    assert!(out.contains("words 14 and 15, functions: 3 from word "), "{out}");
    assert!(out.contains("\n  record 1: words "), "{out}");
}

#[test]
fn inspect_does_not_cut_what_is_too_long() {
    let (status, out, _) = answer(&["inspect"], &vec![0; 100_000]);
    assert_eq!(status, 1);
    assert!(out.starts_with("image of more than 65536 bytes: refused 1\n"), "{out}");
    let (status, out, err) = answer(&["inspect", "--text"], &vec![0; 65_537]);
    let told = "wuldgisp: standard input: it is longer than an image may be, and has no text form\n";
    assert_eq!((status, out.as_str(), err.as_str()), (2, "", told));
}

#[test]
fn assemble_tells_what_it_wrote() {
    let error = |text: &str| answer(&["assemble"], text.as_bytes());
    let (status, out, err) = error("wuldgisp-text 2");
    assert_eq!((status, out.as_str()), (2, ""));
    assert!(
        err.starts_with("wuldgisp: standard input: line 1, column 15: edition 2 of the text form"),
        "{err}"
    );
    let (status, _, err) = error("wuldgisp-text 1\nfunctions { function { body { } } }\nspecial_types { }\n");
    assert_eq!(status, 1);
    assert!(err.starts_with("standard input: refused 5: a name is missing"), "{err}");
    let long = format!("wuldgisp-text 1 names {{ \"{}\" }} special_types {{ }}", "x".repeat(70_000));
    let output = run(&["assemble"], long.as_bytes());
    assert_eq!((output.status.code(), output.stdout.len()), (Some(1), 70_100));
    let err = String::from_utf8_lossy(&output.stderr).into_owned();
    assert!(err.starts_with("standard input: the image has 70100 bytes, and the limit is 65536\n"), "{err}");
    assert!(err.contains("standard input: refused 1: "), "{err}");
    let (status, _, err) = answer(&["assemble"], b"wuldgisp-text 1\n\xff");
    assert_eq!((status, err.as_str()), (2, "wuldgisp: standard input: line 2: the text is no UTF-8\n"));
}

#[test]
fn folders_stand_for_their_images() {
    let good = file("folder/below/b.img", &shade());
    let bad = file("folder/a.img", b"");
    file("folder/c.txt", b"no image");
    let folder = folder().join("folder");
    let (status, out, err) = answer(&["check", folder.to_str().unwrap()], b"");
    assert_eq!((status, err.as_str()), (1, ""));
    let lines: Vec<&str> = out.lines().collect();
    assert_eq!(lines.len(), 2, "{out}");
    assert!(lines[0].starts_with(&format!("{}: refused 1: ", bad.display())), "{out}");
    assert_eq!(lines[1], format!("{}: accepted", good.display()));

    let empty = folder.join("empty");
    std::fs::create_dir_all(&empty).unwrap();
    let (status, _, err) = answer(&["check", empty.to_str().unwrap()], b"");
    let told = format!("wuldgisp: {}: there is no .img file in this folder\n", empty.display());
    assert_eq!((status, err), (2, told));
}

#[test]
fn quiet_leaves_the_status_alone() {
    for (words, image, expected) in [
        (&["check", "-q"][..], shade(), 0),
        (&["check", "--quiet"], Vec::new(), 1),
        (&["check", "--quiet", "--rings"], ring(), 1),
        (&["order", "--quiet"], ring(), 1),
        (&["inspect", "--quiet", "--raw"], shade(), 0),
        (&["redirect", "--quiet", "--original=@9", "--replacement=tone"], shade(), 1),
        (&["link", "--quiet"], ring(), 1),
        (&["link", "--quiet", "--output=/dev/null"], shade(), 0),
    ] {
        let (status, out, err) = answer(words, &image);
        assert_eq!((status, out.as_str(), err.as_str()), (expected, "", ""), "{words:?}");
    }
    let (status, _, err) = answer(&["check", "--quiet", "not-there.img"], b"");
    assert_eq!((status, err.lines().count()), (2, 1));
    let words = ["redirect", "--quiet", "--original=fog", "--replacement=tone"];
    assert_eq!(run(&words, &shade()).stdout.len(), shade().len());
}

#[test]
fn misuse_is_told_in_one_line() {
    for words in [
        &[][..],
        &["chek"],
        &["check", "--text"],
        &["redirect"],
        &["redirect", "--original"],
        &["redirect", "--original", "a", "--original", "b"],
        &["redirect", "--original", "a", "--replacement", "b", "--in-place"],
        &["redirect", "--original", "a", "--replacement", "b", "--in-place=yes", "x"],
        &["redirect", "--original", "a", "--replacement", "b", "x", "y"],
        &["link", "--redirect"],
        &["link", "--redirect", "fog"],
        &["link", "--in-place"],
        &["link", "--folder", "x"],
        &["link", "--folder", "x", "-"],
        &["link", "--folder", "x", "--in-place", "y"],
        &["link", "-o", "x", "--folder", "y", "z"],
        &["link", "-o", "x", "y", "z"],
        &["link", "--json", "x"],
        &["link", "x", "y"],
        &["link", "/"],
        &["inspect", "--text", "x", "y"],
        &["inspect", "--text", "--json", "x"],
        &["check", "-", "-"],
        &["assemble", "/"],
        &["assemble", "not-there.txt"],
        &["session", "not-there.txt"],
        &["session", "a", "b"],
        &["help", "chek"],
    ] {
        let (status, out, err) = answer(words, b"");
        assert_eq!((status, out.as_str(), err.lines().count()), (2, "", 1), "{words:?}: {err}");
    }
    let (_, _, err) = answer(&["check", "--text"], b"");
    assert_eq!(err, "wuldgisp: check has no option '--text' (see wuldgisp check --help)\n");
}

#[test]
fn help_is_there_for_all_and_for_each() {
    for words in [&["--help"][..], &["-h"], &["help"]] {
        let (status, out, _) = answer(words, b"");
        assert_eq!(status, 0);
        assert!(out.contains("Exit status: 0 accepted"));
    }
    for command in ["check", "order", "redirect", "link", "inspect", "assemble", "session"] {
        let (status, out, _) = answer(&["help", command], b"");
        assert_eq!((status, &out), (0, &answer(&[command, "--help"], b"").1));
        assert!(out.starts_with(&format!("wuldgisp {command} ")), "{out}");
        assert!(out.contains("--quiet") && out.contains("Exit status: "), "{out}");
        assert!(answer(&["--help"], b"").1.contains(&format!("wuldgisp {command} ")), "{command}");
    }
    assert_eq!(answer(&["--version"], b"").1, concat!("wuldgisp ", env!("CARGO_PKG_VERSION"), "\n"));
}
