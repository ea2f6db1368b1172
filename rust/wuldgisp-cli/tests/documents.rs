//! What users read: the page of commands is their help, pages cite pages and rules that are there, and the tables of
//! the text form and of leaf types are those of the code.

mod tool;

use std::path::{Path, PathBuf};

use plain::fields::{EXPRESSIONS, LEAF_TYPES, LEAF_WORDS, STATEMENTS};
use tool::*;

fn root() -> PathBuf {
    Path::new(env!("CARGO_MANIFEST_DIR")).join("../..")
}

fn page(name: &str) -> String {
    std::fs::read_to_string(root().join(name)).unwrap_or_else(|error| panic!("{name}: {error}"))
}

#[test]
fn the_page_of_commands_is_their_help() {
    let (_, help, _) = answer(&["help", "--page"], b"");
    assert!(page("docs/COMMANDS.md") == help, "write docs/COMMANDS.md anew: wuldgisp help --page");
}

#[test]
fn what_users_see_cites_what_is_there() {
    let pages = [
        "README.md",
        "rust/README.md",
        "include/wuldgisp.h",
        "examples/order.c",
        "examples/session.c",
        "examples/many.c",
        "docs/IMAGE.md",
        "docs/TEXT.md",
        "docs/COMMANDS.md",
        "docs/PLAN.md",
        "rust/wuldgisp/src/lib.rs",
        "rust/wuldgisp/src/linker.rs",
        "rust/wuldgisp/src/refusal.rs",
        "rust/wuldgisp/src/session.rs",
    ];
    let rules = page("docs/RULES.md");
    for name in pages {
        let text = page(name);
        assert!(!text.to_lowercase().contains("document 01"), "{name} cites document 01");
        for cited in text.split(['(', ' ', '`', '\n', '"']).filter(|word| word.starts_with("docs/")) {
            let cited = cited.trim_end_matches([')', '.', ',', ':', ';', '\\']);
            assert!(root().join(cited).exists(), "{name} cites {cited}");
        }
        // `docs/RULES.md, 6.1` and `RULES 7.3`
        for behind in text.split("RULES.md`, ").chain(text.split("RULES ")).skip(1) {
            let number: String = behind.chars().take_while(|c| c.is_ascii_digit() || *c == '.').collect();
            let number = number.trim_end_matches('.');
            let there = !number.contains('.') || rules.contains(&format!("**{number}** "));
            assert!(there, "{name} cites rule {number}");
        }
    }
}

#[test]
fn every_refusal_is_a_rule() {
    let rules = page("docs/RULES.md");
    for number in (1..=13).chain(20..=22) {
        assert!(rules.contains(&format!("\n| {number} | ")), "no row for refusal {number}");
    }
    for case in 1..=12 {
        assert!(rules.contains(&format!("\n| P{case} | ")), "no row for P{case}");
    }
}

#[test]
fn programs_and_library_say_the_same_of_a_refusal() {
    let refusals = page("crates/base_refusals/src/lib.rt");
    use wuldgisp::Refusal::*;
    for refusal in [
        Size,
        Layout,
        Range,
        Reference,
        Names,
        Scope,
        OriginalNotFound,
        ReplacementNotFound,
        ArgumentTypes,
        ResultTypes,
        Ring { left: 1 },
        NumberGiven,
    ] {
        assert!(refusals.contains(&format!("\"{}\"", refusal.sentence())), "{refusal}");
    }
}

/// The words between backquotes of the row of a table that begins so.
fn keys(text: &str, begins: &str) -> Vec<String> {
    let row = text.lines().find(|line| line.starts_with(begins)).unwrap_or_else(|| panic!("no row {begins}"));
    row.split('`').skip(1).step_by(2).map(str::to_owned).collect()
}

#[test]
fn the_text_form_is_as_its_page_says() {
    let text = page("docs/TEXT.md");
    let plain =
        STATEMENTS.iter().filter(|row| !["Emit", "Block", "If", "Switch", "Loop"].contains(&row.name));
    for row in EXPRESSIONS.iter().chain(plain) {
        let own: Vec<&str> = row.fields.iter().map(|(key, _)| *key).collect();
        assert_eq!(keys(&text, &format!("| {} | ", row.name)), own, "{}", row.name);
    }
    for key in plain::text::SECTION_KEYS {
        assert!(text.contains(&format!("= \"{key}\" \"{{\"")), "{key}");
    }
    let example: Vec<&str> = text.lines().skip_while(|line| !line.starts_with("    ")).collect();
    let example: Vec<&str> =
        example.into_iter().take_while(|line| line.starts_with("    ")).map(|line| &line[4..]).collect();
    let image = plain::assemble(&example.join("\n")).unwrap();
    assert!(image == std::fs::read(root().join("vectors/001.img")).unwrap());
    let error = plain::assemble("wuldgisp-text 1\ntypes {\n  array size=4\n}\n").unwrap_err();
    assert!(text.contains(&format!("    {error}\n")), "{error}");
}

/// The lines of a page that are indented, in runs, without what indents them.
fn indented(text: &str) -> Vec<String> {
    let runs = text.split("\n\n").filter(|run| run.starts_with("    "));
    runs.map(|run| run.lines().map(|line| format!("{}\n", &line[4..])).collect()).collect()
}

#[test]
fn plans_are_as_their_page_says() {
    let text = page("docs/PLAN.md");
    let help = answer(&["session", "--help"], b"").1;
    for operation in plain::steps::OPERATIONS {
        assert!(text.contains(&format!("| `{operation}")) && help.contains(operation), "{operation}");
    }
    let [plan, listing, refused, wrong] = &indented(&text)[..] else { panic!("a plan and what it tells") };
    assert_eq!(*plan, page("examples/both.plan"));
    for image in ["vectors/000.img", "vectors/001.img"] {
        file(&format!("plan/{image}"), &std::fs::read(root().join(image)).unwrap());
    }
    let folder = folder().join("plan");
    std::fs::create_dir_all(folder.join("target")).unwrap();
    let run = |plan: &str| {
        file("plan/examples/both.plan", plan.as_bytes());
        shell(&format!("cd {} && $PROGRAM session examples/both.plan", folder.display()))
    };
    assert_eq!(run(plan), (0, listing.clone(), String::new()));
    assert_eq!(plain::intake(&std::fs::read(folder.join("target/both.img")).unwrap()), Ok(()));
    let (status, out, _) = run(&plan.replace("_if_new a", " 9"));
    assert_eq!((status, out.contains(refused)), (1, true), "{out}");
    assert_eq!(run(&plan.replace("fog", "fgo")), (2, String::new(), wrong.clone()));
}

#[test]
fn leaf_types_are_as_their_table_says() {
    let text = page("docs/IMAGE.md");
    for (own, name) in LEAF_TYPES.iter().enumerate() {
        let begins = format!("| {own} {name} | ");
        let row =
            text.lines().find(|line| line.starts_with(&begins)).unwrap_or_else(|| panic!("no {begins}"));
        let mut rest = &row[begins.len()..];
        for (key, _) in LEAF_WORDS[own] {
            let at = rest.find(key).unwrap_or_else(|| panic!("no {key} in {row}"));
            rest = &rest[at + key.len()..];
        }
    }
}
