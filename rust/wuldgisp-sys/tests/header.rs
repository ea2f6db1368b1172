//! The declarations in `src/lib.rs` are those of `include/wuldgisp.h`: names, arguments and types, the stacks, and the
//! memory of `wuldgisp_link_in` and `wuldgisp_session_in`.
//!
//! Both files are brought to one spelling, the Rust one, and compared as sets. WULDGISP_HEADER names another
//! header.

use std::collections::BTreeSet;
use std::path::{Path, PathBuf};

/// A text without its comments and with single spaces.
fn bare(text: &str) -> String {
    let mut text = text.to_owned();
    while let Some(start) = text.find("/*") {
        let end = text[start..].find("*/").map_or(text.len(), |end| start + end + 2);
        text.replace_range(start..end, " ");
    }
    let no_comment = |line: &str| line.split("//").next().unwrap_or("").to_owned();
    let lines: Vec<String> =
        text.lines().filter(|line| !line.trim_start().starts_with('#')).map(no_comment).collect();
    lines.join(" ").split_whitespace().collect::<Vec<_>>().join(" ")
}

/// A C type in Rust's spelling.
fn rust_type(c: &str) -> String {
    match c.replace(" *", "*").trim() {
        "uint8_t" => "u8".to_owned(),
        "uint16_t" => "u16".to_owned(),
        "uint32_t" => "u32".to_owned(),
        "uint64_t" => "u64".to_owned(),
        "size_t" => "usize".to_owned(),
        pointer => {
            let base = pointer.strip_suffix('*').unwrap_or_else(|| panic!("an unknown type: {pointer}"));
            match base.strip_prefix("const ") {
                Some(base) => format!("*const {}", rust_type(base)),
                None => format!("*mut {}", rust_type(base)),
            }
        }
    }
}

/// A C declaration's type and name.
fn typed(declaration: &str) -> (String, String) {
    let declaration = declaration.trim();
    let at = declaration.rfind([' ', '*']).expect("a type and a name") + 1;
    (rust_type(&declaration[..at]), declaration[at..].to_owned())
}

/// The C functions: every statement with a parenthesis.
fn of_header(text: &str) -> BTreeSet<String> {
    let text = bare(text).replace("extern \"C\" {", " ").replace('}', " ");
    let mut functions = BTreeSet::new();
    for prototype in text.split(';').filter(|statement| statement.contains('(')) {
        let (head, arguments) = prototype.split_once('(').expect("a parenthesis");
        let (result, name) = typed(head);
        let arguments = arguments.trim_end().strip_suffix(')').expect("a closing parenthesis");
        let arguments: Vec<String> =
            arguments.split(',').map(typed).map(|(ty, name)| format!("{name}: {ty}")).collect();
        functions.insert(format!("{name}({}) -> {result}", arguments.join(", ")));
    }
    functions
}

/// The Rust functions.
fn of_rust(text: &str) -> BTreeSet<String> {
    let text = bare(text);
    let function = |statement: &str| {
        let at = statement.find("pub fn ")?;
        let function = statement[at + 7..].trim().replace("( ", "(").replace(", )", ")");
        Some(function)
    };
    text.split(';').filter_map(function).collect()
}

/// The fields of the header's `wuldgisp_memory`: type, name, and how many numbers, the rows of an array together.
fn memory_of_header(text: &str) -> Vec<(String, String, usize)> {
    let text = bare(text);
    let (_, fields) = text.split_once("struct wuldgisp_memory {").expect("wuldgisp_memory");
    let (fields, _) = fields.split_once('}').expect("its end");
    let field = |field: &str| {
        let (declaration, lengths) = field.split_once('[').expect("an array");
        let (own, name) = typed(declaration);
        let count = |length: &str| length.trim_end_matches(']').parse::<usize>().expect("a length");
        (own, name, lengths.split('[').map(count).product())
    };
    fields.split(';').map(str::trim).filter(|field| !field.is_empty()).map(field).collect()
}

fn header() -> String {
    let own = || Path::new(env!("CARGO_MANIFEST_DIR")).join("../../include/wuldgisp.h");
    let header = std::env::var_os("WULDGISP_HEADER").map_or_else(own, PathBuf::from);
    std::fs::read_to_string(&header).unwrap_or_else(|error| panic!("include/wuldgisp.h: {error}"))
}

fn rust() -> String {
    let package = Path::new(env!("CARGO_MANIFEST_DIR"));
    std::fs::read_to_string(package.join("src/lib.rs")).unwrap()
}

#[test]
fn declarations_are_the_headers() {
    let rust = of_rust(&rust());
    assert!(!rust.is_empty());
    assert_eq!(rust, of_header(&header()));
}

#[test]
fn the_memory_is_the_headers() {
    use wuldgisp_sys::memory::*;
    let memory = [
        ("u32", "words", WORDS),
        ("u8", "tags", TAGS),
        ("u32", "log", LOG),
        ("u8", "classes", CLASSES),
        ("u32", "starts", STARTS),
        ("u32", "maps", MAPS),
        ("u16", "marks", MARKS),
        ("u32", "stacks", STACKS),
    ];
    let owned = memory.map(|(own, name, count)| (own.to_owned(), name.to_owned(), count));
    assert_eq!(memory_of_header(&header()), owned);
    // The last arguments of both functions that are lent it are those arrays, in that order.
    let arguments = memory.map(|(own, name, _)| format!("{name}: *mut {own}")).join(", ");
    let functions = of_rust(&rust());
    for name in ["wuldgisp_link_in(", "wuldgisp_session_in("] {
        let function = functions.iter().find(|function| function.starts_with(name)).expect(name);
        assert!(function.contains(&format!(", {arguments})")), "{function}");
    }
}

#[test]
fn the_stacks_are_the_headers() {
    let header = header();
    let stacks = [
        ("WULDGISP_STACK", wuldgisp_sys::WULDGISP_STACK),
        ("WULDGISP_LINK_STACK", wuldgisp_sys::WULDGISP_LINK_STACK),
    ];
    for (name, bytes) in stacks {
        let define = format!("#define {name} {bytes}\n");
        assert!(header.contains(&define), "no {define}");
    }
}

#[test]
fn both_spellings_are_read() {
    let c = "#include <stdint.h>\n/* two\nlines */ uint32_t f(const uint8_t *a, size_t b); // more\nuint64_t\n g(uint8_t* a, uint32_t b);";
    let rust = "extern \"C\" {\n pub fn f(a: *const u8, b: usize) -> u32;\n /// g\n pub fn g(\n a: *mut u8,\n b: u32,\n ) -> u64;\n}";
    assert_eq!(of_header(c), of_rust(rust));
    assert_eq!(of_rust(rust).len(), 2);
}
