//! The text form: what is written is read back byte for byte, and what is not of the form is told with its place.

use std::path::{Path, PathBuf};

use plain::generate::{generate, Options};
use plain::random::Random;

/// That an image comes back, and that it was written as a tree where it has one.
fn comes_back(image: &[u8], what: &str) {
    let text = plain::text::text(image);
    assert_eq!(text.starts_with("wuldgisp-text 1\n"), plain::read(image).is_ok(), "{what}");
    match plain::assemble(&text) {
        Ok(again) => assert!(again == image, "{what}: other bytes\n{text}"),
        Err(error) => panic!("{what}: {error}\n{text}"),
    }
}

#[test]
fn vectors_come_back() {
    let own = Path::new(env!("CARGO_MANIFEST_DIR")).join("../../vectors");
    let other = std::env::var_os("WULDGISP_VECTORS").map(PathBuf::from);
    for folder in [Some(own), other].into_iter().flatten() {
        for entry in std::fs::read_dir(folder).into_iter().flatten().flatten() {
            if entry.path().extension().is_some_and(|extension| extension == "img") {
                comes_back(&std::fs::read(entry.path()).unwrap(), &entry.path().to_string_lossy());
            }
        }
    }
}

#[test]
fn generated_and_damaged_images_come_back() {
    let mut random = Random::new(11);
    for own in 0..400 {
        let module = generate(&mut random, Options::small());
        comes_back(&plain::write(&module), &format!("generated {own}"));
        let (way, damaged) = plain::mutate::mutate(&mut random, &module);
        comes_back(&damaged, &format!("generated {own}, {way}"));
    }
    for (name, image) in plain::cases::limits().into_iter().chain(plain::cases::worst()) {
        comes_back(&image, &name);
    }
}

#[test]
fn short_bytes_come_back() {
    for length in 0..100 {
        comes_back(&vec![0xab; length], "short bytes");
    }
}

#[test]
fn errors_tell_their_place() {
    let error = |text: &str| plain::assemble(text).unwrap_err().to_string();
    assert_eq!(
        error(""),
        "line 1, column 1: expected the heading wuldgisp-text 1 or wuldgisp-bytes, found the end of the text"
    );
    let missing = "wuldgisp-text 1\ntypes {\n  array size=4\n}\nspecial_types { }\n";
    assert_eq!(error(missing), "line 3, column 9: expected base=, found 'size'");
    let large = "wuldgisp-text 1\nconstants {\n  constant type=4294967296 init=0\n}\n";
    assert_eq!(error(large), "line 3, column 17: expected a number below 4294967296, found '4294967296'");
    let signed = "wuldgisp-text 1\nconstants { constant type=+1 init=0 }\n";
    assert_eq!(error(signed), "line 2, column 27: expected a number below 4294967296, found '+1'");
    let deep = format!("wuldgisp-text 1\nfunctions {{ function {{ body {{ {}", "Block { ".repeat(100_000));
    let told = "line 2, column 829: expected blocks nested 100 deep at most, found '{'";
    assert_eq!(error(&deep), told);
    let digits = "line 2, column 1: expected pairs of hexadecimal digits, found '0z'";
    assert_eq!(error("wuldgisp-bytes\n0z\n"), digits);
    let kind = "wuldgisp-text 1\ntypes { matrix }";
    let told = "line 2, column 9: expected a kind of type, one of leaf pointer struct array binding_array, found 'matrix'";
    assert_eq!(error(kind), told);
    let code = "wuldgisp-text 1 global_expressions { Splat size=\"Bi\" value=0 }";
    let told = "line 1, column 49: expected one of Bi Tri Quad or a number, found the string \"Bi\"";
    assert_eq!(error(code), told);
    let math = "wuldgisp-text 1 global_expressions { Math fun=Abs1 }";
    let told =
        "line 1, column 47: expected one of the 79 names from Abs to Unpack4xU8 or a number, found 'Abs1'";
    assert_eq!(error(math), told);
}

#[test]
fn editions_sections_and_junk_say_what_they_are() {
    let error = |text: &str| plain::assemble(text).unwrap_err().to_string();
    let told = "line 1, column 15: edition 2 of the text form is not known: expected edition 1";
    assert_eq!(error("wuldgisp-text 2\nspecial_types { }\n"), told);
    let told = "line 1, column 15: expected the edition of the text form, 1, found '{'";
    assert_eq!(error("wuldgisp-text {"), told);
    let order = "names, types, constants, overrides, globals, global_expressions, functions, entry_points, special_types";
    let told =
        format!("line 2, column 1: there is no section 'typs': expected one of {order}, in this order");
    assert_eq!(error("wuldgisp-text 1\ntyps { }\n"), told);
    let told = format!("line 3, column 3: section names is out of its place: the order is {order}");
    assert_eq!(error("wuldgisp-text 1\ntypes { }\n  names { }\n"), told);
    let told = "line 2, column 18: the text ends before its last section, special_types";
    assert_eq!(error("wuldgisp-text 1\nnames { \"äöü\" }  \n"), told);
    let told = "line 2, column 19: found 'names' behind special_types, which is the last section";
    assert_eq!(error("wuldgisp-text 1\nspecial_types { } names { }\n"), told);
    let told = "line 3, column 1: found '}' behind special_types, which is the last section";
    assert_eq!(error("wuldgisp-text 1\nspecial_types { }\n}\n"), told);
}

#[test]
fn strings_tell_their_place() {
    let error = |name: &str| {
        plain::assemble(&format!("wuldgisp-text 1\nnames {{\n{name}\n}}\n")).unwrap_err().to_string()
    };
    let told = "line 3, column 3: expected a quote that ends the string, found the end of the line";
    assert_eq!(error("\"a"), told);
    assert_eq!(error("\"äb\\xg0\""), "line 3, column 4: expected two hexadecimal digits behind \\x");
    let told = "line 3, column 2: expected \\x and two digits, \\\" or \\\\ behind a backslash";
    assert_eq!(error("\"\\n\""), told);
}

const LISTED: &str = "wuldgisp-text 1
names { \"shade\" \"fog\" \"colour\" \"density\" }
types { leaf name=2 leaf=Vector copied=[1 2 4 0 0 0] }
functions {
  function name=0 {
    argument name=3 type=0
    expressions { FunctionArgument argument=0 CallResult function=1 }
    named { expression number=1 name=2 }
    body { Call function=1 arguments=[0] result=1 Return value=1 }
  }
  function name=1 { argument type=0 result type=0 body { } }
}
special_types { }
";

/// That a listing has all of these.
fn has(listing: &str, parts: &[&str]) {
    for part in parts {
        assert!(listing.contains(part), "no {part} in:\n{listing}");
    }
}

#[test]
fn listings_use_names_and_tell_places() {
    let image = plain::assemble(LISTED).unwrap();
    let listing = plain::listing::listing(&image);
    assert!(listing.starts_with("image of 464 bytes, 116 words: accepted\n"), "{listing}");
    has(
        &listing,
        &[
            "0 colour: leaf Vector size=Tri kind=Float width=4\n",
            "function 0 shade(0 density: type 0 colour)\n",
            "Call function=1 fog arguments=[#0] result=#1 colour\n",
            "order when linked: 1 fog, 0 shade\n",
        ],
    );
    let broken = plain::assemble(&LISTED.replace("Return value=1", "Return value=2")).unwrap();
    let listing = plain::listing::listing(&broken);
    has(
        &listing,
        &[
            "refused 3\n  rule: an expression's number",
            "in: functions, record 0, which starts at word 49\n",
            "Return value=#2 (not there)\n",
        ],
    );
}

#[test]
fn listings_are_never_ambiguous() {
    let text = "wuldgisp-text 1
names { \"none\" \"same\" \"f\" \"a b\" }
types { leaf name=1 leaf=Scalar leaf name=1 leaf=Scalar copied=[1 4 0 0 0 0] pointer name=0 base=1 }
globals { global name=3 type=2 decorations=0 }
functions { function name=2 {
  local name=0 type=0
  expressions { LocalVariable local=0 GlobalVariable global=0 ZeroValue type=1 }
  named { expression number=2 name=0 }
  body { Return Return value=2 }
} }
special_types { }
";
    let listing = plain::listing::listing(&plain::assemble(text).unwrap());
    has(
        &listing,
        &[
            "0 same: leaf Scalar kind=Sint width=0\n",
            "1 same: leaf Scalar kind=Uint width=4\n",
            "2 none: pointer to type 1 same, space 0 0\n",
            "0 \"a b\": type 2 none, ",
            "#0 = LocalVariable local=0 none\n",
            "#1 = GlobalVariable global=0 \"a b\"\n",
            "#2 none = ZeroValue type=1 same\n",
            "Return value=none\n",
            "Return value=#2 none\n",
        ],
    );
}

#[test]
fn literals_and_leaves_are_shown_as_values() {
    let literal = |code: &str, low: u32, high: u32| format!("Literal code={code} low={low} high={high} ");
    let literals = [
        (literal("F64", 0, 0x3ff0_0000), "Literal F64 1.0lf (bits 0x3ff0000000000000)"),
        (literal("F32", 0x3f80_0000, 0), "Literal F32 1.0f (bits 0x3f800000)"),
        (literal("F32", 0x3f80_0000, 1), "Literal F32 of no value (bits 0x13f800000)"),
        (literal("F16", 0xc100, 0), "Literal F16 -2.5h (bits 0xc100)"),
        (literal("F16", 1, 0), "Literal F16 5.9604645e-8h (bits 0x1)"),
        (literal("U32", 3, 0), "Literal U32 3u (bits 0x3)"),
        (literal("I32", u32::MAX, 0), "Literal I32 -1i (bits 0xffffffff)"),
        (literal("U64", 0, 1), "Literal U64 4294967296lu (bits 0x100000000)"),
        (literal("I64", u32::MAX, u32::MAX), "Literal I64 -1li (bits 0xffffffffffffffff)"),
        (literal("Bool", 1, 0), "Literal Bool true (bits 0x1)"),
        (literal("Bool", 2, 0), "Literal Bool of no value (bits 0x2)"),
        (literal("AbstractInt", 7, 0), "Literal AbstractInt 7 (bits 0x7)"),
        (literal("AbstractFloat", 0, 0x4000_0000), "Literal AbstractFloat 2.0 (bits 0x4000000000000000)"),
        (literal("10", 5, 0), "Literal 10 of no value (bits 0x5)"),
    ];
    let leaves = [
        ("leaf leaf=Matrix copied=[0 2 2 4 0 0] ", "leaf Matrix columns=Bi rows=Quad kind=Float width=4\n"),
        ("leaf leaf=Atomic copied=[1 4 0 0 0 0] ", "leaf Atomic kind=Uint width=4\n"),
        (
            "leaf leaf=ValuePointer copied=[0 2 4 1 0 0] ",
            "leaf ValuePointer size=none kind=Float width=4 space=1 access=0\n",
        ),
        (
            "leaf leaf=Image copied=[1 0 0 2 1 0] ",
            "leaf Image dim=D2 arrayed=no class=Sampled kind=Float multi=yes\n",
        ),
        (
            "leaf leaf=5 copied=[3 1 1 0 0 9] ",
            "leaf Image dim=Cube arrayed=yes class=Depth multi=no and 0 9\n",
        ),
        ("leaf leaf=Image copied=[0 0 7 0 0 0] ", "leaf Image dim=D1 arrayed=no class=7\n"),
        ("leaf leaf=Sampler copied=[1 0 0 0 0 0] ", "leaf Sampler comparison=yes\n"),
        ("leaf leaf=AccelerationStructure ", "leaf AccelerationStructure vertex_return=no\n"),
        ("leaf leaf=RayQuery copied=[2 0 0 0 0 0] ", "leaf RayQuery vertex_return=2\n"),
        ("leaf leaf=9 ", "leaf 9 (not there) 0 0 0 0 0 0\n"),
    ];
    let types: String = leaves.iter().map(|(text, _)| *text).collect();
    let expressions: String = literals.iter().map(|(text, _)| text.as_str()).collect();
    let text = format!(
        "wuldgisp-text 1 types {{ {types} }} global_expressions {{ {expressions} }} special_types {{ }}"
    );
    let image = plain::assemble(&text).unwrap();
    let listing = plain::listing::listing(&image);
    has(&listing, &leaves.map(|(_, shown)| shown));
    has(&listing, &literals.map(|(_, shown)| shown));
    has(&plain::text::text(&image), &["code=F32 low=1065353216 high=0  # 1 = 1.0f\n", "leaf leaf=Matrix "]);
}

#[test]
fn spans_are_listed_on_request() {
    let text = LISTED
        .replace("Return value", "Return span=[5 9] value")
        .replace("name=2 leaf", "name=2 span=[1 2] leaf");
    let image = plain::assemble(&text).unwrap();
    let options = plain::listing::Options { spans: true };
    let listing = plain::listing::listing_with(&image, options);
    has(&listing, &["width=4, span 1..2\n", "Return value=#1 colour, span 5..9\n"]);
    assert!(!plain::listing::listing(&image).contains("span"));
}

#[test]
fn rings_are_named() {
    let text = LISTED.replace("body { } }", "body { Call function=0 arguments=[] } }");
    let listing = plain::listing::listing(&plain::assemble(&text).unwrap());
    let rings = "order when linked: refused 12 left 2\n  left: 0 shade, 1 fog\n  a ring: 0 shade -> 1 fog -> 0 shade\n";
    has(&listing, &[rings]);
}

#[test]
fn what_was_laid_out_before_the_fault_is_listed() {
    let mut words = plain::words(&plain::assemble(LISTED).unwrap());
    // The second function's count of arguments, over its limit.
    let functions = words[15] as usize;
    let second = functions + words[functions + 1] as usize;
    words[second + 3] = 33;
    let listing = plain::listing::listing(&plain::bytes(&words));
    has(
        &listing,
        &[
            "refused 2\n  rule: a list is no longer than its limit\n",
            "in: functions, record 1, which starts at word ",
            "laid out before the fault:\n",
            "names: 4\n",
            "functions: 1\n",
            "function 0 shade(0 density: type 0 colour)\n",
            "  1 was not laid out: words 89..113\n  as far as it was: fog()\n    body:\n",
        ],
    );
    let raw = plain::raw::raw(&plain::bytes(&words));
    has(
        &raw,
        &[
            "word 0, edition: 1\nword 1, total of words: 116\nwords 2 and 3, names: 4 from word 20\n",
            "functions: words 47..113\n  offsets\n       47  2 42\n  record 0: words 49..89\n",
            "  record 1: words 89..113\n       89  2 0 0 33 ",
        ],
    );
    words[15] = 200;
    has(
        &plain::raw::raw(&plain::bytes(&words)),
        &["functions: words 200..113 are no part of the image behind the header\n"],
    );
    has(
        &plain::raw::raw(b"1234567"),
        &["7 bytes, 1 words and 3 bytes behind them\nno header: it has 20 words\n"],
    );
}

#[test]
fn a_record_that_is_too_short_holds_its_fault() {
    let mut words =
        plain::words(&plain::assemble("wuldgisp-text 1 names { \"a\" } special_types { }").unwrap());
    words[21] = 5;
    let listing = plain::listing::listing(&plain::bytes(&words));
    has(
        &listing,
        &[
            "found at word 23, ",
            "in: names, record 0, which starts at word 21\n",
            "names: 0\n  0 was not laid out: words 21..23\n",
        ],
    );
    words[20] = 9;
    let listing = plain::listing::listing(&plain::bytes(&words));
    has(&listing, &["found at word 20, ", "  0 was not laid out: its offset is out of place\n"]);
}

#[test]
fn anything_is_listed() {
    let mut random = Random::new(5);
    for _ in 0..300 {
        let module = generate(&mut random, Options::small());
        let (_, damaged) = plain::mutate::mutate(&mut random, &module);
        assert!(plain::listing::listing(&damaged).starts_with("image of "));
        assert!(plain::raw::raw(&damaged).starts_with(&format!("{} bytes", damaged.len())));
    }
    assert_eq!(
        plain::listing::listing(&[]),
        "image of 0 bytes, 0 words: refused 1\n  rule: an image has at least 80 bytes\n"
    );
}
