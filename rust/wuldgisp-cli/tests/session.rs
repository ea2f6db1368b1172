//! `wuldgisp session`: every step by name and by number, what is refused, what is wrong with a plan, and what is written.

mod tool;

use std::path::{Path, PathBuf};

use plain::session::Session;
use tool::*;

/// A source with a record in every table.
const LIGHTS: &str = r#"wuldgisp-text 1
names { "Light" "Lamp" "HALF" "size" "lights" "shade" "fog" "main" "odd \"name\" \xfe#" "9lives" "@3" "twice" }
types {
  leaf name=0 span=[4 9] leaf=Scalar copied=[2 4 0 0 0 0]
  leaf leaf=Scalar copied=[1 4 0 0 0 0]
  pointer name=11 base=0
  pointer name=11 base=1
}
constants { constant name=2 type=0 init=0 }
overrides { override name=3 id=0 type=0 init=1 }
globals { global name=4 type=1 decorations=0 }
global_expressions { Literal code=F32 low=1056964608 high=0 Literal code=F32 low=0 high=0 }
functions {
  function name=5 { body { Call function=1 arguments=[] } }
  function name=6 { argument type=0 body { } }
  function name=8 { body { } }
  function name=9 { body { } }
  function name=10 { body { } }
}
entry_points { entry_point name=7 stage=2 { function { body { Call function=0 arguments=[] } } } }
special_types { pair key=5 type=1 }
"#;

fn lights() -> Vec<u8> {
    plain::assemble(LIGHTS).unwrap()
}

/// A plan in a folder of its own, beside images.
struct Case {
    folder: PathBuf,
    plan: PathBuf,
}

impl Case {
    fn new(name: &str, plan: &str) -> Self {
        file(&format!("session/{name}/lights.img"), &lights());
        file(&format!("session/{name}/ring.img"), &ring());
        file(&format!("session/{name}/bad.img"), &bad());
        let plan = file(&format!("session/{name}/plan.txt"), plan.as_bytes());
        let folder = plan.parent().unwrap().to_path_buf();
        for old in ["out.img", "other.img"] {
            let _ = std::fs::remove_file(folder.join(old));
        }
        Case { folder, plan }
    }

    fn answer(&self, options: &[&str]) -> (i32, String, String) {
        let words = [&["session"], options, &[self.plan.to_str().unwrap()]].concat();
        answer(&words, b"")
    }

    fn written(&self, name: &str) -> Option<Vec<u8>> {
        std::fs::read(self.folder.join(name)).ok()
    }
}

/// An image that intake refuses by 5: two names are equal.
fn bad() -> Vec<u8> {
    plain::assemble("wuldgisp-text 1 names { \"a\" \"a\" } special_types { }").unwrap()
}

/// What the plain reading finishes.
fn finished(session: &mut Session, entry_points: bool) -> Vec<u8> {
    let mut output = vec![0; 65_536];
    let length = match entry_points {
        false => session.finish(&mut output).unwrap(),
        true => session.finish_with_entry_points(&mut output).unwrap(),
    };
    output[..length as usize].to_vec()
}

/// The image of the imports below.
fn expected(entry_points: bool) -> Vec<u8> {
    let mut session = Session::new();
    session.set_shader_source(&lights(), 1000).unwrap();
    session.rename_type(0, 1).unwrap();
    session.import_const(0).unwrap();
    session.import_pipeline_override(0).unwrap();
    session.import_global(0).unwrap();
    session.import_global_expression(1).unwrap();
    session.import_function(0).unwrap();
    finished(&mut session, entry_points)
}

#[test]
fn every_step_by_name() {
    let case = Case::new(
        "names",
        "# every step, by name\n\
         \tset lights.img  offset 0x3e8 # 1000\n\
         \n\
         rename_type Light as Lamp\n\
         import_type Light\n\
         import_const HALF\n\
         import_pipeline_override size\n\
         import_global lights\n\
         import_global_expression 1\n\
         import_function shade\n\
         import_function_if_new fog\n\
         map_function_handle shade\n\
         map_span 5 9\n\
         has_required_special_types\n\
         finish_with_entry_points out.img\n\
         has_required_special_types\r\n\
         set \"lights.img\"\n\
         clear\n\
         finish \"other.img\"",
    );
    let mut special = Session::new();
    special.set_shader_source(&lights(), 0).unwrap();
    special.clear_shader_source();
    let (all, special) = (expected(true), finished(&mut special, false));
    let told = format!(
        "2: set lights.img offset 0x3e8: accepted\n\
                4: rename_type Light as Lamp: type 1\n\
                5: import_type Light: type 1\n\
                6: import_const HALF: constant 0\n\
                7: import_pipeline_override size: override 0\n\
                8: import_global lights: global 0\n\
                9: import_global_expression 1: global expression 1\n\
                10: import_function shade: function 1\n\
                11: import_function_if_new fog: function 0\n\
                12: map_function_handle shade: function 1\n\
                13: map_span 5 9: span 1005..1009\n\
                14: has_required_special_types: yes\n\
                15: finish_with_entry_points out.img: {} bytes\n\
                16: has_required_special_types: no\n\
                17: set \"lights.img\": accepted\n\
                18: clear: accepted\n\
                19: finish \"other.img\": {} bytes\n",
        all.len(),
        special.len()
    );
    assert_eq!(case.answer(&[]), (0, told, String::new()));
    assert_eq!((case.written("out.img"), case.written("other.img")), (Some(all), Some(special)));
}

#[test]
fn numbers_do_as_names_do() {
    let by_number =
        "set lights.img offset 1000\nrename_type 0 as 1\nimport_const 0\nimport_pipeline_override 0\n\
                     import_global 0x0\nimport_global_expression 1\nimport_function 0\nfinish out.img\n";
    let by_name_number = "set lights.img offset 1000\nrename_type @0 as @1\nimport_const @2\n\
                          import_pipeline_override @3\nimport_global @0x4\nimport_global_expression 1\n\
                          import_function @5\nfinish out.img\n";
    for (name, plan) in [("numbers", by_number), ("name-numbers", by_name_number)] {
        let case = Case::new(name, plan);
        let (status, out, err) = case.answer(&["--quiet"]);
        assert_eq!((status, out.as_str(), err.as_str()), (0, "", ""));
        assert_eq!(case.written("out.img"), Some(expected(false)), "{name}");
    }
}

#[test]
fn odd_names_stand_between_quotes() {
    let case = Case::new(
        "odd",
        "set lights.img\nimport_function \"odd \\\"name\\\" \\xfe#\"#comment\nimport_function \"9lives\"\n\
         import_function \"@3\"\nimport_function \"sh\\x61de\"\n",
    );
    let (status, out, err) = case.answer(&[]);
    let told = "1: set lights.img: accepted\n2: import_function \"odd \\\"name\\\" \\xfe#\": function 0\n\
                3: import_function \"9lives\": function 1\n4: import_function \"@3\": function 2\n\
                5: import_function \"shade\": function 4\n";
    assert_eq!((status, out.as_str(), err.as_str()), (0, told, ""));
}

#[test]
fn spans_are_mapped_as_the_marked_cases_say() {
    let plan = "set lights.img offset 10\nmap_span 0 0  # P1\nmap_span 0 4  # P2\n\
                set lights.img offset 4294967290\nmap_span 5 9  # P3\nmap_span 6 6  # P4\n";
    let (status, out, _) = Case::new("spans", plan).answer(&[]);
    let told =
        "1: set lights.img offset 10: accepted\n2: map_span 0 0: span 0..0\n3: map_span 0 4: span 10..14\n\
                4: set lights.img offset 4294967290: accepted\n5: map_span 5 9: span 4294967295..3\n\
                6: map_span 6 6: span 0..0\n";
    assert_eq!((status, out.as_str()), (0, told));
}

const REFUSED: &str = "map_span 1 2\n\
                       finish_with_entry_points out.img\n\
                       set ring.img\n\
                       import_function shade\n\
                       set bad.img\n\
                       import_function 9\n\
                       set lights.img\n\
                       import_function 9\n\
                       rename_type 0 as @99\n\
                       import_function_if_new fog\n\
                       finish other.img\n";

/// What is accepted of it.
fn fog() -> Vec<u8> {
    let mut session = Session::new();
    session.set_shader_source(&lights(), 0).unwrap();
    session.import_function_if_new(1).unwrap();
    finished(&mut session, false)
}

#[test]
fn refused_steps_change_nothing() {
    let case = Case::new("refused", REFUSED);
    let (status, out, err) = case.answer(&[]);
    let number = "refused 13: a number given by the caller lies outside its table";
    let told = format!(
        "1: map_span 1 2: refused 20: no source is set\n\
         2: finish_with_entry_points out.img: refused 20: no source is set\n\
         3: set ring.img: accepted\n\
         4: import_function shade: refused 22: functions of unknown name call one another in a ring\n\
         5: set bad.img: refused 5: a name is missing, or names, named numbers or special keys are equal (word 24; \
         rule: names are distinct)\n\
         6: import_function 9: {number}\n\
         7: set lights.img: accepted\n\
         8: import_function 9: {number}\n\
         9: rename_type 0 as @99: {number}\n\
         10: import_function_if_new fog: function 0\n\
         11: finish other.img: {} bytes\n",
        fog().len()
    );
    assert_eq!((status, out, err.as_str()), (1, told, ""));
    assert_eq!(case.written("out.img"), None);
    assert_eq!(case.written("other.img"), Some(fog()));
    let (status, out, err) = case.answer(&["--quiet"]);
    assert_eq!((status, out.as_str(), err.as_str()), (1, "", ""));
}

#[test]
fn a_finished_image_that_intake_refuses_is_told() {
    let case =
        Case::new("twice", "set lights.img\nimport_function fog\nimport_function fog\nfinish out.img\n");
    let mut session = Session::new();
    session.set_shader_source(&lights(), 0).unwrap();
    session.import_function(1).unwrap();
    session.import_function(1).unwrap();
    let image = finished(&mut session, false);
    let refused = plain::intake(&image).unwrap_err();
    let told = format!(
        "4: finish out.img: {} bytes, and the image is refused 5: a name is missing, or names, named numbers or \
         special keys are equal (word {}; rule: {})\n",
        image.len(),
        refused.at.unwrap(),
        refused.rule
    );
    let (status, out, err) = case.answer(&[]);
    assert_eq!((status, out.lines().count(), err.as_str()), (1, 4, ""));
    assert!(out.ends_with(&told), "{out}");
    let (status, out, _) = case.answer(&["--json"]);
    let told =
        format!("\"accepted\":true,\"output\":\"out.img\",\"bytes\":{},\"image_refusal\":5}}\n", image.len());
    assert_eq!((status, out.ends_with(&told)), (1, true), "{out}");
    assert_eq!(case.written("out.img"), Some(image));
}

#[test]
fn every_step_is_an_object() {
    let case = Case::new("json", REFUSED);
    let (status, out, _) = case.answer(&["--json"]);
    assert_eq!(status, 1);
    let plan = case.plan.to_str().unwrap();
    let begin = |line: u32, operation: &str| {
        let step = line - 1;
        format!("{{\"file\":\"{plan}\",\"line\":{line},\"step\":{step},\"operation\":\"{operation}\",\"accepted\":")
    };
    let no_source = "false,\"refusal\":20,\"sentence\":\"no source is set\"}";
    let number = "false,\"refusal\":13,\"sentence\":\"a number given by the caller lies outside its table\"}";
    let lines = [
        begin(1, "map_span") + no_source,
        begin(2, "finish_with_entry_points") + no_source,
        begin(3, "set") + "true}",
        begin(4, "import_function")
            + "false,\"refusal\":22,\"sentence\":\"functions of unknown name call one another in a ring\"}",
        begin(5, "set")
            + "false,\"refusal\":5,\"sentence\":\"a name is missing, or names, named numbers or special keys are \
               equal\",\"rule\":\"names are distinct\",\"word\":24,\"section\":\"names\",\"record\":1}",
        begin(6, "import_function") + number,
        begin(7, "set") + "true}",
        begin(8, "import_function") + number,
        begin(9, "rename_type") + number,
        begin(10, "import_function_if_new") + "true,\"function\":0}",
        begin(11, "finish") + &format!("true,\"output\":\"other.img\",\"bytes\":{}}}", fog().len()),
    ];
    assert_eq!(out.lines().collect::<Vec<_>>(), lines);

    let plan =
        "# empty\nset lights.img\nmap_span 5 9\nimport_type 0\nimport_const 0\nimport_pipeline_override 0\n\
                import_global 0\nimport_global_expression 0\nhas_required_special_types\nclear";
    let (status, out, _) = Case::new("json-answers", plan).answer(&["--json"]);
    assert_eq!(status, 0);
    let answers: Vec<&str> =
        out.lines().map(|line| line.split_once("\"accepted\":true").unwrap().1).collect();
    let told = [
        "}",
        ",\"start\":5,\"end\":9}",
        ",\"type\":1}",
        ",\"constant\":0}",
        ",\"override\":0}",
        ",\"global\":0}",
        ",\"global_expression\":0}",
        ",\"special_types\":true}",
        "}",
    ];
    assert_eq!(answers, told);
    assert!(out.contains(",\"line\":2,\"step\":0,"), "{out}");
}

#[test]
fn what_is_wrong_is_told_with_line_and_column() {
    let operation = "expected an operation (see wuldgisp session --help), found";
    let number = "below 4294967296";
    for (plan, told) in [
        // What is no step.
        ("clear\n  shade\n", format!("2:3: {operation} 'shade'")),
        ("\"clear\"", format!("1:1: {operation} the string \"clear\"")),
        ("clear set", "1:7: expected the end of the line, found 'set'".to_owned()),
        ("clear \"set\"", "1:7: expected the end of the line, found the string \"set\"".to_owned()),
        ("set", "1:4: expected a file, found the end of the line".to_owned()),
        ("set  # lights.img", "1:4: expected a file, found the end of the line".to_owned()),
        ("set lights.img 5", "1:16: expected 'offset', found '5'".to_owned()),
        ("set lights.img offset", format!("1:22: expected an offset, {number}, found the end of the line")),
        ("set lights.img offset -1", format!("1:23: expected an offset, {number}, found '-1'")),
        (
            "set lights.img offset 4294967296",
            format!("1:23: expected an offset, {number}, found '4294967296'"),
        ),
        ("map_span", format!("1:9: expected a start, {number}, found the end of the line")),
        ("map_span 1", format!("1:11: expected an end, {number}, found the end of the line")),
        ("map_span 1 +2", format!("1:12: expected an end, {number}, found '+2'")),
        ("map_span \"1\" 2", format!("1:10: expected a start, {number}, found the string \"1\"")),
        ("import_type", "1:12: expected the type's number or name, found the end of the line".to_owned()),
        ("rename_type 0 Lamp", "1:15: expected 'as', found 'Lamp'".to_owned()),
        ("rename_type 0 as", "1:17: expected a name or its number, found the end of the line".to_owned()),
        (
            "import_global_expression x",
            format!("1:26: expected the number of a global expression, {number}, found 'x'"),
        ),
        (
            "import_function 9lives",
            format!("1:17: '9lives' is no number {number}; a name like this stands between quotes"),
        ),
        ("import_function @x", "1:17: '@x' is no number of a name".to_owned()),
        ("import_function @-1", "1:17: '@-1' is no number of a name".to_owned()),
        ("finish", "1:7: expected a file, found the end of the line".to_owned()),
        ("finish a b", "1:10: expected the end of the line, found 'b'".to_owned()),
        ("finish_with_entry_points", "1:25: expected a file, found the end of the line".to_owned()),
        ("set \"lights", "1:12: expected a quote that ends the string, found the end of the line".to_owned()),
        (
            "set \"gr\u{fc}n\\n\"",
            "1:10: expected \\x and two digits, \\\" or \\\\ behind a backslash".to_owned(),
        ),
        ("se\u{1b}t", format!("1:1: {operation} 'se\\u{{1b}}t'")),
        // What is not there.
        ("import_function shade", "1:17: no source is set here to look a name up in".to_owned()),
        ("import_function @5", "1:17: no source is set here to look a name up in".to_owned()),
        (
            "set lights.img\nclear\nimport_type Light",
            "3:13: no source is set here to look a name up in".to_owned(),
        ),
        (
            "set lights.img\nfinish out.img\nimport_type Light",
            "3:13: no source is set here to look a name up in".to_owned(),
        ),
        (
            "set lights.img\n\n  import_function  tone # ?",
            "3:20: there is no name \"tone\" in lights.img".to_owned(),
        ),
        ("set lights.img\nrename_type 0 as tone", "2:18: there is no name \"tone\" in lights.img".to_owned()),
        (
            "set lights.img\nimport_type shade",
            "2:13: no type of lights.img bears the name \"shade\"".to_owned(),
        ),
        ("set lights.img\nimport_const @7", "2:14: no constant of lights.img bears name 7".to_owned()),
        ("set lights.img\nimport_global @99", "2:15: no global of lights.img bears name 99".to_owned()),
        (
            "set lights.img\nimport_type twice",
            "2:13: type 2 and type 3 of lights.img bear the name \"twice\": give a number".to_owned(),
        ),
        (
            "set lights.img\nset bad.img\nimport_function a",
            "3:17: bad.img is refused 5, and no name is looked up in it: give a number".to_owned(),
        ),
        ("finish out.img\nfinish ./out.img", "2:8: line 1 finishes ./out.img already".to_owned()),
        (
            "finish out.img\n\nset out.img",
            "3:5: line 1 finishes out.img, and only another plan can set it".to_owned(),
        ),
    ] {
        // What stands before it is not run.
        let case = Case::new("wrong", &format!("{plan}\nfinish other.img\n"));
        let (status, out, err) = case.answer(&[]);
        let told = format!("wuldgisp: {}:{told}\n", case.plan.display());
        assert_eq!((status, out.as_str(), err), (2, "", told), "{plan}");
        assert_eq!((case.written("out.img"), case.written("other.img")), (None, None), "{plan}");
    }
}

#[test]
fn any_text_has_an_answer() {
    let words = [
        "set",
        "lights.img",
        "bad.img",
        "offset",
        "5",
        "clear",
        "map_span",
        "4294967295",
        "import_type",
        "Light",
        "rename_type",
        "as",
        "Lamp",
        "@1",
        "@",
        "import_function",
        "shade",
        "\"fog\"",
        "\"",
        "\\",
        "#",
        "\u{fc}",
        "finish",
        "out.img",
        "has_required_special_types",
        "import_global_expression",
        "0x",
        "\n",
        "\n",
        "\r\n",
        "\t",
    ];
    let mut random = plain::random::Random::new(17);
    let mut statuses = [0; 3];
    for _ in 0..200 {
        let mut plan = "set lights.img\n".to_owned();
        for _ in 0..random.below(12) {
            plan += words[random.below(words.len())];
            plan += ["", " ", " ", "\n"][random.below(4)];
        }
        let (status, _, err) = Case::new("any", &plan).answer(&[]);
        statuses[status as usize] += 1;
        let lines = usize::from(status == 2);
        assert_eq!((err.contains("panicked"), err.lines().count()), (false, lines), "{plan}: {err}");
    }
    assert!(statuses[0] > 10 && statuses[2] > 50, "{statuses:?}");
}

#[test]
fn files_that_cannot_be_read_are_told() {
    let case = Case::new("unread", "clear\nset not-there.img\n");
    let path = case.folder.join("not-there.img");
    let (status, out, err) = case.answer(&["--quiet"]);
    let told = format!("wuldgisp: {}:2:5: {}: no such file\n", case.plan.display(), path.display());
    assert_eq!((status, out.as_str(), err), (2, "", told));
    let case = Case::new("unread", "set .\n");
    let told =
        format!("wuldgisp: {}:1:5: {}/.: it is a folder\n", case.plan.display(), case.folder.display());
    assert_eq!(case.answer(&[]), (2, String::new(), told));
    let (status, _, err) = answer(&["session"], b"clear\n\xff\n");
    assert_eq!((status, err.as_str()), (2, "wuldgisp: standard input: line 2: the text is no UTF-8\n"));
}

#[test]
fn names_of_a_source_that_the_session_refuses_are_not_taken() {
    let pairs = |keys: std::ops::Range<u32>| -> String {
        keys.map(|key| format!("pair key={key} type=0 ")).collect()
    };
    let full = |keys| {
        let text = format!(
            "wuldgisp-text 1 names {{ \"f\" \"g\" }} types {{ leaf leaf=Scalar copied=[2 4 0 0 0 0] }}\n\
             functions {{ function name=0 {{ body {{ }} }} function name=1 {{ body {{ }} }} }}\n\
             special_types {{ {} }}",
            pairs(keys)
        );
        plain::assemble(&text).unwrap()
    };
    file("session/full/first.img", &full(0..512));
    file("session/full/second.img", &full(512..513));
    let plan = "set first.img\nimport_function g\nset second.img\n";
    let case = Case::new("full", &format!("{plan}import_function f\nfinish out.img\n"));
    let (status, out, err) = case.answer(&[]);
    let told = format!(
        "wuldgisp: {}:4:17: second.img is refused 21, and no name is looked up in it: give a number\n",
        case.plan.display()
    );
    assert_eq!((status, out.as_str(), err), (2, "", told));
    assert_eq!(case.written("out.img"), None);
    // By its number it is a function of the source that is set.
    let case = Case::new("full", &format!("{plan}import_function 0\nfinish out.img\n"));
    let (status, out, _) = case.answer(&[]);
    assert_eq!(status, 1);
    let line =
        "3: set second.img: refused 21: the derived image would be too long, or a table of it too large\n\
                4: import_function 0: function 1\n";
    assert!(out.contains(line), "{out}");
}

#[test]
fn a_plan_is_read_from_standard_input() {
    let case = Case::new("standard", "");
    let image = case.folder.join("lights.img");
    let plan = format!("set {}\nimport_function fog\n", image.display());
    for words in [&["session"][..], &["session", "-"]] {
        let (status, out, err) = answer(words, plan.as_bytes());
        assert_eq!((status, err.as_str()), (0, ""));
        assert!(out.ends_with("2: import_function fog: function 0\n"), "{out}");
    }
    // Relative paths start at the current folder.
    let line =
        format!("cd {} && printf 'set lights.img\\nset nowhere' | $PROGRAM session", case.folder.display());
    let told = "wuldgisp: standard input:2:5: nowhere: no such file\n";
    assert_eq!(shell(&line), (2, String::new(), told.to_owned()));
    let (status, out, err) = case.answer(&[]);
    assert_eq!((status, out.as_str(), err.as_str()), (0, "", ""));
    let (status, _, err) = answer(&["session", case.folder.to_str().unwrap()], b"");
    assert_eq!((status, err), (2, format!("wuldgisp: {}: it is a folder\n", case.folder.display())));
}

#[test]
fn files_that_cannot_be_written_are_told() {
    let plan = "set lights.img\nimport_function fog\nfinish nowhere/out.img\nfinish other.img\n";
    let case = Case::new("unwritten", plan);
    let (status, out, err) = case.answer(&[]);
    let folder = case.folder.display();
    let told = format!(
        "wuldgisp: {folder}/plan.txt:3:8: {folder}/nowhere/out.img cannot be written: there is no folder \
         {folder}/nowhere\n"
    );
    assert_eq!((status, err), (2, told));
    let told =
        "1: set lights.img: accepted\n2: import_function fog: function 0\n4: finish other.img: 92 bytes\n";
    assert_eq!(out, told);
    assert!(case.written("other.img").is_some());
}

#[test]
fn files_are_written_before_anything_is_told() {
    let case = Case::new("untold", "set lights.img\nfinish out.img\n");
    let line = format!("$PROGRAM session {} >/dev/full", case.plan.display());
    let told = "wuldgisp: standard output: no space left\n";
    assert_eq!(shell(&line), (2, String::new(), told.to_owned()));
    assert!(case.written("out.img").is_some());
}

#[test]
fn a_source_may_be_overwritten() {
    let case = Case::new("overwritten", "set lights.img\nimport_function fog\nfinish lights.img\n");
    assert_eq!(case.answer(&["-q"]).0, 0);
    let first = case.written("lights.img").unwrap();
    assert!(first != lights());
    assert_eq!(case.answer(&["-q"]).0, 0);
    assert_eq!(case.written("lights.img"), Some(first));
}

#[test]
fn vectors_are_linked_by_plans() {
    let vectors = Path::new(env!("CARGO_MANIFEST_DIR")).join("../../vectors");
    let mut linked = 0;
    for entry in std::fs::read_dir(&vectors).unwrap().flatten() {
        let path = entry.path();
        if path.extension().is_none_or(|end| end != "linked") {
            continue;
        }
        let image = path.with_extension("img");
        let order = plain::order(&std::fs::read(&image).unwrap()).unwrap();
        let imports: String = order.iter().map(|number| format!("import_function {number}\n")).collect();
        let out = folder().join("session-linked.img");
        let (image, to) = (image.display(), out.display());
        let plan = format!("set \"{image}\"\n{imports}finish_with_entry_points \"{to}\"\n");
        assert_eq!(answer(&["session", "-q"], plan.as_bytes()), (0, String::new(), String::new()));
        assert!(std::fs::read(&out).unwrap() == std::fs::read(&path).unwrap(), "{}", path.display());
        linked += 1;
    }
    assert!(linked > 30, "{linked}");
}
