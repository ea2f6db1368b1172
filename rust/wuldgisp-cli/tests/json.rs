//! Answers as JSON: an object on a line for each image.

mod tool;

use std::path::{Path, PathBuf};

use plain::generate::{generate, Options};
use plain::random::Random;
use tool::*;

#[test]
fn check_answers_with_objects() {
    let (status, out, _) = answer(&["check", "--json"], &shade());
    assert_eq!((status, out.as_str()), (0, "{\"file\":\"-\",\"accepted\":true}\n"));
    let bad = plain::assemble(&SHADE.replace("function=2", "function=3")).unwrap();
    let (status, out, _) = answer(&["check", "--json"], &bad);
    let object = "{\"file\":\"-\",\"accepted\":false,\"refusal\":3,\"sentence\":\"a number or a code is out of range, \
                  or a kind stands where it is barred\",\"rule\":\"a function's number is below the count of \
                  functions\",\"word\":49,\"section\":\"functions\",\"record\":0}\n";
    assert_eq!((status, out.as_str()), (1, object));
    let (_, out, _) = answer(&["check", "--json"], b"");
    assert!(out.ends_with("\"word\":null,\"section\":null,\"record\":null}\n"), "{out}");
    let (status, out, _) = answer(&["check", "--json", "--rings"], &ring());
    let object = "{\"file\":\"-\",\"accepted\":false,\"refusal\":12,\"sentence\":\"functions call one another in a \
                  ring\",\"left\":3,\"functions_left\":[{\"function\":0,\"name\":\"shade\"},{\"function\":1,\
                  \"name\":\"tone\"},{\"function\":2,\"name\":\"fog\"}],\"ring\":[{\"function\":0,\"name\":\"shade\"},\
                  {\"function\":2,\"name\":\"fog\"},{\"function\":1,\"name\":\"tone\"}]}\n";
    assert_eq!((status, out.as_str()), (1, object));
}

#[test]
fn order_answers_with_objects() {
    let named = SHADE.replace("name=1 {", "name=3 {");
    let image = file("json \"order\".img", &plain::assemble(&named).unwrap());
    let name = image.to_str().unwrap();
    let (status, out, _) = answer(&["order", "--json", name, name], b"");
    let object = format!(
        "{{\"file\":\"{}\",\"accepted\":true,\"functions\":[{{\"new\":0,\"source\":1,\"name\":{{\"hex\":\"6e6ffe\"}}}},\
         {{\"new\":1,\"source\":2,\"name\":\"fog\"}},{{\"new\":2,\"source\":0,\"name\":\"shade\"}}]}}\n",
        name.replace('"', "\\\"")
    );
    assert_eq!((status, out), (0, object.clone() + &object));
    let (status, out, err) = answer(&["order", "--json"], &ring());
    assert_eq!((status, err.as_str()), (1, ""));
    assert!(out.contains("\"refusal\":12,") && out.contains("\"ring\":[{"), "{out}");
}

#[test]
fn inspect_answers_with_all_of_an_image() {
    let text = r#"wuldgisp-text 1
names { "f" "colour" }
types { leaf name=1 leaf=Vector copied=[1 2 4 0 0 0] }
functions { function name=0 {
  argument type=0
  local name=1 type=0 init=1
  expressions { Literal code=F32 low=1065353216 high=0 Splat size=Tri value=0
    ImageQuery image=0 query=Size(1) }
  named { expression number=1 name=1 }
  body { If condition=0 { Return } else { Switch selector=0 { case U32(3) { Break } fall_through=1 } } }
} }
special_types { pair key=5 type=0 }
"#;
    let (status, out, _) = answer(&["inspect", "--json"], &plain::assemble(text).unwrap());
    assert_eq!(status, 0);
    for part in [
        "\"complete\":true",
        "{\"name\":\"types\",\"count\":1,\"start\":27,\"end\":39}",
        "\"names\":[\"f\",\"colour\"]",
        "\"types\":[{\"name\":1,\"span\":[0,0],\"kind\":\"leaf\",\"leaf\":\"Vector\",\"copied\":[1,2,4,0,0,0]}]",
        "{\"kind\":\"Literal\",\"span\":[0,0],\"code\":\"F32\",\"low\":1065353216,\"high\":0,\"value\":\"1.0f\"}",
        "{\"kind\":\"Splat\",\"span\":[0,0],\"size\":\"Tri\",\"value\":0}",
        "\"query\":{\"kind\":\"Size\",\"level\":1}",
        "\"result\":null",
        "\"named\":[{\"expression\":1,\"name\":1}]",
        "\"cases\":[{\"value\":{\"kind\":\"U32\",\"value\":3},\"body\":[{\"kind\":\"Break\",\"span\":[0,0]}],\"fall_through\":1}]",
        "\"special_types\":{\"ray_desc\":null,\"ray_intersection\":null,\"ray_vertex_return\":null,\"pairs\":[{\"key\":5,\"type\":0}]}",
        "\"order\":[0]",
    ] {
        assert!(out.contains(part), "no {part} in {out}");
    }
    let (status, out, _) =
        answer(&["inspect", "--json"], &plain::assemble(&text.replace("name=0 {", "{")).unwrap());
    assert_eq!(status, 1);
    assert!(out.contains("\"refusal\":5,") && out.contains("\"order\":null}"), "{out}");
}

/// A folder of images that were generated and then damaged.
fn damaged() -> PathBuf {
    let mut random = Random::new(19);
    for own in 0..200 {
        let module = generate(&mut random, Options::small());
        let (_, image) = plain::mutate::mutate(&mut random, &module);
        file(&format!("damaged/{own}.img"), &image);
    }
    folder().join("damaged")
}

#[test]
fn every_answer_is_json() {
    if std::process::Command::new("python3").arg("-V").output().is_err() {
        return;
    }
    let vectors = Path::new(env!("CARGO_MANIFEST_DIR")).join("../../vectors");
    let link = format!("link --folder {}", folder().join("json-linked").display());
    for folder in [vectors, damaged()] {
        let images = std::fs::read_dir(&folder).unwrap().flatten();
        let images = images.filter(|entry| entry.path().extension().is_some_and(|end| end == "img")).count();
        for command in ["check --rings", "order", &link, "inspect"] {
            let line = format!(
                "$PROGRAM {command} --json {} | \
                 python3 -c 'import json, sys; print(len([json.loads(line) for line in sys.stdin]))'",
                folder.display()
            );
            let (_, out, err) = shell(&line);
            assert_eq!((out, err), (format!("{images}\n"), String::new()), "{command}");
        }
    }
}
