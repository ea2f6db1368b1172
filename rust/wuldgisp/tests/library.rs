//! The library as a caller uses it: names and functions looked up, redirecting by name, a linker that is used again, and
//! what it depends on.

use std::path::Path;
use std::process::Command;

use wuldgisp::{Image, Linker, Refusal};

/// The images of the repository's vectors.
fn vectors() -> Vec<Vec<u8>> {
    let folder = Path::new(env!("CARGO_MANIFEST_DIR")).join("../../vectors");
    let paths = std::fs::read_dir(folder).unwrap().map(|entry| entry.unwrap().path());
    let images = paths.filter(|path| path.extension().is_some_and(|extension| extension == "img"));
    images.map(|path| std::fs::read(path).unwrap()).collect()
}

#[test]
fn names_are_those_of_the_plain_reading() {
    let mut accepted = 0;
    for bytes in vectors() {
        let Ok(image) = Image::new(&bytes) else { continue };
        let module = plain::admit(&bytes).unwrap();
        let names: Vec<&[u8]> = module.names.iter().map(|name| name.bytes.as_slice()).collect();
        assert_eq!(image.names().collect::<Vec<_>>(), names);
        for (own, name) in names.iter().enumerate() {
            assert_eq!(image.name_number(name), Some(own as u32));
        }
        let borne = module.functions.iter().map(|function| names[function.name.optional().unwrap() as usize]);
        let borne: Vec<&[u8]> = borne.collect();
        assert_eq!(image.functions().collect::<Vec<_>>(), borne);
        for (own, name) in borne.iter().enumerate() {
            assert_eq!(image.function(name), Some(own as u32));
        }
        assert_eq!(image.name(names.len() as u32), None);
        assert_eq!(image.function_name(u32::MAX), None);
        assert_eq!(image.function("no such name anywhere"), None);
        accepted += 1;
    }
    assert!(accepted > 40);
}

#[test]
fn redirecting_by_name_is_redirecting_by_number() {
    let text = r#"wuldgisp-text 1
    names { "colour" "shade" "tone" "fog" }
    functions {
      function name=1 { body { Call function=2 arguments=[] } }
      function name=2 { body { } }
      function name=3 { body { Call function=1 arguments=[] } }
    }
    special_types { }"#;
    let image = plain::assemble(text).unwrap();
    let by_name = |original, replacement, omit: &[&str]| {
        let mut changed = image.clone();
        let answer = wuldgisp::redirect_by_name(&mut changed, original, replacement, omit);
        assert!(answer.is_ok() || changed == image, "a refusal changes nothing");
        answer.map(|_| changed)
    };
    let by_number = |original, replacement, omit: &[u32]| {
        let mut changed = image.clone();
        wuldgisp::redirect(&mut changed, original, replacement, omit).map(|_| changed)
    };
    assert_eq!(by_name("fog", "tone", &[]), by_number(3, 2, &[]));
    assert_eq!(by_name("fog", "tone", &["shade", "colour", "mist"]), by_number(3, 2, &[1]));
    assert_eq!(by_name("mist", "nowhere", &[]), Err(Refusal::OriginalNotFound));
    assert_eq!(by_name("colour", "mist", &[]), Err(Refusal::OriginalNotFound));
    assert_eq!(by_name("fog", "colour", &[]), Err(Refusal::ReplacementNotFound));
    assert_eq!(wuldgisp::redirect_by_name(&mut [], "a", "b", &[]), Err(Refusal::Size));
}

#[test]
fn a_linker_that_is_used_again_links_as_link_does() {
    let mut linker = Linker::new();
    let (mut linked, mut refused) = (0, 0);
    for image in vectors() {
        let expected = wuldgisp::link(&image);
        assert_eq!(linker.link(&image), expected);
        // Bytes behind the linked image stay, and all where it is refused.
        let mut output = vec![0xa5; image.len() + 9];
        let answer = linker.link_into(&image, &mut output);
        assert_eq!(answer, expected.as_ref().map(Vec::len).map_err(|refusal| *refusal));
        let written = expected.unwrap_or_default();
        assert_eq!(output[..written.len()], written);
        assert!(output[written.len()..].iter().all(|byte| *byte == 0xa5));
        match answer {
            Ok(_) => linked += 1,
            Err(_) => refused += 1,
        }
    }
    assert!(linked > 40 && refused > 40, "{linked} linked, {refused} refused");
}

#[test]
fn a_linker_leaves_an_output_that_is_too_short() {
    let image = plain::assemble("wuldgisp-text 1 names { \"tone\" } special_types { }").unwrap();
    let mut linker = Linker::default();
    let mut output = vec![0xa5; image.len() - 1];
    assert_eq!(linker.link_into(&image, &mut output), Err(Refusal::Output));
    assert!(output.iter().all(|byte| *byte == 0xa5));
    assert_eq!(linker.link(&image), wuldgisp::link(&image));
}

#[test]
fn the_library_depends_on_its_sys_crate_alone() {
    let manifest = concat!(env!("CARGO_MANIFEST_DIR"), "/Cargo.toml");
    let output = Command::new(env!("CARGO"))
        .args([
            "tree",
            "--offline",
            "--edges=normal",
            "--prefix=none",
            "--format={p}",
            "--manifest-path",
            manifest,
        ])
        .output()
        .unwrap();
    let tree = String::from_utf8_lossy(&output.stdout).into_owned();
    let packages: Vec<&str> = tree.lines().filter_map(|line| line.split(' ').next()).collect();
    assert_eq!(packages, ["wuldgisp", "wuldgisp-sys"]);
}
