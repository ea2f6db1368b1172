//! The marked cases P1 to P12 of `docs/RULES.md`, in the text form, asked of the archive and of the plain reading.

use compare::archive;
use plain::steps::{operation, ANSWER};

/// Functions without arguments or results that call one another: each a name and the numbers that it calls.
fn functions(all: &[(&str, &[u32])]) -> Vec<u8> {
    let names: String = all.iter().map(|(name, _)| format!("\"{name}\" ")).collect();
    let mut text = format!("wuldgisp-text 1\nnames {{ {names} }}\n");
    if !all.is_empty() {
        text += "functions {\n";
        for (own, (_, callees)) in all.iter().enumerate() {
            let calls: String =
                callees.iter().map(|callee| format!("Call function={callee} arguments=[] ")).collect();
            text += &format!("function name={own} {{ body {{ {calls} }} }}\n");
        }
        text += "}\n";
    }
    plain::assemble(&(text + "special_types { }\n")).unwrap()
}

/// The order that both give, or the count that is left.
fn order(image: &[u8]) -> Result<Vec<u32>, u32> {
    let archive = wuldgisp::order(image).map_err(|refusal| match refusal {
        wuldgisp::Refusal::Ring { left } => left,
        other => panic!("{other}"),
    });
    assert_eq!(archive, plain::order(image).map_err(|refused| refused.left));
    archive
}

/// The image behind a redirect of name `original` to name `replacement`, as both make it.
fn redirected(image: &[u8], original: u32, replacement: u32) -> Vec<u8> {
    let (mut archive, mut expected) = (image.to_vec(), image.to_vec());
    wuldgisp::redirect(&mut archive, original, replacement, &[]).unwrap();
    plain::redirect(&mut expected, original, replacement, &[]).unwrap();
    assert_eq!(archive, expected);
    archive
}

/// The linked image, as both make it.
fn linked(image: &[u8]) -> Vec<u8> {
    let (mut archive, mut expected) = (vec![0; image.len()], vec![0; image.len()]);
    let answer = archive::link(image, &mut archive);
    assert_eq!(answer, plain::link::answer(plain::link(image, &mut expected)));
    assert_eq!(answer as u32, 0);
    assert_eq!(archive, expected);
    archive.truncate((answer >> 32) as usize);
    archive
}

/// A span of a source with this offset, as both map it.
fn mapped(offset: u32, start: u32, end: u32) -> (u32, u32) {
    let source = functions(&[]);
    let steps = [operation::SET, 0, source.len() as u32, offset, operation::MAP_SPAN, start, end, 0];
    let (mut archive, mut expected) = ([0; 2 * ANSWER], [0; 2 * ANSWER]);
    assert_eq!(archive::session(&source, &steps, &mut archive, &mut []), 0);
    assert_eq!(plain::steps::run(&source, &steps, &mut expected, &mut []), 0);
    assert_eq!(archive, expected);
    (archive[ANSWER + 1], archive[ANSWER + 2])
}

#[test]
fn p1_to_p4_map_spans() {
    assert_eq!(mapped(10, 0, 0), (0, 0));
    assert_eq!(mapped(10, 0, 4), (10, 14));
    assert_eq!(mapped(4_294_967_290, 5, 9), (4_294_967_295, 3));
    assert_eq!(mapped(4_294_967_290, 6, 6), (0, 0));
}

/// P6: shade calls fog; tone; fog calls tone.
fn p6() -> Vec<u8> {
    functions(&[("shade", &[2]), ("tone", &[]), ("fog", &[1])])
}

#[test]
fn p5_and_p6_are_ordered_by_rank() {
    assert_eq!(order(&functions(&[("a", &[1]), ("b", &[]), ("c", &[])])), Ok(vec![1, 2, 0]));
    assert_eq!(order(&p6()), Ok(vec![1, 2, 0]));
}

#[test]
fn p7_and_p8_redirect_p6() {
    assert_eq!(order(&redirected(&p6(), 2, 1)), Ok(vec![1, 0, 2]));
    assert_eq!(order(&redirected(&p6(), 1, 0)), Err(2));
}

#[test]
fn p9_is_a_ring_and_p12_is_empty() {
    assert_eq!(order(&functions(&[("self", &[0])])), Err(1));
    assert_eq!(order(&functions(&[])), Ok(Vec::new()));
    assert_eq!(linked(&functions(&[])), functions(&[]));
}

/// An image of one function, with type 0 if it has locals.
fn function(locals: &str, expressions: &str, body: &str) -> Vec<u8> {
    let types = if locals.is_empty() { "" } else { "types { leaf leaf=0 }" };
    let text = format!(
        "wuldgisp-text 1 names {{ \"f\" }} {types} functions {{ function name=0 {{ {locals} \
         expressions {{ {expressions} }} body {{ {body} }} }} }} special_types {{ }}"
    );
    plain::assemble(&text).unwrap()
}

fn literal(low: u32) -> String {
    format!("Literal code=F32 low={low} high=0 ")
}

fn binary(left: u32, right: u32) -> String {
    format!("Binary op=Add left={left} right={right} ")
}

#[test]
fn p10_and_p11_number_expressions_anew() {
    let p10 = literal(2) + &literal(0) + &literal(1) + &binary(1, 2) + &binary(3, 0);
    let p10 = function("", &p10, "Emit start=3 end=5");
    let expected = literal(0) + &literal(1) + &literal(2) + &binary(0, 1) + &binary(3, 2);
    assert_eq!(linked(&p10), function("", &expected, "Emit start=3 end=5"));

    let expressions = literal(0) + "Splat size=Bi value=0";
    let p11 = function("local type=0 init=1", &expressions, "Emit start=1 end=2");
    assert_eq!(linked(&p11), function("local type=0 init=1", &expressions, "Emit start=2 end=2"));
}
