//! Streams that fail: closed, full, or a folder. What is lost is told, and the exit status is 2.

mod tool;

use tool::*;

#[test]
fn lost_output_is_told() {
    let text = folder().join("streams.txt");
    std::fs::write(&text, SHADE).unwrap();
    let assemble = format!("assemble {}", text.display());
    let plan = folder().join("streams-plan.txt");
    std::fs::write(&plan, "clear\n").unwrap();
    let session = format!("session {}", plan.display());
    for command in [
        "check $IMAGE",
        "order $IMAGE",
        "inspect $IMAGE",
        "redirect --original=fog --replacement=tone $IMAGE",
        "link $IMAGE",
        &assemble,
        &session,
        "--help",
    ] {
        let (status, _, err) = shell(&format!("$PROGRAM {command} >/dev/full"));
        assert_eq!((status, err.as_str()), (2, "wuldgisp: standard output: no space left\n"), "{command}");
        let (status, _, err) = shell(&format!("$PROGRAM {command} >&-"));
        assert_eq!((status, err.as_str()), (2, "wuldgisp: standard output: it is closed\n"), "{command}");
    }
    for command in ["redirect --original=fog --replacement=tone", "link"] {
        let (status, out, err) = shell(&format!("$PROGRAM {command} -o /dev/full $IMAGE"));
        assert_eq!((status, out.as_str()), (2, ""), "{command}");
        assert!(err.ends_with("/dev/full cannot be written: no space left\n"), "{err}");
    }
}

#[test]
fn lost_input_is_told() {
    for command in ["check", "order", "link", "inspect", "assemble", "session"] {
        let (status, out, err) = shell(&format!("$PROGRAM {command} <&-"));
        assert_eq!((status, out.as_str(), err.as_str()), (2, "", "wuldgisp: standard input: it is closed\n"));
        let (status, out, err) = shell(&format!("$PROGRAM {command} < ."));
        assert_eq!(
            (status, out.as_str(), err.as_str()),
            (2, "", "wuldgisp: standard input: it is a folder\n")
        );
    }
}

#[test]
fn a_full_standard_error_is_no_panic() {
    assert_eq!(shell("$PROGRAM check not-there.img 2>/dev/full").0, 2);
    assert_eq!(shell("$PROGRAM nonsense 2>/dev/full").0, 2);
    assert_eq!(shell("$PROGRAM redirect --original=@9 --replacement=tone $IMAGE 2>/dev/full").0, 2);
    assert_eq!(shell("$PROGRAM check $IMAGE >/dev/full 2>&1").0, 2);
    assert_eq!(shell("$PROGRAM check $IMAGE 2>&-").0, 0);
}

#[test]
fn a_reader_that_leaves_is_no_error() {
    let (_, _, err) = shell("$PROGRAM inspect $IMAGE $IMAGE $IMAGE | head -n 1");
    assert_eq!(err, "");
}
