//! How the build script finds the archive: cargo is run once more, on this package alone, with WULDGISP_LIB set.

use std::path::{Path, PathBuf};
use std::process::Command;

/// Whether a build with this WULDGISP_LIB works, and what cargo says.
fn build(lib: &Path) -> (bool, String) {
    let target = PathBuf::from(env!("CARGO_TARGET_TMPDIR")).join("archive");
    let output = Command::new(env!("CARGO"))
        .args(["check", "--offline", "--manifest-path", concat!(env!("CARGO_MANIFEST_DIR"), "/Cargo.toml")])
        .env("CARGO_TARGET_DIR", target)
        .env("WULDGISP_LIB", lib)
        .output()
        .unwrap();
    (output.status.success(), String::from_utf8_lossy(&output.stderr).into_owned())
}

#[test]
fn the_archive_is_found_or_its_absence_told() {
    let (works, said) = build(Path::new("target/staticlib"));
    assert!(!works);
    assert!(
        said.contains("WULDGISP_LIB is the relative path target/staticlib: give an absolute one"),
        "{said}"
    );

    let (works, said) = build(Path::new("/no/such/folder"));
    assert!(!works);
    assert!(
        said.contains("there is no libwuldgisp.a in /no/such/folder: run `tools/build.sh`"),
        "{said}"
    );

    let folder = PathBuf::from(env!("CARGO_TARGET_TMPDIR")).join("lib");
    std::fs::create_dir_all(&folder).unwrap();
    std::fs::write(folder.join("libwuldgisp.a"), b"!<arch>\n").unwrap();
    assert!(build(&folder).0, "the folder is given");
    assert!(build(&folder.join("libwuldgisp.a")).0, "the archive itself is given");
}
