//! Finds the proved archive `libwuldgisp.a` and links it.
//!
//! It stands where `tools/build.sh` writes it, in `target/staticlib` at the repository's root. The
//! environment variable WULDGISP_LIB names another folder, or another archive of that name, by an absolute path: a
//! build script runs in its package's folder and does not learn where cargo was started.

use std::path::{Path, PathBuf};

const ARCHIVE: &str = "libwuldgisp.a";

fn main() {
    println!("cargo::rerun-if-env-changed=WULDGISP_LIB");
    let folder = match folder() {
        Ok(folder) => folder,
        Err(message) => return println!("cargo::error={message}"),
    };
    let archive = folder.join(ARCHIVE);
    println!("cargo::rerun-if-changed={}", archive.display());
    if !archive.is_file() {
        println!(
            "cargo::error=there is no {ARCHIVE} in {}: run `tools/build.sh` at the root of the repository, \
             or set WULDGISP_LIB to the folder that holds it",
            folder.display()
        );
        return;
    }
    println!("cargo::metadata=FOLDER={}", folder.display());
    println!("cargo::rustc-link-search=native={}", folder.display());
    println!("cargo::rustc-link-lib=static=wuldgisp");
}

/// The folder of the archive.
fn folder() -> Result<PathBuf, String> {
    let Some(given) = std::env::var_os("WULDGISP_LIB").map(PathBuf::from) else {
        let root = Path::new(env!("CARGO_MANIFEST_DIR")).ancestors().nth(2);
        return Ok(root.ok_or("this package stands in no repository")?.join("target/staticlib"));
    };
    if given.is_relative() {
        let shown = given.display();
        return Err(format!(
            "WULDGISP_LIB is the relative path {shown}: give an absolute one, as $PWD/{shown}"
        ));
    }
    match given.file_name() {
        Some(name) if name == ARCHIVE => Ok(given.parent().unwrap_or(&given).to_path_buf()),
        _ => Ok(given),
    }
}
