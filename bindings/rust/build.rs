//! Finds the static library `libion_c.a` and has it linked: in the folder `LECHUQTA_LIB_DIR` if that is set, else in the repository's
//! `crates/ion_c/out`, where `rt lib` is asked to make it if it is not there.

use std::env;
use std::path::{Path, PathBuf};
use std::process::{exit, Command};

const ARCHIVE: &str = "libion_c.a";

fn fail(message: String) -> ! {
    eprintln!("lechuqta: {message}");
    exit(1)
}

/// The folder that holds the archive.
fn folder() -> PathBuf {
    let here = PathBuf::from(env::var_os("CARGO_MANIFEST_DIR").expect("cargo sets CARGO_MANIFEST_DIR"));
    if let Some(named) = env::var_os("LECHUQTA_LIB_DIR") {
        let folder = here.join(named);
        if !folder.join(ARCHIVE).is_file() {
            fail(format!("LECHUQTA_LIB_DIR is {}, and there is no {ARCHIVE} in it", folder.display()));
        }
        return folder;
    }
    let root = here.ancestors().nth(2).unwrap_or(Path::new("/"));
    let library = root.join("crates/ion_c");
    let folder = library.join("out");
    let archive = folder.join(ARCHIVE);
    if !archive.is_file() {
        let made = Command::new("rt").arg("lib").current_dir(library).status();
        let why = match made {
            Err(e) => format!("`rt` cannot be run: {e}"),
            Ok(status) if !status.success() => format!("`rt lib` in crates/ion_c failed ({status})"),
            Ok(_) => "`rt lib` in crates/ion_c did not make it".to_string(),
        };
        if !archive.is_file() {
            let place = archive.display();
            fail(format!(
                "there is no {place}, and {why}. Set LECHUQTA_LIB_DIR to a folder that has {ARCHIVE}, or see that `rt lib` in crates/ion_c makes it"
            ));
        }
    }
    folder
}

fn main() {
    println!("cargo:rerun-if-changed=build.rs");
    println!("cargo:rerun-if-env-changed=LECHUQTA_LIB_DIR");
    let target = |part| env::var(format!("CARGO_CFG_TARGET_{part}")).unwrap_or_default();
    if (target("ARCH").as_str(), target("OS").as_str()) != ("x86_64", "linux") {
        fail(format!("the static library is for x86-64 Linux, and the target is {} {}", target("ARCH"), target("OS")));
    }
    let folder = folder();
    println!("cargo:rerun-if-changed={}", folder.join(ARCHIVE).display());
    println!("cargo:rustc-link-search=native={}", folder.display());
    println!("cargo:rustc-link-lib=static=ion_c");
}
