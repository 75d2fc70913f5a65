//! Lays out the source tree that the oracle is compiled from:
//!   * the files of ion-rust in the folder ION_RUST_FILES, copied to their own paths with the few patches below;
//!   * the stand-ins in standins/ at the paths of its other files.
//! The tree is made in OUT_DIR, so the repository holds no copy of ion-rust's code.

use std::path::{Path, PathBuf};
use std::process::exit;
use std::{env, fs};

/// The files of ion-rust that are compiled: what writes text, and the values that it writes.
const FILES: &[&str] = &[
    "src/text/text_formatter.rs",
    "src/text/whitespace_config.rs",
    "src/lazy/encoder/text/v1_0/writer.rs",
    "src/lazy/encoder/text/v1_0/value_writer.rs",
    "src/lazy/encoder/write_as_ion.rs",
    "src/raw_symbol_ref.rs",
    "src/types/timestamp.rs",
    "src/types/decimal/mod.rs",
    "src/types/overflowing_int.rs",
    "src/types/struct.rs",
    "src/types/lob.rs",
    "src/types/null.rs",
    "src/element/mod.rs",
    "src/result/mod.rs",
];

/// One replacement; `old` must occur exactly `times` times.
struct Patch {
    file: &'static str,
    old: &'static str,
    new: &'static str,
    times: usize,
}

/// Everything from `from` up to (not including) `to` is cut out.
struct Cut {
    file: &'static str,
    from: &'static str,
    to: &'static str,
}

const PATCHES: &[Patch] = &[
    // `thiserror`'s derive is a procedural macro; the impls it makes (Display, Error, From) are
    // written out in standins/src/result/derived.rs. Errors never reach the text.
    Patch { file: "src/result/mod.rs", old: "use thiserror::Error;\n", new: "", times: 1 },
    Patch { file: "src/result/mod.rs", old: "#[derive(Clone, Debug, Error, PartialEq)]", new: "#[derive(Clone, Debug, PartialEq)]", times: 1 },
    Patch { file: "src/result/mod.rs", old: "    #[error(\"{0}\")]\n", new: "", times: 6 },
    Patch { file: "src/result/mod.rs", old: "    #[error(transparent)]\n", new: "", times: 1 },
    Patch { file: "src/result/mod.rs", old: "(#[from] ", new: "(", times: 7 },
    Patch { file: "src/result/mod.rs", old: "mod application_error;\n", new: "mod application_error;\nmod derived;\n", times: 1 },
    // The imports of the reader types whose impls are cut out below.
    Patch { file: "src/lazy/encoder/write_as_ion.rs", old: "use crate::lazy::decoder::Decoder;\n", new: "", times: 1 },
    Patch { file: "src/lazy/encoder/write_as_ion.rs", old: "use crate::lazy::encoder::annotation_seq::AnnotationsVec;\n", new: "", times: 1 },
    Patch { file: "src/lazy/encoder/write_as_ion.rs", old: "use crate::lazy::value::LazyValue;\nuse crate::lazy::value_ref::ValueRef;\nuse crate::v1_0::RawValueRef;\n", new: "", times: 1 },
    Patch { file: "src/lazy/encoder/write_as_ion.rs", old: "LazyList, LazyRawFieldExpr,\n    LazyRawFieldName, LazyRawSequence, LazyRawStruct, LazyRawValue, LazySExp, LazyStruct, Null,", new: "Null,", times: 1 },
];

const CUTS: &[Cut] = &[
    // `WriteAsIon` for values that a reader is standing on.
    Cut {
        file: "src/lazy/encoder/write_as_ion.rs",
        from: "impl<D: Decoder> WriteAsIon for LazyValue<'_, D> {",
        to: "impl<T: WriteAsIon> WriteAsIon for Option<T> {",
    },
];

fn main() {
    let manifest = PathBuf::from(env::var_os("CARGO_MANIFEST_DIR").unwrap());
    let out = PathBuf::from(env::var_os("OUT_DIR").unwrap());
    println!("cargo:rerun-if-env-changed=ION_RUST_FILES");
    println!("cargo:rerun-if-changed=build.rs");
    let folder = match env::var_os("ION_RUST_FILES") {
        Some(folder) if !folder.is_empty() => PathBuf::from(folder),
        _ => fail("set ION_RUST_FILES to a folder with the files of ion-rust 34e2835fb3".into()),
    };

    let ion = out.join("ion");
    let _ = fs::remove_dir_all(&ion);

    for path in FILES {
        // In a checkout under its own path; alone under a name that has the path in it.
        let alone = folder.join(format!("src--{}.txt", path.replace('/', "--")));
        let file = if alone.is_file() { alone } else { folder.join(path) };
        println!("cargo:rerun-if-changed={}", file.display());
        let mut text = fs::read_to_string(&file)
            .unwrap_or_else(|e| fail(format!("{}: {e}: ION_RUST_FILES must have the files of ion-rust 34e2835fb3", file.display())));
        for cut in CUTS.iter().filter(|c| c.file == *path) {
            assert_eq!(text.matches(cut.from).count(), 1, "{path}: {:?}", cut.from);
            assert_eq!(text.matches(cut.to).count(), 1, "{path}: {:?}", cut.to);
            let (start, end) = (text.find(cut.from).unwrap(), text.find(cut.to).unwrap());
            assert!(start < end);
            text.replace_range(start..end, "");
        }
        for patch in PATCHES.iter().filter(|p| p.file == *path) {
            assert_eq!(text.matches(patch.old).count(), patch.times, "{path}: {:?}", patch.old);
            text = text.replace(patch.old, patch.new);
        }
        write(&ion.join(path), &text);
    }
    copy_tree(&manifest.join("standins"), &ion);
    // The modules of the crate root. `include!`d into main.rs so that `crate::` means what it
    // means in ion-rust.
    let mut root = String::new();
    for (name, file) in [
        ("element", "element/mod.rs"),
        ("ion_data", "ion_data.rs"),
        ("lazy", "lazy/mod.rs"),
        ("location", "location.rs"),
        ("position", "position.rs"),
        ("raw_symbol_ref", "raw_symbol_ref.rs"),
        ("result", "result/mod.rs"),
        ("symbol_ref", "symbol_ref.rs"),
        ("text", "text/mod.rs"),
        ("types", "types/mod.rs"),
        ("write_config", "write_config.rs"),
    ] {
        let path = ion.join("src").join(file);
        root.push_str(&format!("#[path = {:?}]\npub mod {name};\n", path.display().to_string()));
    }
    write(&out.join("ion_root.rs"), &root);
}

fn fail(message: String) -> ! {
    eprintln!("oracle: {message}");
    exit(1)
}

fn write(path: &Path, text: &str) {
    fs::create_dir_all(path.parent().unwrap()).unwrap();
    fs::write(path, text).unwrap_or_else(|e| panic!("{}: {e}", path.display()));
}

fn copy_tree(from: &Path, to: &Path) {
    println!("cargo:rerun-if-changed={}", from.display());
    for entry in fs::read_dir(from).unwrap() {
        let entry = entry.unwrap();
        let (source, target) = (entry.path(), to.join(entry.file_name()));
        if source.is_dir() {
            copy_tree(&source, &target);
        } else {
            println!("cargo:rerun-if-changed={}", source.display());
            assert!(!target.exists(), "a stand-in for a file that is compiled: {}", target.display());
            write(&target, &fs::read_to_string(&source).unwrap());
        }
    }
}
