//! Links the proved libraries: for each the file that its variable names, or what `oracle/native` has put under oracle/target/native,
//! or what it builds now, for which the crates must be proved first, or it takes long.

use std::path::{Path, PathBuf};
use std::process::Command;
use std::{env, fs};

/// The oracle, seen from this folder: its `native` builds a library of a proved crate.
const ORACLE: &str = "../oracle";

struct Library {
    variable: &'static str,
    /// The crate of the library, whose file is `libNAME.a`.
    name: &'static str,
    /// What is set, and what dependents are told, where the library is there.
    cfg: &'static str,
    key: &'static str,
}

const LIBRARIES: [Library; 2] = [
    Library {
        variable: "JHIL_MACHINE_LIB",
        name: "machine_c",
        cfg: "has_machine",
        key: "MACHINE",
    },
    Library {
        variable: "JHIL_SEGMENTS_LIB",
        name: "segments_c",
        cfg: "has_segments",
        key: "SEGMENTS",
    },
];

fn main() {
    let required = env::var_os("CARGO_FEATURE_REQUIRED").is_some();
    let missing: Vec<String> = LIBRARIES
        .iter()
        .filter_map(|library| link(library, required).err())
        .collect();
    if required {
        for what in missing {
            println!("cargo::error={what}");
        }
    }
}

/// Links the library, or says what is missing.
fn link(library: &Library, build: bool) -> Result<(), String> {
    let file = find(library, build)?;
    println!("cargo::rerun-if-changed={}", file.display());
    let (folder, name) = (
        file.parent().unwrap_or(&file),
        file.file_name().unwrap_or_default(),
    );
    println!("cargo::rustc-link-search=native={}", folder.display());
    println!("cargo::rustc-link-lib=static:+verbatim={}", name.display());
    println!("cargo::rustc-cfg={}", library.cfg);
    println!("cargo::metadata={}=1", library.key);
    Ok(())
}

fn find(library: &Library, build: bool) -> Result<PathBuf, String> {
    println!("cargo::rerun-if-env-changed={}", library.variable);
    if let Some(named) = env::var_os(library.variable) {
        let named = Path::new(&named);
        return named.canonicalize().map_err(|_| {
            format!(
                "{} names {}, which is not there",
                library.variable,
                named.display()
            )
        });
    }
    let folder = Path::new(ORACLE).join("target/native");
    // Cargo looks at a folder again when a file is put there; one that is absent it cannot watch.
    if fs::create_dir_all(&folder).is_ok() {
        println!("cargo::rerun-if-changed={}", folder.display());
    }
    let file = format!("lib{}.a", library.name);
    if let Ok(found) = folder.join(&file).canonicalize() {
        return Ok(found);
    }
    if !build {
        return Err(format!("{file} is not there"));
    }
    let out = PathBuf::from(env::var_os("OUT_DIR").unwrap_or_default()).join(&file);
    native(library, &out)?;
    Ok(out)
}

/// Has `oracle/native` build the library, as `oracle/compare` does.
fn native(library: &Library, out: &Path) -> Result<(), String> {
    let Library { variable, name, .. } = library;
    let script = Path::new(ORACLE).join("native");
    let ran = Command::new(&script).arg(name).arg(out).output();
    let why = match ran {
        Ok(output) if output.status.success() => return Ok(()),
        Ok(output) => String::from_utf8_lossy(&output.stderr).trim().to_owned(),
        Err(error) => format!("{}: {error}", script.display()),
    };
    let why = why
        .lines()
        .next()
        .unwrap_or("it does not say why")
        .to_owned();
    Err(format!(
        "lib{name}.a is not there and cannot be built ({why}): name it by {variable}, or have `rt` on the path and run `rt lib` in crates/{name}"
    ))
}
