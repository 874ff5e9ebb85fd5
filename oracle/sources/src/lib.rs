//! Where the kernel's sources are: the folder `MUFFIN_SRC` names (relative to the oracle's folder),
//! or `../../shared/docs/src`. Nothing is copied: the crates compile the files where they stand.

use std::env;
use std::path::{Path, PathBuf};

const VARIABLE: &str = "MUFFIN_SRC";
const DEFAULT: &str = "../../shared/docs/src";

/// The kernel source at `path`, seen from a build script whose crate lies directly in the oracle's
/// folder. Where it is absent the build ends with one line that says so.
#[must_use]
pub fn source(path: &str) -> Option<PathBuf> {
    println!("cargo::rerun-if-env-changed={VARIABLE}");
    let file = folder().join(path);
    println!("cargo::rerun-if-changed={}", file.display());
    if file.is_file() {
        return Some(
            file.canonicalize()
                .expect("a file that is there has a full path"),
        );
    }
    println!(
        "cargo::error=the kernel source {path} is not in {}: set {VARIABLE} to the folder that holds kernel/",
        folder().display()
    );
    None
}

fn folder() -> PathBuf {
    let crate_folder = env::var("CARGO_MANIFEST_DIR").expect("cargo names the crate's folder");
    let oracle = Path::new(&crate_folder)
        .parent()
        .expect("the crate lies in the oracle's folder");
    oracle.join(env::var(VARIABLE).unwrap_or_else(|_| DEFAULT.into()))
}
