//! Links the benchmarks' library where it is built: the file that its variable names, or what `oracle/native` has put under
//! target/native. The machine's and the manager's are linked by crate `jhilkompa`, which tells whether they are there.

use std::path::{Path, PathBuf};
use std::{env, fs};

const FOLDER: &str = "target/native";
const BENCH_VARIABLE: &str = "JHIL_BENCH_LIB";
const BENCH_FILE: &str = "libbench_c.a";

fn main() {
    // Cargo looks at a folder again when a file is put there; one that is absent it cannot watch.
    fs::create_dir_all(FOLDER).expect("the target folder is writable");
    println!("cargo::rerun-if-changed={FOLDER}");
    set(
        "proved_machine",
        env::var_os("DEP_JHILKOMPA_MACHINE").is_some(),
    );
    set(
        "proved_segments",
        env::var_os("DEP_JHILKOMPA_SEGMENTS").is_some(),
    );
    set("proved_bench", link_bench().is_some());
}

fn set(cfg: &str, there: bool) {
    if there {
        println!("cargo::rustc-cfg={cfg}");
    }
}

/// Links the benchmarks' library, if it is there.
fn link_bench() -> Option<()> {
    println!("cargo::rerun-if-env-changed={BENCH_VARIABLE}");
    let own = || Path::new(FOLDER).join(BENCH_FILE);
    let file = env::var(BENCH_VARIABLE).map_or_else(|_| own(), PathBuf::from);
    let full = file.canonicalize().ok()?;
    println!("cargo::rerun-if-changed={}", full.display());
    let (folder, name) = (full.parent()?, full.file_name()?);
    println!("cargo::rustc-link-search=native={}", folder.display());
    println!("cargo::rustc-link-lib=static:+verbatim={}", name.display());
    Some(())
}
