//! Points the compiler at the kernel's lib.rs, whose `mod segment` it finds beside it.

use std::path::Path;
use std::{env, fs};

fn main() {
    let Some(library) = sources::source("kernel/virtual_memory/src/lib.rs") else {
        return;
    };
    let Some(_) = sources::source("kernel/virtual_memory/src/segment.rs") else {
        return;
    };
    let out = env::var("OUT_DIR").expect("cargo names the output folder");
    let module = format!("#[path = {library:?}]\n#[allow(unused_attributes)]\nmod unchanged;\n");
    fs::write(Path::new(&out).join("unchanged.rs"), module).expect("the output folder is writable");
}
