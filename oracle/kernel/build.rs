//! Tells the compiler where the kernel's mem.rs, virt.rs and mapper.rs stand.

const SOURCES: [(&str, &str); 3] = [
    ("MEM_RS", "kernel/boot/src/mcore/mtask/process/mem.rs"),
    ("VIRT_RS", "kernel/boot/src/mem/virt.rs"),
    ("MAPPER_RS", "kernel/boot/src/mem/address_space/mapper.rs"),
];

fn main() {
    for (name, path) in SOURCES {
        let Some(file) = sources::source(path) else {
            return;
        };
        println!("cargo::rustc-env={name}={}", file.display());
    }
}
