//! The oracle's command line.

mod commands;

use std::process::ExitCode;

const USAGE: &str = "usage:
  oracle script [--unguarded] FILE|-              answers a script of calls
  oracle generate SEED CALLS [manager|machine]    writes a random script
  oracle compare [--calls N] [SECOND] SEED..      compares the Rust with a second answerer:
      the proved manager that is linked, or --plain-manager, --wrong-manager,
      --proved-machine, --plain-machine, --wrong-machine
  oracle short [SECOND]                           compares managers on all short sequences
  oracle check [--calls N] SEED..                 runs the machine: no panic, rules R1 to R6 kept
  oracle panics [--calls N] SEED..                finds the Rust's panics outside the domain
  oracle damage [--times N] SEED..                damages sound words: the library's verdict beside a check";

fn main() -> ExitCode {
    let words: Vec<String> = std::env::args().skip(1).collect();
    let words: Vec<&str> = words.iter().map(String::as_str).collect();
    let done = match words[..] {
        ["script", "--unguarded", file] => commands::script(file, false),
        ["script", file] => commands::script(file, true),
        ["generate", seed, calls] => commands::generate(seed, calls, "manager"),
        ["generate", seed, calls, kind] => commands::generate(seed, calls, kind),
        ["compare", ref rest @ ..] => commands::compare(rest),
        ["short", ref rest @ ..] => commands::short(rest),
        ["check", ref rest @ ..] => commands::check(rest),
        ["panics", ref rest @ ..] => commands::panics(rest),
        ["damage", ref rest @ ..] => commands::damage(rest),
        _ => Err(USAGE.into()),
    };
    done.unwrap_or_else(|what| {
        eprintln!("oracle: {what}");
        ExitCode::from(2)
    })
}
