//! What stands around the three files of gix-blame in their own crate (the modules, the names that
//! they use from the crate's root, the error type), and the way into our driver.
//!
//! `types`, `file` and `file::function` are the crate's, unchanged; the script `build` puts them
//! here. The driver is the module that `file/mod.rs` declares last, as `#[cfg(test)] mod tests;`:
//! only a child of `file` can call the private `process_changes`.
#![allow(dead_code)]

mod error;
mod file;
mod types;

pub use error::Error;
pub use file::function::file;
pub use types::{BlameEntry, BlamePathEntry, BlameRanges, Options, Outcome, Start, Statistics};

#[cfg(not(test))]
compile_error!("build with the script `build`, which passes `--cfg test`");

/// The module `file::tests` is private to `file`, so it gives its one entry, `Driver::run`,
/// to this type.
struct Driver;

fn main() -> std::process::ExitCode {
    let arguments: Vec<String> = std::env::args().skip(1).collect();
    let arguments: Vec<&str> = arguments.iter().map(String::as_str).collect();
    Driver::run(&arguments)
}
