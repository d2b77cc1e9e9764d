//! boundary ROOT [ARCHIVE..]
//! boundary --self ROOT
//!
//! Derives every function and struct of the boundary from the Rattle text
//! below ROOT and compares the header, the Rust declarations, the numbers and
//! the names of the archives with it: a line for each difference, and status 1.
//! With `--self` it edits copies of the texts in each way that must be refused,
//! and sees that each one is.

use std::path::{Path, PathBuf};
use std::process::ExitCode;

use boundary::check::{check, Asked};
use boundary::edits;
use boundary::tree::Tree;

const USAGE: &str = "usage: boundary ROOT [ARCHIVE..] | boundary --self ROOT";

fn run(words: &[String]) -> Result<String, Vec<String>> {
    let one = |line: String| vec![line];
    match words {
        [word, root] if word == "--self" => {
            let tree = Tree::read(Path::new(root)).map_err(one)?;
            let count = edits::refused(&tree)?;
            Ok(format!("{count} edits refused"))
        }
        [root, archives @ ..] if !root.starts_with('-') => {
            let tree = Tree::read(Path::new(root)).map_err(one)?;
            let archives: Vec<PathBuf> = archives.iter().map(PathBuf::from).collect();
            let agreed = check(&tree, &archives, Asked::Both)?;
            let archives = match archives.len() {
                0 => "Rust; no archive was looked at".to_string(),
                count => format!("Rust and {count} archives"),
            };
            Ok(format!(
                "{} functions, {} structs, {} refusals, {} names, {} sizes and version {} \
                 are the source's in C, C++, {archives}",
                agreed.boundary.functions.len(),
                agreed.boundary.structs.len(),
                agreed.numbers.refusals.len(),
                agreed.numbers.names.len(),
                agreed.numbers.sizes.len(),
                agreed.version.text(),
            ))
        }
        _ => Err(one(USAGE.to_string())),
    }
}

fn main() -> ExitCode {
    let words: Vec<String> = std::env::args().skip(1).collect();
    match run(&words) {
        Ok(line) => {
            println!("boundary: {line}");
            ExitCode::SUCCESS
        }
        Err(lines) => {
            for line in lines {
                println!("{line}");
            }
            ExitCode::FAILURE
        }
    }
}
