//! The version: the number that `hansobrik_version` gives, the header's macros
//! and the Rust crate's.

use std::path::Path;

use crate::tokens::{number, tokens, Cursor};
use crate::tools::ran;
use crate::tree::Tree;

pub const CALL: &str = "hansobrik_version";
pub const GROUND: &str = "crates/rack_ground/src/lib.rt";
pub const MANIFEST: &str = "library/rust/Cargo.toml";

/// The macros of the header: its guard, and the version.
const MACROS: [&str; 6] = [
    "HANSOBRIK_H",
    "HANSOBRIK_VERSION",
    "HANSOBRIK_VERSION_MAJOR",
    "HANSOBRIK_VERSION_MINOR",
    "HANSOBRIK_VERSION_PATCH",
    "HANSOBRIK_VERSION_TEXT",
];

/// 400 is 0.4.0.
#[derive(Clone, Debug, Default, PartialEq, Eq)]
pub struct Version {
    pub number: u64,
    pub at: String,
}

impl Version {
    pub fn parts(&self) -> [u64; 3] {
        let n = self.number;
        [n / 10_000, n / 100 % 100, n % 100]
    }

    pub fn text(&self) -> String {
        let [major, minor, patch] = self.parts();
        format!("{major}.{minor}.{patch}")
    }
}

/// The body of the call, which is one number; its contract says the same.
pub fn version(tree: &Tree) -> Result<Version, String> {
    let tokens = tokens(tree.text(GROUND)?);
    let found = tokens
        .windows(2)
        .position(|w| w[0].text == "fn" && w[1].text == CALL);
    let found = found.ok_or_else(|| format!("{GROUND}: there is no {CALL}"))?;
    let mut cursor = Cursor::new(GROUND, &tokens[found + 1..]);
    let at = cursor.place();
    while !cursor.done() && cursor.peek() != "{" {
        if ["ensures", "requires"].contains(&cursor.word()) {
            cursor.group("{", "}")?;
        }
    }
    match cursor.group("{", "}")? {
        [one] => {
            let number = number(&one.text);
            let number = number.ok_or_else(|| format!("{at}: {CALL} gives no plain number"))?;
            Ok(Version { number, at })
        }
        _ => Err(format!("{at}: {CALL} gives no plain number")),
    }
}

/// A line for a macro of the header that is not compared, for one that is not
/// there, and where the Rust crate has another version.
pub fn compared(tree: &Tree, version: &Version, folder: &Path) -> Result<Vec<String>, String> {
    let mut out = Vec::new();
    let file = crate::header::FILE;
    let said = ran(folder, "cc", &["-std=c11", "-E", "-dM", "hansobrik.h"])?;
    let found: Vec<&str> = said
        .lines()
        .filter_map(|row| row.strip_prefix("#define "))
        .filter_map(|row| row.split([' ', '(']).next())
        .filter(|name| name.starts_with("HANSOBRIK_"))
        .collect();
    for name in &found {
        if !MACROS.contains(name) {
            out.push(format!("{file}: nothing compares the macro {name}"));
        }
    }
    for name in MACROS {
        if !found.contains(&name) {
            out.push(format!("{file}: the macro {name} is missing"));
        }
    }
    let wanted = format!("version = \"{}\"", version.text());
    let row = tree
        .text(MANIFEST)?
        .lines()
        .find(|row| row.starts_with("version"));
    if row != Some(&wanted) {
        let row = row.unwrap_or("no version");
        out.push(format!(
            "{MANIFEST}: {row}, but {} by {}",
            version.text(),
            version.at
        ));
    }
    Ok(out)
}
