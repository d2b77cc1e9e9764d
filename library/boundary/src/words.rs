//! What the compiled functions say: the words of the refusals, and the text of
//! the version.

use crate::numbers::Named;
use crate::tools::{ran, Work};
use crate::version::Version;

/// What the compiled functions say.
pub struct Said {
    /// The header's text of its version.
    pub version: String,
    /// The words of every number from 0 to 255, in C,
    pub c: Vec<String>,
    /// and in Rust.
    pub rust: Vec<String>,
}

pub fn said(work: &Work) -> Result<Said, String> {
    work.write(
        "words.c",
        "#include \"hansobrik.h\"
#include <stdio.h>
int main(void) {
    puts(HANSOBRIK_VERSION_TEXT);
    for (int n = 0; n < 256; n++) puts(hansobrik_refusal_words((uint8_t)n));
    return 0;
}
",
    )?;
    work.write(
        "words.rs",
        "#![allow(dead_code)]
mod refusal;
fn main() {
    for n in 0..=255 {
        println!(\"{}\", refusal::Refusal(n).words());
    }
}
",
    )?;
    ran(
        work.path(),
        "cc",
        &["-std=c11", "-I.", "-o", "words_c", "words.c"],
    )?;
    ran(
        work.path(),
        "rustc",
        &["--edition=2021", "-o", "words_rust", "words.rs"],
    )?;
    let said = |program: &str| -> Result<Vec<String>, String> {
        let program = work.path().join(program);
        let text = ran(work.path(), &program.to_string_lossy(), &[])?;
        Ok(text.lines().map(str::to_string).collect())
    };
    let mut c = said("words_c")?;
    let version = c.remove(0);
    let rust = said("words_rust")?;
    Ok(Said { version, c, rust })
}

/// A line for another version, for each number whose words differ, and for two
/// refusals that have the same words.
pub fn compare_said(refusals: &[Named], version: &Version, said: &Said) -> Vec<String> {
    let (c, rust) = (&said.c, &said.rust);
    let mut out = Vec::new();
    if said.version != version.text() {
        let (there, asked, at) = (&said.version, version.text(), &version.at);
        out.push(format!(
            "HANSOBRIK_VERSION_TEXT is \"{there}\", but {asked} by {at}"
        ));
    }
    if c.len() != 256 || rust.len() != 256 {
        let (c, rust) = (c.len(), rust.len());
        return vec![format!(
            "the words of 256 numbers are {c} lines in C, {rust} in Rust"
        )];
    }
    for (number, (c, rust)) in c.iter().zip(rust).enumerate().skip(1) {
        let refusal = refusals.iter().find(|one| one.number == number as u64);
        let name = refusal.map_or("no refusal", |one| one.name.as_str());
        if c != rust {
            out.push(format!(
                "the words of {number}, {name}: \"{c}\" by hansobrik_refusal_words, \
                 \"{rust}\" by Refusal::words"
            ));
        }
    }
    // 255 is no refusal: its words are those of any other number
    for one in refusals {
        let same = |other: usize| other as u64 != one.number && c[other] == c[one.number as usize];
        if let Some(other) = (1..256).find(|other| same(*other)) {
            out.push(format!(
                "the words of {}, {}, are those of {other} too",
                one.number, one.name
            ));
        }
    }
    out
}
