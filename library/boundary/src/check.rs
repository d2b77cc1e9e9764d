//! The whole check.

use std::path::PathBuf;

use crate::compare::{declared, Side};
use crate::model::{Boundary, Language};
use crate::numbers::Numbers;
use crate::tools::Work;
use crate::tree::Tree;
use crate::version::Version;
use crate::{archive, calls, claims, compilers, header, numbers, rust, source, version, words};

/// Which of the two ways to see a difference is asked. The compilers are asked
/// where the texts agree; the self-check asks them alone too.
#[derive(Clone, Copy, Debug, PartialEq, Eq)]
pub enum Asked {
    Both,
    CompilersAlone,
}

/// What agrees.
pub struct Agreed {
    pub boundary: Boundary,
    pub numbers: Numbers,
    pub version: Version,
}

/// The lines of the differences, where there are any.
pub fn check(tree: &Tree, archives: &[PathBuf], asked: Asked) -> Result<Agreed, Vec<String>> {
    let one = |line: String| vec![line];
    let work = Work::named("check").map_err(one)?;
    written(&work, tree).map_err(one)?;

    let boundary = source::boundary(tree.rattle()).map_err(one)?;
    let tokens = header::preprocessed(work.path(), "hansobrik.h").map_err(one)?;
    let header = header::parse(&tokens).map_err(one)?;
    let in_rust = rust::declared(tree.text(rust::RAW).map_err(one)?).map_err(one)?;
    let (numbers, differences) = numbers::compared(tree, &header).map_err(one)?;
    let version = version::version(tree).map_err(one)?;

    if asked == Asked::Both {
        let mut out = texts(&boundary, &header, &in_rust);
        out.extend(differences);
        out.extend(calls::compared(tree, &boundary, &numbers.refusals).map_err(one)?);
        out.extend(version::compared(tree, &version, work.path()).map_err(one)?);
        none(out)?;
    }
    let in_c = claims::c(&boundary, &numbers, &version).map_err(one)?;
    let mut out = compilers::by_c(&work, &in_c).map_err(one)?;
    let in_rust = claims::rust(&boundary, &numbers).map_err(one)?;
    out.extend(compilers::by_rust(&work, &in_rust).map_err(one)?);
    none(out)?;
    let said = words::said(&work).map_err(one)?;
    none(words::compare_said(&numbers.refusals, &version, &said))?;

    let mut out = Vec::new();
    for path in archives {
        out.extend(archive::compared(&boundary, path).map_err(one)?);
    }
    none(out)?;
    Ok(Agreed {
        boundary,
        numbers,
        version,
    })
}

fn none(out: Vec<String>) -> Result<(), Vec<String>> {
    match out.is_empty() {
        true => Ok(()),
        false => Err(out),
    }
}

/// The files that the compilers read.
fn written(work: &Work, tree: &Tree) -> Result<(), String> {
    work.write("hansobrik.h", tree.text(header::FILE)?)?;
    work.write("raw.rs", tree.text(rust::RAW)?)?;
    work.write("sizes.rs", tree.text(rust::SIZES)?)?;
    work.write("refusal.rs", tree.text(rust::REFUSAL)?)
}

fn texts(
    boundary: &Boundary,
    header: &header::Header,
    in_rust: &crate::model::Declared,
) -> Vec<String> {
    let c = Side {
        language: Language::C,
        file: header::FILE,
        name: "the header",
    };
    let raw = Side {
        language: Language::Rust,
        file: rust::RAW,
        name: "raw.rs",
    };
    let asked = boundary.declared(Language::C);
    let mut out = declared(&c, &asked, &header.declared, &header.own());
    for inline in &header.inlines {
        if asked.functions.iter().any(|f| f.name == inline.name) {
            let (at, name) = (&inline.at, &inline.name);
            out.push(format!("{at}: {name} has a body; the source has it"));
        }
    }
    let asked = boundary.declared(Language::Rust);
    out.extend(declared(&raw, &asked, in_rust, &[]));
    out
}
