//! Edits that the check must refuse, each with a line that names the thing.

use std::ops::Range;
use std::path::PathBuf;

use crate::archive;
use crate::check::{check, Agreed, Asked};
use crate::tools::{ran, Work};
use crate::tree::Tree;

mod table;

pub use table::EDITS;

/// In a file: what stands there, and what is put in its place. White space
/// of any length counts as one space.
type Change = (&'static str, &'static str, &'static str);

pub struct Edit {
    pub asked: Asked,
    pub changes: &'static [Change],
    /// Words that stand together in one line of what the check says.
    pub says: &'static [&'static str],
}

const fn texts(changes: &'static [Change], says: &'static [&'static str]) -> Edit {
    Edit {
        asked: Asked::Both,
        changes,
        says,
    }
}

/// An edit that the compilers must see by themselves.
const fn compilers(changes: &'static [Change], says: &'static [&'static str]) -> Edit {
    Edit {
        asked: Asked::CompilersAlone,
        changes,
        says,
    }
}

/// How many edits there are, all of them refused as they must be; or a line
/// for each that is not.
pub fn refused(tree: &Tree) -> Result<usize, Vec<String>> {
    let agreed = check(tree, &[], Asked::Both).map_err(|mut lines| {
        lines.insert(0, "the tree itself is not in order:".to_string());
        lines
    })?;
    let mut wrong = Vec::new();
    for edit in EDITS {
        if let Err(words) = tried(tree, edit) {
            wrong.push(format!("{}: {words}", edit.says.join(" .. ")));
        }
    }
    let archives = archives(&agreed).map_err(|words| vec![words])?;
    match wrong.is_empty() {
        true => Ok(EDITS.len() + archives),
        false => Err(wrong),
    }
}

fn tried(tree: &Tree, edit: &Edit) -> Result<(), String> {
    let mut edited = tree.clone();
    for (path, old, new) in edit.changes {
        let text = edited.text(path)?.to_string();
        let place = place(&text, old).ok_or_else(|| format!("{path} has no `{old}` to edit"))?;
        edited.put(
            path,
            &format!("{}{new}{}", &text[..place.start], &text[place.end..]),
        );
    }
    let lines = check(&edited, &[], edit.asked).err();
    noticed(&lines.unwrap_or_default(), edit.says)
}

fn noticed(lines: &[String], says: &[&str]) -> Result<(), String> {
    if lines.is_empty() {
        return Err("not refused".to_string());
    }
    if lines
        .iter()
        .any(|line| says.iter().all(|s| line.contains(s)))
    {
        return Ok(());
    }
    Err(format!(
        "refused with other words: {}",
        lines.join("\n    ")
    ))
}

/// Where words stand for the first time, with any white space between them.
pub fn place(text: &str, words: &str) -> Option<Range<usize>> {
    let mut words = words.split_whitespace();
    let first = words.next()?;
    let rest: Vec<&str> = words.collect();
    text.match_indices(first).find_map(|(start, _)| {
        let mut end = start + first.len();
        for word in &rest {
            let gap = text[end..].len() - text[end..].trim_start().len();
            if gap == 0 || !text[end + gap..].starts_with(word) {
                return None;
            }
            end += gap + word.len();
        }
        Some(start..end)
    })
}

/// Archives of empty functions: that of the source's names is taken; one that
/// lacks a name, one that gives one more, and one that gives a variable for a
/// function are not. How many are refused.
fn archives(agreed: &Agreed) -> Result<usize, String> {
    let names: Vec<&str> = agreed
        .boundary
        .functions
        .iter()
        .map(|f| f.name.as_str())
        .collect();
    let work = Work::named("archives")?;
    let made = |names: &[&str], more: &str| -> Result<PathBuf, String> {
        let functions = names.iter().map(|name| format!("void {name}(void) {{}}\n"));
        work.write("empty.c", &(functions.collect::<String>() + more))?;
        ran(work.path(), "cc", &["-c", "empty.c"])?;
        ran(work.path(), "ar", &["rcs", "libempty.a", "empty.o"])?;
        Ok(work.path().join("libempty.a"))
    };
    let looked = |archive: PathBuf| archive::compared(&agreed.boundary, &archive);

    let lines = looked(made(&names, "")?)?;
    if !lines.is_empty() {
        return Err(format!(
            "an archive of the source's names: {}",
            lines.join("\n")
        ));
    }
    let (last, others) = names.split_last().ok_or("there is no function")?;
    let lacks = format!("lacks {last}");
    noticed(&looked(made(others, "")?)?, &[&lacks])?;
    let more = "void hansobrik_more(void) {}\n";
    noticed(&looked(made(&names, more)?)?, &["gives hansobrik_more"])?;
    noticed(
        &looked(made(&names, "int other = 1;\n")?)?,
        &["gives other"],
    )?;
    let variable = format!("int {last} = 1;\n");
    let kind = format!("{last} is of nm's kind D");
    noticed(&looked(made(others, &variable)?)?, &[&kind])?;
    Ok(4)
}
