//! The names that an archive gives to whoever links it.

use std::path::Path;

use crate::model::Boundary;
use crate::tools::ran;

/// A line for each difference between an archive's names and the source.
pub fn compared(boundary: &Boundary, archive: &Path) -> Result<Vec<String>, String> {
    if !archive.is_file() {
        let archive = archive.display();
        return Err(format!("{archive} is missing: library/build makes it"));
    }
    let path = archive.to_string_lossy();
    let words = ["-P", "-g", "--defined-only", &path];
    let listing = ran(Path::new("."), "nm", &words)?;
    Ok(names(boundary, &path, &listing))
}

/// The same of the listing that `nm -P` makes: `NAME KIND ..`.
pub fn names(boundary: &Boundary, archive: &str, listing: &str) -> Vec<String> {
    let mut out = Vec::new();
    let rows = listing.lines().filter_map(|row| {
        let mut words = row.split_whitespace();
        Some((words.next()?, words.next()?))
    });
    let rows: Vec<(&str, &str)> = rows.collect();
    for function in &boundary.functions {
        let (name, at) = (&function.name, &function.at);
        let kinds: Vec<&str> = rows.iter().filter(|r| r.0 == name).map(|r| r.1).collect();
        match kinds[..] {
            ["T"] => {}
            [] => out.push(format!("{archive} lacks {name}, {at}")),
            [kind] => out.push(format!(
                "{archive}: {name} is of nm's kind {kind}, no function"
            )),
            _ => out.push(format!("{archive} has {name} {} times", kinds.len())),
        }
    }
    for (name, _) in &rows {
        let known = boundary.functions.iter().any(|f| f.name == *name);
        if !known {
            out.push(format!("{archive} gives {name}, which the source does not"));
        }
    }
    out
}
