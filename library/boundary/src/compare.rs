//! The declarations of a language beside those that the source asks for.

use std::collections::BTreeSet;

use crate::model::{Declaration, Declared, Language, Part, Record};

/// Where a language stands, for the messages.
pub struct Side<'a> {
    pub language: Language,
    pub file: &'a str,
    /// How its file is called.
    pub name: &'a str,
}

/// A line for each difference. `own` are structs that the side may have
/// beyond those of the source.
pub fn declared(side: &Side, asked: &Declared, found: &Declared, own: &[String]) -> Vec<String> {
    let mut out = Vec::new();
    for function in &asked.functions {
        match alone(&found.functions, |f| f.name == function.name) {
            Ok(Some(there)) => compare_functions(side, function, there, &mut out),
            Ok(None) => out.push(missing(side, &function.name, &function.at)),
            Err(twice) => out.push(format!("{}: {} stands twice", twice.at, function.name)),
        }
    }
    for record in &asked.records {
        match alone(&found.records, |r| r.name == record.name) {
            Ok(Some(there)) => compare_records(side, record, there, &mut out),
            Ok(None) => out.push(missing(side, &record.name, &record.at)),
            Err(twice) => out.push(format!("{}: {} stands twice", twice.at, record.name)),
        }
    }
    let known: BTreeSet<&String> = asked.functions.iter().map(|f| &f.name).collect();
    for extra in found.functions.iter().filter(|f| !known.contains(&f.name)) {
        let (at, name) = (&extra.at, &extra.name);
        out.push(format!("{at}: {name}: the source has no such function"));
    }
    let known: BTreeSet<&String> = asked.records.iter().map(|r| &r.name).chain(own).collect();
    for extra in found.records.iter().filter(|r| !known.contains(&r.name)) {
        let (at, name) = (&extra.at, &extra.name);
        out.push(format!("{at}: {name}: the source has no such struct"));
    }
    out
}

/// The one of a list that is meant; the second where there are two.
fn alone<T>(list: &[T], meant: impl Fn(&T) -> bool) -> Result<Option<&T>, &T> {
    let mut found = list.iter().filter(|one| meant(one));
    let first = found.next();
    match found.next() {
        Some(second) => Err(second),
        None => Ok(first),
    }
}

fn missing(side: &Side, name: &str, at: &str) -> String {
    format!("{}: {name} is missing; the source has it, {at}", side.file)
}

fn compare_functions(side: &Side, asked: &Declaration, there: &Declaration, out: &mut Vec<String>) {
    let name = &asked.name;
    parts(
        side,
        name,
        "parameter",
        (&asked.parts, &there.parts),
        (&asked.at, &there.at),
        out,
    );
    if asked.gives != there.gives {
        out.push(format!(
            "{}: {name} gives {} in {}, {} by the source, {}",
            there.at, there.gives, side.name, asked.gives, asked.at
        ));
    }
}

fn compare_records(side: &Side, asked: &Record, there: &Record, out: &mut Vec<String>) {
    let name = &asked.name;
    parts(
        side,
        name,
        "field",
        (&asked.parts, &there.parts),
        (&asked.at, &there.at),
        out,
    );
}

fn parts(
    side: &Side,
    name: &str,
    kind: &str,
    (asked, there): (&[Part], &[Part]),
    (asked_at, there_at): (&str, &str),
    out: &mut Vec<String>,
) {
    if asked.len() != there.len() {
        let all = |parts: &[Part]| {
            let shown: Vec<String> = parts.iter().map(|p| side.language.show(p)).collect();
            shown.join(", ")
        };
        out.push(format!(
            "{there_at}: {name} has {} {kind}s in {}, ({}), {} by the source, ({}), {asked_at}",
            there.len(),
            side.name,
            all(there),
            asked.len(),
            all(asked),
        ));
        return;
    }
    for (i, (asked, there)) in asked.iter().zip(there).enumerate() {
        if (&asked.name, &asked.of) != (&there.name, &there.of) {
            out.push(format!(
                "{}: {name}: {kind} {} is `{}` in {}, `{}` by the source, {}",
                there.at,
                i + 1,
                side.language.show(there),
                side.name,
                side.language.show(asked),
                asked.at
            ));
        }
    }
}
