//! The refusals of each call: what the header's comment of a call names is
//! what the call is proved to test, `demands/specs/Orders.antt`. What a call on
//! the desk tests stands by name in `histories/specs/Tests.antt`.

use std::collections::BTreeMap;

use crate::header::FILE;
use crate::model::{Boundary, PREFIX};
use crate::numbers::Named;
use crate::tokens::{number, tokens, Token};
use crate::tree::Tree;

pub const ORDERS: &str = "crates/demands/specs/Orders.antt";
pub const TESTS: &str = "crates/histories/specs/Tests.antt";

/// Rows of the proved list that have another name than their call, or more
/// calls than one. In the list a name has `-` or `_` between its words.
const ROWS: [(&str, &[&str]); 11] = [
    ("format_of", &["format"]),
    ("step", &["stepped", "step"]),
    ("data_of", &["data"]),
    ("pixels", &["pixels", "pixels_wide"]),
    ("put_pixels", &["put_pixels", "put_pixels_wide"]),
    ("read_real", &["read_real", "read_f64"]),
    ("modes", &["scan_mode", "scanner_select"]),
    ("real_field", &["real_field", "f64_field"]),
    ("mapping_of", &["mapping"]),
    (
        "level",
        &["albedo", "albedo_f64", "temperature", "temperature_f64"],
    ),
    ("release", &["release", "seen"]),
];

/// Tests of the proved list that no input meets: these calls ask for a block
/// by its own number, which every call serves.
const NEVER: [(&str, u64); 2] = [("mapping", 4), ("elements", 4)];

/// Calls without a row: they cannot refuse.
const SERVED: [&str; 4] = ["version", "fresh", "fresh_assembly", "empty_report"];

/// The numbers that each call tests, without their order, by the record and by a
/// text of tests that it takes from elsewhere.
pub fn tested(elsewhere: &str, text: &str) -> Result<BTreeMap<String, Vec<u64>>, String> {
    let tokens = bare(text);
    let start = tokens
        .windows(3)
        .position(|w| [&w[0].text[..], &w[1].text, &w[2].text] == ["pub", "record", "Orders"])
        .ok_or_else(|| format!("{ORDERS}: there is no record Orders"))?;

    let mut tests = BTreeMap::new();
    define(&bare(elsewhere), &mut tests);
    define(&tokens[..start], &mut tests);
    let mut out = BTreeMap::new();
    let mut never = NEVER.to_vec();
    for row in tokens[start + 1..].split(|t| t.text == "pub").skip(1) {
        let colon = row.iter().position(|t| t.text == ":").unwrap_or(0);
        let name: String = row[..colon].iter().map(|t| t.text.as_str()).collect();
        let name = name.replace('-', "_");
        let found = numbers(&row[colon..], &tests);
        let calls = ROWS.iter().find(|r| r.0 == name).map(|r| r.1.to_vec());
        for call in calls.unwrap_or(vec![&name]) {
            never.retain(|(c, n)| *c != call || !found.contains(n));
            let found = found
                .iter()
                .copied()
                .filter(|n| !NEVER.contains(&(call, *n)));
            out.insert(format!("{PREFIX}{call}"), found.collect());
        }
    }
    for call in SERVED {
        if out.insert(format!("{PREFIX}{call}"), Vec::new()).is_some() {
            return Err(format!("{ORDERS}: {call} has a row: it can refuse"));
        }
    }
    if let Some((call, number)) = never.first() {
        return Err(format!("{ORDERS}: {call} does not test {number}"));
    }
    Ok(out)
}

/// The words of a text without its comments.
fn bare(text: &str) -> Vec<Token> {
    let text: Vec<&str> = text.lines().map(without_comment).collect();
    tokens(&text.join("\n"))
}

/// The tests that have a name of their own, each over those before it.
fn define(tokens: &[Token], tests: &mut BTreeMap<String, Vec<u64>>) {
    for definition in tokens.split(|t| t.text == "abbrev" || t.text == "unfoldable") {
        let equals = definition.iter().position(|t| t.text == "=");
        if let (Some(name), Some(equals)) = (definition.get(1), equals) {
            let found = numbers(&definition[equals..], tests);
            tests.insert(name.text.clone(), found);
        }
    }
}

fn without_comment(line: &str) -> &str {
    let comment = line.starts_with("--").then_some(0).or(line.find(" --"));
    &line[..comment.unwrap_or(line.len())]
}

/// The numbers of tests, `(N, ..)`, and those of the tests that are named.
fn numbers(tokens: &[Token], tests: &BTreeMap<String, Vec<u64>>) -> Vec<u64> {
    let mut out = Vec::new();
    for (i, token) in tokens.iter().enumerate() {
        let word = |by: usize| tokens.get(i + by).map_or("", |t| t.text.as_str());
        match (word(0), word(2)) {
            ("(", ",") => out.extend(number(word(1))),
            _ => out.extend(tests.get(&token.text).into_iter().flatten()),
        }
    }
    out
}

/// The refusals that the comment before each call names: "Refused: A, B." or
/// "Never refused."
pub fn commented(text: &str, call: &str) -> Option<(Vec<String>, String)> {
    let bare = blanked(text);
    let place = bare.match_indices(&format!("{call}(")).find(|(at, _)| {
        let line = bare[..*at].rsplit('\n').next().unwrap_or("");
        let whole = !bare[..*at].ends_with(|c: char| c.is_alphanumeric() || c == '_');
        whole && !line.is_empty() && !line.starts_with(' ')
    });
    let before = &text[..place?.0];
    let comment = &before[before.rfind("/*")?..];
    let line = before.matches('\n').count() + 1;
    let words: Vec<&str> = comment.split_whitespace().filter(|w| *w != "*").collect();
    let words = words.join(" ");
    let at = format!("{FILE}:{line}");
    if words.contains("Never refused.") {
        return Some((Vec::new(), at));
    }
    let names = words.split_once("Refused: ")?.1.split_once('.')?.0;
    let names = names.split(", ").map(str::to_string);
    Some((names.collect(), at))
}

/// The text with its comments blanked.
fn blanked(text: &str) -> String {
    let mut out = String::new();
    let mut rest = text;
    while let Some(start) = rest.find("/*") {
        let end = rest[start..]
            .find("*/")
            .map_or(rest.len(), |n| start + n + 2);
        out.push_str(&rest[..start]);
        let comment = rest[start..end].bytes();
        out.extend(comment.map(|b| if b == b'\n' { '\n' } else { ' ' }));
        rest = &rest[end..];
    }
    out + rest
}

/// A line for each call whose comment names other refusals, or in another
/// order, than it is proved to give.
pub fn compared(
    tree: &Tree,
    boundary: &Boundary,
    refusals: &[Named],
) -> Result<Vec<String>, String> {
    let tested = tested(tree.text(TESTS)?, tree.text(ORDERS)?)?;
    let header = tree.text(FILE)?;
    let mut out = Vec::new();
    for name in boundary.functions.iter().map(|f| &f.name) {
        let Some(tested) = tested.get(name) else {
            out.push(format!("{ORDERS}: Orders has no row for {name}"));
            continue;
        };
        let asked: Vec<&str> = refusals
            .iter()
            .filter(|one| tested.contains(&one.number))
            .map(|one| one.name.as_str())
            .collect();
        match commented(header, name) {
            Some((found, _)) if found == asked => {}
            Some((found, at)) => out.push(format!(
                "{at}: {name}: refused with ({}) by its comment, ({}) by {ORDERS}",
                found.join(", "),
                asked.join(", ")
            )),
            None => out.push(format!("{FILE}: the comment of {name} names no refusals")),
        }
    }
    for name in tested.keys() {
        if boundary.functions.iter().all(|f| f.name != *name) {
            out.push(format!(
                "{ORDERS}: Orders has a row for {name}, which is no call"
            ));
        }
    }
    Ok(out)
}
