//! The table of the calls is the header's: names and their order, the kinds of
//! all numbers and buffers, the fields of the answers, the refusals.

use std::collections::HashMap;

use harness::rows::{Part, Row, ORDER, REGISTER_LENT, ROWS};

const HEADER: &str = include_str!("../../hansobrik.h");

/// The header in one line, from its first struct up to the helpers that stand
/// there whole, each comment's text between `/*` and `*/`.
fn declarations() -> String {
    let start = HEADER
        .find("typedef struct")
        .expect("the header has structs");
    let end = HEADER
        .find("/* ---- helpers")
        .expect("the header has helpers");
    let text = HEADER[start..end].replace("\n *", "\n");
    let words: Vec<&str> = text.split_whitespace().collect();
    words.join(" ")
}

/// The text without its comments.
fn bare(text: &str) -> String {
    let mut rest = text;
    let mut bare = String::new();
    while let Some((before, comment)) = rest.split_once("/*") {
        bare += before;
        rest = comment.split_once("*/").expect("the comment ends").1;
    }
    bare + rest
}

/// The bits of a type of C.
fn bits(kind: &str) -> u32 {
    match kind {
        "bool" => 1,
        "uint8_t" => 8,
        "uint16_t" => 16,
        "uint32_t" => 32,
        "uint64_t" | "size_t" => 64,
        _ => panic!("{kind} is not handed in"),
    }
}

/// The structs by name: kind and name of each field, a record's fields, an
/// array's elements and the fields of an array of records one by one.
fn structs() -> HashMap<String, Vec<(String, String)>> {
    let mut structs: HashMap<String, Vec<(String, String)>> = HashMap::new();
    let text = bare(&declarations());
    for part in text.split("typedef struct {").skip(1) {
        let (body, rest) = part.split_once('}').expect("a struct ends");
        let name = rest.split(';').next().expect("it has a name").trim();
        let mut fields = Vec::new();
        for field in body.split(';').filter(|field| !field.trim().is_empty()) {
            let (kind, field) = field.trim().split_once(' ').expect("kind and name");
            match (structs.get(kind), field.split_once('[')) {
                (Some(record), None) => fields.extend(record.clone()),
                (record, Some((array, count))) => {
                    let count: usize = count.trim_end_matches(']').parse().expect("a count");
                    for element in (0..count).map(|i| format!("{array}[{i}]")) {
                        let of_record = |(kind, field): &(String, String)| {
                            (kind.clone(), format!("{element}.{field}"))
                        };
                        match record {
                            Some(record) => fields.extend(record.iter().map(of_record)),
                            None => fields.push((kind.to_string(), element)),
                        }
                    }
                }
                (None, None) => fields.push((kind.to_string(), field.to_string())),
            }
        }
        structs.insert(name.to_string(), fields);
    }
    structs
}

/// A call's declaration: what it answers, its parameters as kind and name.
struct Declared {
    answer: String,
    parameters: Vec<(String, String)>,
}

fn declared(row: &Row, bare: &str) -> Declared {
    let opening = format!(" hansobrik_{}(", row.text);
    let (before, rest) = bare.split_once(&opening).expect(row.text);
    let answer = before.split_whitespace().last().expect("an answer");
    let parameters = rest.split_once(");").expect("it ends").0;
    let parameter = |text: &str| {
        let at = text.rfind([' ', '*']).expect("kind and name") + 1;
        (text[..at].trim().to_string(), text[at..].to_string())
    };
    let parameters = parameters.split(',').map(str::trim);
    Declared {
        answer: answer.to_string(),
        parameters: parameters.filter(|&p| p != "void").map(parameter).collect(),
    }
}

fn part(kind: &str, what: &str) -> Part {
    let what: &'static str = String::leak(what.to_string());
    Part {
        what,
        words: kind.contains("uint16_t"),
        written: !kind.starts_with("const"),
    }
}

#[test]
fn the_calls_stand_in_the_header_s_order() {
    let text = bare(&declarations());
    let declared: Vec<&str> = text
        .split(" hansobrik_")
        .skip(1)
        .filter_map(|part| part.split_once('('))
        .map(|(name, _)| name)
        .filter(|name| name.chars().all(|c| c.is_alphanumeric() || c == '_'))
        .collect();
    let rows: Vec<&str> = ROWS.iter().map(|row| row.text).collect();
    assert_eq!(declared, rows);
    for (place, row) in ROWS.iter().enumerate() {
        assert_eq!(row.name as usize, place);
    }
}

#[test]
fn numbers_and_buffers_are_as_declared() {
    let structs = structs();
    let text = bare(&declarations());
    for row in &ROWS {
        let mut numbers = Vec::new();
        let mut lent = Vec::new();
        for (kind, what) in declared(row, &text).parameters {
            if kind.ends_with('*') {
                lent.push(part(&kind, &what));
            } else if what.ends_with("_count") {
                // the count of the buffer before it
            } else if let Some(record) = structs.get(&kind) {
                let field = |(kind, what): &(String, String)| (what.clone(), bits(kind));
                numbers.extend(record.iter().map(field));
            } else {
                numbers.push((what, bits(&kind)));
            }
        }
        let handed: Vec<(String, u32)> = row
            .numbers
            .iter()
            .map(|(what, bits)| (what.to_string(), *bits))
            .collect();
        assert_eq!(numbers, handed, "numbers of {}", row.text);
        assert_eq!(lent, row.lent, "buffers of {}", row.text);
    }
}

#[test]
fn fields_are_those_of_the_answers() {
    let structs = structs();
    let text = bare(&declarations());
    for row in &ROWS {
        let answer = declared(row, &text).answer;
        let fields: Vec<&str> = match structs.get(&answer) {
            Some(fields) => fields.iter().map(|(_, what)| what.as_str()).collect(),
            None if answer == "uint8_t" => vec!["refused"],
            None => vec!["version"],
        };
        assert_eq!(fields, row.fields, "{}", row.text);
        let kept = &row.fields[row.kept.field..][..row.kept.count];
        let registers = row.lent.iter().filter(|part| **part == REGISTER_LENT);
        let handed: Vec<&str> = (row.numbers.iter().map(|(what, _)| *what))
            .chain(registers.map(|part| part.what))
            .collect();
        let handed = &handed[row.kept.number..][..row.kept.count];
        assert_eq!(handed, kept, "{}", row.text);
    }
}

/// The comment of a call ends with its refusals by name: "Refused: FORMAT,
/// STATE.", or "Never refused." A comment is for all the calls up to the next
/// one. A call that a comment shows is not declared there.
#[test]
fn refusals_are_those_of_the_comments() {
    let text = declarations();
    for row in &ROWS {
        let opening = format!(" hansobrik_{}(", row.text);
        let before = |(at, _): (usize, _)| &text[..at];
        let declares = |before: &&str| before.rfind("/*") < before.rfind("*/");
        let mut places = text.match_indices(&opening).map(before);
        let before = places.find(declares).expect(row.text);
        let comment = before.rsplit_once("/*").expect("a comment").1;
        let comment = comment.split_once("*/").expect("it ends").0.trim();
        let last = comment.rsplit(". ").next().expect("a sentence");
        let refusals: Vec<u8> = match last.strip_prefix("Refused: ") {
            Some(names) => names
                .trim_end_matches('.')
                .split(", ")
                .map(number)
                .collect(),
            None => {
                assert_eq!(last, "Never refused.", "{}: {comment}", row.text);
                vec![]
            }
        };
        assert_eq!(refusals, row.refusals, "{}: {comment}", row.text);
    }
}

/// The header's refusals: name without prefix, and number.
fn refusals() -> Vec<(String, u8)> {
    let list = HEADER.split_once("enum {").expect("the first list").1;
    let list = bare(list.split_once("};").expect("it ends").0);
    list.split(',')
        .filter_map(|entry| entry.trim().strip_prefix("HANSOBRIK_REFUSED_"))
        .map(|entry| entry.split_once(" = ").expect("name and number"))
        .map(|(name, number)| (name.to_string(), number.parse().expect("a number")))
        .collect()
}

fn number(name: &str) -> u8 {
    let all = refusals();
    let found = all.iter().find(|(known, _)| known == name);
    found.unwrap_or_else(|| panic!("there is no {name}")).1
}

#[test]
fn the_order_of_refusals_is_the_header_s() {
    let numbers: Vec<u8> = refusals().iter().map(|(_, number)| *number).collect();
    assert_eq!(numbers, ORDER);
}
