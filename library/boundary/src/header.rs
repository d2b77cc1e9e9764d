//! What the header declares, out of its text behind C's preprocessor.

use std::path::Path;

use crate::model::{Declaration, Declared, Part, Record};
use crate::tokens::{parts, tokens, Cursor, Token};
use crate::tools::ran;

/// The header's name from the root on.
pub const FILE: &str = "library/hansobrik.h";

/// A name with a number: an enumerator, or a constant of Rust.
#[derive(Clone, Debug, PartialEq, Eq)]
pub struct Constant {
    pub name: String,
    /// None where it is no plain number.
    pub value: Option<u64>,
    pub at: String,
}

/// A function with a body, and the words of what it takes and gives.
#[derive(Clone, Debug, PartialEq, Eq)]
pub struct Inline {
    pub name: String,
    pub words: Vec<String>,
    pub at: String,
}

#[derive(Clone, Debug, Default, PartialEq, Eq)]
pub struct Header {
    pub declared: Declared,
    pub inlines: Vec<Inline>,
    pub enumerators: Vec<Constant>,
}

impl Header {
    /// The structs that the header has for its own functions: those with a
    /// body name them, and no other function and no other struct does.
    pub fn own(&self) -> Vec<String> {
        let records = self.declared.records.iter();
        let own = records.filter(|record| {
            let inline = self.inlines.iter();
            let functions = self.declared.functions.iter();
            let records = self.declared.records.iter();
            let mut crossing = functions
                .flat_map(|f| f.parts.iter().map(|p| &p.of).chain([&f.gives]))
                .chain(records.flat_map(|r| r.parts.iter().map(|p| &p.of)));
            inline.flat_map(|i| &i.words).any(|w| *w == record.name)
                && !crossing.any(|of| names(of, &record.name))
        });
        own.map(|record| record.name.clone()).collect()
    }
}

fn names(of: &str, name: &str) -> bool {
    of.split(|c: char| !c.is_alphanumeric() && c != '_')
        .any(|word| word == name)
}

/// The words of a header that lies in a folder, behind the preprocessor.
pub fn preprocessed(folder: &Path, name: &str) -> Result<Vec<Token>, String> {
    let words = ["-std=c11", "-E", name];
    let text = ran(folder, "cc", &words)?;
    Ok(of_file(&text, name))
}

/// The words of the preprocessor's output that come from a file. A line
/// `# LINE "FILE"` says where the next one comes from.
pub fn of_file(text: &str, name: &str) -> Vec<Token> {
    let mut out = Vec::new();
    let (mut ours, mut line) = (false, 0);
    for row in text.lines() {
        let mut words = row.split_whitespace();
        if words.next() == Some("#") {
            line = words.next().and_then(|n| n.parse().ok()).unwrap_or(0);
            ours = words.next() == Some(&format!("\"{name}\""));
            continue;
        }
        // what a pragma does the compilers see
        if ours && !row.starts_with("#pragma") {
            let found = tokens(row).into_iter();
            out.extend(found.map(|t| Token { line, ..t }));
        }
        line += 1;
    }
    out
}

pub fn parse(tokens: &[Token]) -> Result<Header, String> {
    let mut cursor = Cursor::new(FILE, tokens);
    let mut header = Header::default();
    while !cursor.done() {
        if cursor.take(";") {
            continue;
        }
        if cursor.take("_Static_assert") {
            cursor.group("(", ")")?;
            continue;
        }
        let at = cursor.place();
        if cursor.take("enum") {
            enumerators(&mut cursor, &mut header.enumerators)?;
        } else if cursor.take_all(&["typedef", "struct"]) {
            let record = record(&mut cursor, at)?;
            header.declared.records.push(record);
        } else {
            function(&mut cursor, at, &mut header)?;
        }
    }
    Ok(header)
}

/// `{ NAME = value, .. };`
fn enumerators(cursor: &mut Cursor, out: &mut Vec<Constant>) -> Result<(), String> {
    for part in parts(cursor.group("{", "}")?) {
        let mut cursor = Cursor::new(FILE, part);
        let at = cursor.place();
        let name = cursor.name()?;
        cursor.expect("=")?;
        let value = cursor.number().ok().filter(|_| cursor.done());
        out.push(Constant { name, value, at });
    }
    cursor.expect(";")
}

/// `{ type name; .. } name;`
fn record(cursor: &mut Cursor, at: String) -> Result<Record, String> {
    if cursor.peek() != "{" {
        cursor.name()?;
    }
    let inside = cursor.group("{", "}")?;
    let mut fields = Vec::new();
    for field in inside.split(|token| token.text == ";") {
        if !field.is_empty() {
            fields.push(part(field)?);
        }
    }
    let name = cursor.name()?;
    cursor.expect(";")?;
    Ok(Record {
        name,
        parts: fields,
        at,
    })
}

/// `type name`, `type *name` or `type name[count]`
fn part(tokens: &[Token]) -> Result<Part, String> {
    let at = Cursor::new(FILE, tokens).place();
    let bracket = tokens.iter().position(|t| t.text == "[");
    let (front, count) = tokens.split_at(bracket.unwrap_or(tokens.len()));
    match front.split_last() {
        Some((name, of)) if !of.is_empty() && Cursor::new(FILE, front).name().is_ok() => {
            let count: String = count.iter().map(|t| t.text.as_str()).collect();
            Ok(Part {
                name: name.text.clone(),
                of: spelled(of) + &count,
                at,
            })
        }
        _ => Err(format!("{at}: this is not read: `{}`", spelled(tokens))),
    }
}

/// A type as it is usually written: `const uint8_t *`. The preprocessor knows
/// `bool` as `_Bool`.
fn spelled(tokens: &[Token]) -> String {
    let words: Vec<&str> = tokens
        .iter()
        .map(|t| match t.text.as_str() {
            "_Bool" => "bool",
            word => word,
        })
        .collect();
    words.join(" ").replace("* *", "**")
}

/// A function that is declared, or one with a body, which is no call of the
/// boundary.
fn function(cursor: &mut Cursor, at: String, header: &mut Header) -> Result<(), String> {
    let inline = cursor.take_all(&["static", "inline"]);
    let mut before = Vec::new();
    while !["(", "", ";", "{", "="].contains(&cursor.peek()) {
        before.push(Token {
            text: cursor.word().to_string(),
            line: 0,
        });
    }
    let name = before.pop().map_or(String::new(), |t| t.text);
    if name.is_empty() || before.is_empty() || cursor.peek() != "(" {
        return Err(cursor.wrong("an enum, a typedef struct or a function"));
    }
    let inside = cursor.group("(", ")")?;
    if inline {
        cursor.group("{", "}")?;
        let words = before.iter().chain(inside).map(|t| t.text.clone());
        header.inlines.push(Inline {
            name,
            words: words.collect(),
            at,
        });
        return Ok(());
    }
    cursor.expect(";")?;
    let mut declared = Vec::new();
    if spelled(inside) != "void" {
        if inside.is_empty() {
            return Err(format!("{at}: {name}: without parameters C wants (void)"));
        }
        for one in parts(inside) {
            declared.push(part(one)?);
        }
    }
    header.declared.functions.push(Declaration {
        name,
        parts: declared,
        gives: spelled(&before),
        at,
    });
    Ok(())
}
