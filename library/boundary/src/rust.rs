//! What Rust declares: the structs and functions of `raw.rs`, the numbers of
//! `sizes.rs` and `refusal.rs`, the names of `documentation.rs`.

use crate::header::Constant;
use crate::model::{Declaration, Declared, Language, Part, Record};
use crate::tokens::{parts, tokens, Cursor, Token};

pub const RAW: &str = "library/rust/src/raw.rs";
pub const SIZES: &str = "library/rust/src/sizes.rs";
pub const REFUSAL: &str = "library/rust/src/refusal.rs";
pub const DOCUMENTATION: &str = "library/rust/src/documentation.rs";

/// The declarations of `raw.rs`. Another item than a `use`, a struct or a
/// block of functions is an error.
pub fn declared(text: &str) -> Result<Declared, String> {
    let tokens = tokens(text);
    let mut cursor = Cursor::new(RAW, &tokens);
    let mut out = Declared::default();
    let mut repr = false;
    while !cursor.done() {
        let at = cursor.place();
        if cursor.take("#") {
            cursor.take("!");
            let inside = spelled(cursor.group("[", "]")?);
            if inside.starts_with("repr") || inside.starts_with("cfg") {
                repr = inside == "repr(C)";
                if !repr {
                    return Err(format!("{at}: #[{inside}] is not #[repr(C)]"));
                }
            }
        } else if cursor.take("use") {
            while !cursor.done() && cursor.word() != ";" {}
        } else if cursor.take_all(&["pub", "struct"]) {
            let name = cursor.name()?;
            if !repr {
                return Err(format!("{at}: {name} is not #[repr(C)]"));
            }
            repr = false;
            let parts = of_parts(cursor.group("{", "}")?, true)?;
            out.records.push(Record { name, parts, at });
        } else {
            cursor.take("unsafe");
            if !cursor.take_all(&["extern", "\"C\""]) {
                return Err(cursor.wrong("a struct or a block of `extern \"C\"`"));
            }
            let inside = cursor.group("{", "}")?;
            let mut cursor = Cursor::new(RAW, inside);
            while !cursor.done() {
                out.functions.push(function(&mut cursor)?);
            }
        }
    }
    Ok(out)
}

fn function(cursor: &mut Cursor) -> Result<Declaration, String> {
    let at = cursor.place();
    cursor.expect("pub")?;
    cursor.expect("fn")?;
    let name = cursor.name()?;
    let parts = of_parts(cursor.group("(", ")")?, false)?;
    let mut gives = Vec::new();
    if cursor.take("->") {
        while !cursor.done() && cursor.peek() != ";" {
            gives.push(Token {
                text: cursor.word().to_string(),
                line: 0,
            });
        }
    }
    cursor.expect(";")?;
    let gives = match gives.is_empty() {
        true => Language::Rust.nothing().to_string(),
        false => spelled(&gives),
    };
    Ok(Declaration {
        name,
        parts,
        gives,
        at,
    })
}

/// `name: type, ..`, each with a `pub` before it where these are fields.
fn of_parts(tokens: &[Token], fields: bool) -> Result<Vec<Part>, String> {
    let mut out = Vec::new();
    for part in parts(tokens) {
        let mut cursor = Cursor::new(RAW, part);
        let at = cursor.place();
        if fields {
            cursor.expect("pub")?;
        }
        let name = cursor.name()?;
        cursor.expect(":")?;
        let of = spelled(&part[part.len().min(if fields { 3 } else { 2 })..]);
        out.push(Part { name, of, at });
    }
    Ok(out)
}

/// A type as it is usually written: `*const u8`, `[u8; 12]`.
fn spelled(tokens: &[Token]) -> String {
    let mut out = String::new();
    for token in tokens {
        let word = |c: Option<char>| c.is_some_and(|c| c.is_alphanumeric() || c == '_');
        let both = word(out.chars().last()) && word(token.text.chars().next());
        if both || out.ends_with(';') {
            out.push(' ');
        }
        out.push_str(&token.text);
    }
    out
}

/// The constants of a text, `pub const NAME: TYPE = VALUE;`. With a word as
/// `Refusal` the value stands in `Refusal(..)`.
pub fn constants(file: &str, text: &str, around: &str) -> Result<Vec<Constant>, String> {
    let tokens = tokens(text);
    let mut cursor = Cursor::new(file, &tokens);
    let mut out = Vec::new();
    while !cursor.done() {
        let at = cursor.place();
        if !cursor.take_all(&["pub", "const"]) || cursor.peek() == "fn" {
            cursor.word();
            continue;
        }
        let name = cursor.name()?;
        while !cursor.done() && cursor.word() != "=" {}
        if !around.is_empty() {
            cursor.take_all(&[around, "("]);
        }
        let value = cursor.number().ok();
        if !around.is_empty() {
            cursor.take(")");
        }
        let value = value.filter(|_| cursor.peek() == ";");
        out.push(Constant { name, value, at });
    }
    Ok(out)
}
