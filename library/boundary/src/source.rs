//! The boundary out of the Rattle text: every
//! `#[unsafe(no_mangle)] pub extern "C" fn` and every `#[repr(C)] pub struct` of the crates.
//!
//! What touches the boundary in another shape is an error, so that nothing
//! crosses unseen.

use std::collections::BTreeMap;

use crate::model::{Boundary, Crossing, Field, Function, Parameter, Struct, Type, PREFIX};
use crate::tokens::{parts, tokens, Cursor, Token};

/// What one file has of the boundary. A struct is named with its crate until
/// all files are read.
#[derive(Default)]
struct File {
    functions: Vec<Function>,
    structs: Vec<Struct>,
    /// The crate from which a name comes.
    uses: BTreeMap<String, String>,
}

/// The boundary of crates, given as the texts `crates/NAME/src/..` by path.
pub fn boundary<'a>(files: impl Iterator<Item = (&'a str, &'a str)>) -> Result<Boundary, String> {
    let mut all: Vec<(String, File)> = Vec::new();
    for (path, text) in files {
        let name = path.split('/').nth(1).unwrap_or("").to_string();
        all.push((name, file(path, text)?));
    }

    let mut homes: BTreeMap<String, (String, String)> = BTreeMap::new();
    for (home, file) in &all {
        for of in &file.structs {
            let there = homes.insert(of.name.clone(), (home.clone(), of.at.clone()));
            if let Some((_, at)) = there {
                return Err(format!("{}: {at} has a struct {} too", of.at, of.name));
            }
        }
    }

    let mut out = Boundary::default();
    for (home, file) in all {
        for function in &file.functions {
            let mut types: Vec<&Type> = function.gives.iter().collect();
            types.extend(function.parameters.iter().map(|p| match &p.crossing {
                Crossing::Value(of) => of,
                Crossing::Lent { to, .. } => to,
                Crossing::Slice { of, .. } => of,
            }));
            for of in types {
                known(of, &home, &file.uses, &homes, &function.at, &function.name)?;
            }
        }
        for of in &file.structs {
            for field in &of.fields {
                known(&field.of, &home, &file.uses, &homes, &field.at, &of.name)?;
            }
        }
        out.functions.extend(file.functions);
        out.structs.extend(file.structs);
    }
    if out.functions.is_empty() || out.structs.is_empty() {
        return Err("crates: no function or no struct of the boundary was found".to_string());
    }
    if let Some(twice) = twice(out.functions.iter().map(|f| (&f.name, &f.at))) {
        return Err(twice);
    }
    Ok(out)
}

/// The first name that stands twice.
pub fn twice<'a>(names: impl Iterator<Item = (&'a String, &'a String)>) -> Option<String> {
    let mut seen = BTreeMap::new();
    for (name, at) in names {
        if let Some(before) = seen.insert(name, at) {
            return Some(format!("{at}: {before} has {name} too"));
        }
    }
    None
}

/// A struct that crosses is one of the boundary, and the one that its name
/// means in this file.
fn known(
    of: &Type,
    here: &str,
    uses: &BTreeMap<String, String>,
    homes: &BTreeMap<String, (String, String)>,
    at: &str,
    what: &str,
) -> Result<(), String> {
    match of {
        Type::Plain(_) => Ok(()),
        Type::Array(of, _) => known(of, here, uses, homes, at, what),
        Type::Struct(name) => {
            let from = uses.get(name).map_or(here, String::as_str);
            match homes.get(name) {
                Some((home, _)) if home == from => Ok(()),
                _ => Err(format!(
                    "{at}: {what}: {name} of crate {from} is no #[repr(C)] struct"
                )),
            }
        }
    }
}

fn file(path: &str, text: &str) -> Result<File, String> {
    let tokens = tokens(text);
    let mut cursor = Cursor::new(path, &tokens);
    let mut out = File::default();
    let mut exported = false;
    let mut repr = false;
    while !cursor.done() {
        if cursor.take_all(&["#", "[", "unsafe", "(", "no_mangle", ")", "]"]) {
            exported = true;
        } else if cursor.take_all(&["#", "[", "repr", "(", "C", ")", "]"]) {
            repr = true;
        } else if cursor.peek() == "#" && cursor.ahead(1) == "[" {
            cursor.word();
            let inside = cursor.group("[", "]")?;
            let strange = [
                "no_mangle",
                "export_name",
                "repr",
                "unsafe",
                "cfg",
                "link_section",
            ];
            if let Some(word) = inside.iter().find(|t| strange.contains(&t.text.as_str())) {
                let (line, word) = (word.line, &word.text);
                return Err(format!(
                    "{path}:{line}: `{word}` in a shape that is not read"
                ));
            }
        } else if exported {
            out.functions.push(function(&mut cursor)?);
            exported = false;
        } else if repr {
            out.structs.push(of_fields(&mut cursor)?);
            repr = false;
        } else if cursor.peek() == "extern" {
            return Err(format!(
                "{}: `extern` without #[unsafe(no_mangle)]",
                cursor.place()
            ));
        } else if cursor.peek() == "ghost" && cursor.ahead(1) == "use" {
            while !cursor.done() && cursor.word() != ";" {}
        } else if cursor.take("use") {
            used(&mut cursor, &mut out.uses)?;
        } else {
            cursor.word();
        }
    }
    if exported || repr {
        return Err(cursor.wrong("a function or a struct"));
    }
    Ok(out)
}

/// `use crate::..::Name;`, or names in braces. Under another name, `as Name`, none
/// comes from the crate itself.
fn used(cursor: &mut Cursor, uses: &mut BTreeMap<String, String>) -> Result<(), String> {
    let home = cursor.name()?;
    let mut before = "";
    while !cursor.done() {
        let word = cursor.word();
        let ends = [",", "}", ";"].contains(&cursor.peek());
        if ends && before == "as" {
            uses.insert(word.to_string(), format!("{home} under another name"));
        } else if ends {
            uses.insert(word.to_string(), home.clone());
        }
        if word == ";" {
            return Ok(());
        }
        before = word;
    }
    Err(cursor.wrong("`;`"))
}

fn function(cursor: &mut Cursor) -> Result<Function, String> {
    let at = cursor.place();
    for word in ["pub", "extern", "\"C\"", "fn"] {
        cursor.expect(word)?;
    }
    let name = cursor.name()?;
    if !name.starts_with(PREFIX) {
        return Err(format!("{at}: {name} does not begin with {PREFIX}"));
    }
    let file = at.rsplit_once(':').map_or("", |(file, _)| file);
    let mut parameters = Vec::new();
    for part in parts(cursor.group("(", ")")?) {
        parameters.push(parameter(file, part)?);
    }
    let gives = if cursor.take("->") {
        Some(of_type(cursor)?)
    } else {
        None
    };
    if !["ensures", "requires", "{"].contains(&cursor.peek()) {
        return Err(cursor.wrong("a contract or a body"));
    }
    Ok(Function {
        name,
        parameters,
        gives,
        at,
    })
}

fn parameter(file: &str, tokens: &[Token]) -> Result<Parameter, String> {
    let mut cursor = Cursor::new(file, tokens);
    let at = cursor.place();
    let name = cursor.name()?;
    cursor.expect(":")?;
    let crossing = if cursor.take("&") {
        let mutable = cursor.take("mut");
        if cursor.peek() == "[" && tokens.iter().all(|t| t.text != ";") {
            cursor.word();
            let of = of_type(&mut cursor)?;
            cursor.expect("]")?;
            Crossing::Slice { mutable, of }
        } else {
            let to = of_type(&mut cursor)?;
            Crossing::Lent { mutable, to }
        }
    } else {
        Crossing::Value(of_type(&mut cursor)?)
    };
    if !cursor.done() {
        return Err(cursor.wrong("the parameter's end"));
    }
    if let Crossing::Value(Type::Array(..))
    | Crossing::Lent {
        to: Type::Array(..),
        ..
    } = crossing
    {
        return Err(format!("{at}: {name}: an array crosses in a struct alone"));
    }
    Ok(Parameter { name, crossing, at })
}

fn of_type(cursor: &mut Cursor) -> Result<Type, String> {
    if cursor.take("[") {
        let of = of_type(cursor)?;
        cursor.expect(";")?;
        let count = cursor.number()?;
        cursor.expect("]")?;
        return Ok(Type::Array(Box::new(of), count));
    }
    let name = cursor.name()?;
    Ok(Type::plain(&name).unwrap_or(Type::Struct(name)))
}

fn of_fields(cursor: &mut Cursor) -> Result<Struct, String> {
    let at = cursor.place();
    cursor.expect("pub")?;
    cursor.expect("struct")?;
    let name = cursor.name()?;
    let file = at.rsplit_once(':').map_or("", |(file, _)| file);
    let mut fields = Vec::new();
    for part in parts(cursor.group("{", "}")?) {
        let mut cursor = Cursor::new(file, part);
        let at = cursor.place();
        cursor.expect("pub")?;
        let name = cursor.name()?;
        cursor.expect(":")?;
        let of = of_type(&mut cursor)?;
        if !cursor.done() {
            return Err(cursor.wrong("the field's end"));
        }
        fields.push(Field { name, of, at });
    }
    Ok(Struct { name, fields, at })
}
