//! What the source alone says of sizes, alignments, offsets, types and numbers,
//! one claim after the other, for a compiler to look at.

use crate::model::{Boundary, Language};
use crate::numbers::{Named, Numbers, CONSTANT, REFUSED};
use crate::version::Version;

#[derive(Clone, Debug, PartialEq, Eq)]
pub enum Test {
    /// An expression has this value.
    Number(String, u64),
    /// Of C: an expression has this type. Of Rust: a whole line, which is
    /// wrong where the type is another.
    Type(String, String),
}

#[derive(Clone, Debug, PartialEq, Eq)]
pub struct Claim {
    pub test: Test,
    /// What it is about.
    pub what: String,
    /// Where the source says so.
    pub at: String,
}

fn number(left: String, right: u64, what: String, at: &str) -> Claim {
    Claim {
        test: Test::Number(left, right),
        what,
        at: at.to_string(),
    }
}

fn of_type(left: String, right: String, what: String, at: &str) -> Claim {
    Claim {
        test: Test::Type(left, right),
        what,
        at: at.to_string(),
    }
}

/// How a language asks what a struct and its fields have: by the struct's name,
/// the field's name and the field's type.
struct Asks {
    size: fn(&str) -> String,
    align: fn(&str) -> String,
    offset: fn(&str, &str) -> String,
    /// The two sides of the claim that a field has its type.
    field: fn(&str, &str, &str) -> (String, String),
}

const OF_C: Asks = Asks {
    size: |name| format!("sizeof({name})"),
    align: |name| format!("ALIGNMENT({name})"),
    offset: |name, field| format!("offsetof({name}, {field})"),
    field: |name, field, of| {
        let pointer = match of.split_once('[') {
            Some((of, count)) => format!("{of} (*)[{count}"),
            None => format!("{of} *"),
        };
        (format!("&(({name} *)0)->{field}"), pointer)
    },
};

const OF_RUST: Asks = Asks {
    size: |name| format!("core::mem::size_of::<{name}>()"),
    align: |name| format!("core::mem::align_of::<{name}>()"),
    offset: |name, field| format!("core::mem::offset_of!({name}, {field})"),
    // a pointer: a reference would change into another one by itself
    field: |name, field, of| {
        (
            format!("fn(&{name}) -> *const {of}"),
            format!("|r| core::ptr::addr_of!(r.{field})"),
        )
    },
};

/// What every struct has, asked in a language.
fn structs(
    boundary: &Boundary,
    language: Language,
    path: &str,
    asks: &Asks,
) -> Result<Vec<Claim>, String> {
    let layouts = boundary.layouts()?;
    let mut out = Vec::new();
    for of in &boundary.structs {
        let record = language.record(of, path);
        let (name, layout, at) = (&record.name, &layouts[&of.name], &of.at);
        let what = format!("the size of {name}");
        out.push(number((asks.size)(name), layout.size, what, at));
        let what = format!("the alignment of {name}");
        out.push(number((asks.align)(name), layout.align, what, at));
        for (part, offset) in record.parts.iter().zip(&layout.offsets) {
            let (field, of) = (&part.name, &part.of);
            let what = format!("the offset of {name}.{field}");
            out.push(number((asks.offset)(name, field), *offset, what, &part.at));
            let (left, right) = (asks.field)(name, field, of);
            let what = format!("{name}.{field} as {of}");
            out.push(of_type(left, right, what, &part.at));
        }
    }
    Ok(out)
}

/// The claims for C and C++.
pub fn c(boundary: &Boundary, numbers: &Numbers, version: &Version) -> Result<Vec<Claim>, String> {
    let mut out = structs(boundary, Language::C, "", &OF_C)?;
    for function in &boundary.functions {
        let function = Language::C.function(function, "");
        let (name, gives) = (&function.name, &function.gives);
        let of: Vec<&str> = function.parts.iter().map(|p| p.of.as_str()).collect();
        let of = match of.is_empty() {
            true => "void".to_string(),
            false => of.join(", "),
        };
        out.push(of_type(
            format!("&{name}"),
            format!("{gives} (*)({of})"),
            format!("{name} as {gives} ({of})"),
            &function.at,
        ));
    }
    let mut constant = |prefix: &str, one: &Named| {
        let name = format!("{prefix}{}", one.name);
        out.push(number(name.clone(), one.number, name, &one.at));
    };
    numbers
        .refusals
        .iter()
        .for_each(|one| constant(REFUSED, one));
    numbers.sizes.iter().for_each(|one| constant(CONSTANT, one));
    numbers.names.iter().for_each(|one| constant("", one));
    let [major, minor, patch] = version.parts();
    for (end, value) in [
        ("", version.number),
        ("_MAJOR", major),
        ("_MINOR", minor),
        ("_PATCH", patch),
    ] {
        let name = format!("{CONSTANT}VERSION{end}");
        out.push(number(name.clone(), value, name, &version.at));
    }
    Ok(out)
}

/// The claims for Rust.
pub fn rust(boundary: &Boundary, numbers: &Numbers) -> Result<Vec<Claim>, String> {
    let mut out = structs(boundary, Language::Rust, "raw::", &OF_RUST)?;
    for function in &boundary.functions {
        let function = Language::Rust.function(function, "raw::");
        let (name, gives) = (&function.name, &function.gives);
        let of: Vec<&str> = function.parts.iter().map(|p| p.of.as_str()).collect();
        let of = of.join(", ");
        out.push(of_type(
            format!("unsafe extern \"C\" fn({of}) -> {gives}"),
            format!("raw::{name}"),
            format!("raw::{name} as fn({of}) -> {gives}"),
            &function.at,
        ));
    }
    for one in &numbers.refusals {
        let name = format!("refusal::Refusal::{}", one.name);
        out.push(number(format!("{name}.0"), one.number, name, &one.at));
    }
    for one in &numbers.sizes {
        let name = format!("sizes::{}", one.name);
        out.push(number(name.clone(), one.number, name, &one.at));
    }
    Ok(out)
}
