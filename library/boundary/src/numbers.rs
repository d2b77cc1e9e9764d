//! The numbers with a name: refusals, sizes, scan modes and mirrors.

use crate::header::{Constant, Header, FILE};
use crate::rust::{constants, DOCUMENTATION, REFUSAL, SIZES};
use crate::sizes;
use crate::tokens::{number, tokens};
use crate::tree::Tree;

/// What every constant of the header begins with, and those of a kind.
pub const CONSTANT: &str = "HANSOBRIK_";
pub const REFUSED: &str = "HANSOBRIK_REFUSED_";
const SCAN: &str = "HANSOBRIK_SCAN_";
const MIRROR: &str = "HANSOBRIK_MIRROR_";

pub const NUMBERS: &str = "crates/refusals/src/lib.rt";
pub const ORDER: &str = "crates/refusals/specs/Order.antt";
pub const TABLE: &str = "docs/REFUSALS.md";
pub const NAMED: &str = "crates/rack_document/src/lib.rt";

/// Constants of the header that `sizes.rs` does not have, and why.
const HEADER_ALONE: [(&str, &str); 1] = [("OK", "Rust says it with `Ok`")];

/// A name with its number, and where it stands.
#[derive(Clone, Debug, PartialEq, Eq)]
pub struct Named {
    pub name: String,
    pub number: u64,
    pub at: String,
}

/// All that have a name, as the sources give them.
#[derive(Clone, Debug, Default, PartialEq, Eq)]
pub struct Numbers {
    /// In the order of testing.
    pub refusals: Vec<Named>,
    /// Scan modes and mirrors, by their names in the header.
    pub names: Vec<Named>,
    /// By their names in Rust.
    pub sizes: Vec<Named>,
}

/// The numbers of the sources, and a line for each difference in the header,
/// in Rust and in the table of refusals.
pub fn compared(tree: &Tree, header: &Header) -> Result<(Numbers, Vec<String>), String> {
    let mut out = Vec::new();
    let numbers = Numbers {
        refusals: refusals(tree)?,
        names: names(tree)?,
        sizes: sizes::sizes(tree)?,
    };
    let of_kind = |prefixes: &[&str]| -> Vec<Constant> {
        let all = header.enumerators.iter();
        let some = all.filter(|e| prefixes.iter().any(|p| e.name.starts_with(p)));
        some.cloned().collect()
    };

    let asked = prefixed(&numbers.refusals, REFUSED);
    let found = of_kind(&[REFUSED]);
    listed(FILE, &asked, &found, &mut out);
    in_order(FILE, &asked, &found, &mut out);

    let found = constants(REFUSAL, tree.text(REFUSAL)?, "Refusal")?;
    listed(REFUSAL, &numbers.refusals, &found, &mut out);
    in_order(REFUSAL, &numbers.refusals, &found, &mut out);

    let found = table(tree.text(TABLE)?);
    listed(TABLE, &numbers.refusals, &found, &mut out);
    in_order(TABLE, &numbers.refusals, &found, &mut out);

    let asked = prefixed(&numbers.sizes, CONSTANT);
    listed(FILE, &asked, &header_sizes(header), &mut out);
    let found = constants(SIZES, tree.text(SIZES)?, "")?;
    listed(SIZES, &numbers.sizes, &found, &mut out);

    listed(FILE, &numbers.names, &of_kind(&[SCAN, MIRROR]), &mut out);
    listed(DOCUMENTATION, &numbers.names, &given(tree)?, &mut out);

    for name in header.enumerators.iter().map(|e| &e.name) {
        if !name.starts_with(CONSTANT) {
            out.push(format!("{FILE}: {name} does not begin with {CONSTANT}"));
        }
    }
    let ok = header.enumerators.iter().find(|e| e.name == "HANSOBRIK_OK");
    match ok {
        Some(ok) if ok.value == Some(0) => {}
        _ => out.push(format!("{FILE}: HANSOBRIK_OK = 0 is missing")),
    }
    Ok((numbers, out))
}

fn prefixed(list: &[Named], prefix: &str) -> Vec<Named> {
    let with = |one: &Named| Named {
        name: format!("{prefix}{}", one.name),
        ..one.clone()
    };
    list.iter().map(with).collect()
}

/// The same names, each with its number.
fn listed(file: &str, asked: &[Named], found: &[Constant], out: &mut Vec<String>) {
    for one in asked {
        let there: Vec<&Constant> = found.iter().filter(|f| f.name == one.name).collect();
        let (name, value, at) = (&one.name, one.number, &one.at);
        match there[..] {
            [] => out.push(format!("{file}: {name} is missing; it is {value}, {at}")),
            [there] if there.value == Some(value) => {}
            [there] => {
                let says = there
                    .value
                    .map_or("no plain number".to_string(), |n| n.to_string());
                out.push(format!(
                    "{}: {name} is {says}, but {value} in {at}",
                    there.at
                ));
            }
            _ => out.push(format!("{}: {name} stands twice", there[1].at)),
        }
    }
    for extra in found
        .iter()
        .filter(|f| asked.iter().all(|one| one.name != f.name))
    {
        let (at, name) = (&extra.at, &extra.name);
        out.push(format!("{at}: {name}: the source has no such name"));
    }
}

/// The same order, where the names are the same.
fn in_order(file: &str, asked: &[Named], found: &[Constant], out: &mut Vec<String>) {
    if asked.len() != found.len() {
        return;
    }
    let other = asked.iter().zip(found).find(|(a, f)| a.name != f.name);
    if let Some((asked, found)) = other {
        out.push(format!(
            "{file}: {} stands where {} is tested, {}",
            found.name, asked.name, asked.at
        ));
    }
}

/// `OutOfRange` is `OUT_OF_RANGE` in C and in Rust.
fn constant_name(variant: &str) -> String {
    let mut out = String::new();
    let mut was_small = false;
    for c in variant.chars() {
        if c.is_ascii_uppercase() && was_small {
            out.push('_');
        }
        was_small = c.is_ascii_lowercase();
        out.push(c.to_ascii_uppercase());
    }
    out
}

/// The variants of `enum Refusal` of crate `refusals`, `Format = 1`, in the
/// order of testing.
pub fn refusals(tree: &Tree) -> Result<Vec<Named>, String> {
    let mut out = Vec::new();
    let tokens = tokens(tree.text(NUMBERS)?);
    let word = |i: usize| tokens.get(i).map_or("", |t| t.text.as_str());
    let begin = (0..tokens.len()).find(|i| word(*i) == "enum" && word(i + 1) == "Refusal");
    let mut i = begin.ok_or_else(|| format!("{NUMBERS}: there is no `enum Refusal`"))? + 3;
    while word(i) != "}" {
        let (variant, at) = (word(i), format!("{NUMBERS}:{}", tokens[i].line));
        let number = number(word(i + 2)).filter(|_| word(i + 1) == "=" && word(i + 3) == ",");
        let number = number.ok_or_else(|| format!("{at}: {variant} has no plain number"))?;
        let name = constant_name(variant);
        out.push(Named { name, number, at });
        i += 4;
    }
    let order = order(tree.text(ORDER)?)?;
    let numbers: Vec<u64> = out.iter().map(|one| one.number).collect();
    if numbers != order {
        return Err(format!(
            "{NUMBERS}: the numbers stand as {numbers:?}, \
             their order of testing is {order:?}, {ORDER}"
        ));
    }
    Ok(out)
}

/// `order = 1 ∷ 12 ∷ .. ∷ []`
pub fn order(text: &str) -> Result<Vec<u64>, String> {
    let tokens = tokens(text);
    let start = tokens
        .windows(2)
        .position(|w| w[0].text == "order" && w[1].text == "=");
    let start = start.ok_or_else(|| format!("{ORDER}: there is no `order = ..`"))?;
    let mut out = Vec::new();
    let mut rest = tokens[start + 2..].iter();
    while let Some(token) = rest.next() {
        match number(&token.text) {
            Some(number) => out.push(number),
            None if token.text == "[" => return Ok(out),
            None => break,
        }
        if rest.next().is_none_or(|t| t.text != "∷") {
            break;
        }
    }
    Err(format!("{ORDER}: `order` is not read"))
}

/// The rows `| 1 | `Format` | .. |` of the table of refusals.
pub fn table(text: &str) -> Vec<Constant> {
    let mut out = Vec::new();
    for (i, line) in text.lines().enumerate() {
        let cells: Vec<&str> = line.split('|').map(str::trim).collect();
        let value = cells.get(1).and_then(|cell| number(cell));
        if !line.starts_with('|') || value.is_none() {
            continue;
        }
        out.push(Constant {
            name: constant_name(cells.get(2).map_or("", |c| c.trim_matches('`'))),
            value,
            at: format!("{TABLE}:{}", i + 1),
        });
    }
    out
}

/// The constants of the header that are neither refusals nor names of modes and
/// mirrors, without those that it has alone.
fn header_sizes(header: &Header) -> Vec<Constant> {
    let others = [REFUSED, SCAN, MIRROR];
    let all = header.enumerators.iter().filter(|e| {
        let alone = HEADER_ALONE
            .iter()
            .any(|one| e.name == format!("{CONSTANT}{}", one.0));
        !alone && !others.iter().any(|prefix| e.name.starts_with(prefix))
    });
    all.cloned().collect()
}

/// `ScanMode::Full` is `HANSOBRIK_SCAN_FULL`, `Mirror::OneA` is
/// `HANSOBRIK_MIRROR_1A`.
fn in_header(kind: &str, variant: &str) -> Option<String> {
    let prefix = match kind {
        "ScanMode" => SCAN,
        "Mirror" => MIRROR,
        _ => return None,
    };
    let variant = variant.replace("One", "1").replace("Two", "2");
    Some(format!("{prefix}{}", variant.to_uppercase()))
}

/// Scan modes and mirrors with the numbers by which they cross, from
/// `ScanMode::Full => named(1, ..)`.
pub fn names(tree: &Tree) -> Result<Vec<Named>, String> {
    let tokens = tokens(tree.text(NAMED)?);
    let mut out = Vec::new();
    for (i, token) in tokens.iter().enumerate() {
        let word = |by: usize| tokens.get(i + by).map_or("", |t| t.text.as_str());
        let Some(name) = in_header(word(0), word(2)).filter(|_| word(1) == "::") else {
            continue;
        };
        // a variant with a byte: `Unnamed(b) =>`
        let skip = if word(3) == "(" { 6 } else { 3 };
        if [word(skip), word(skip + 1), word(skip + 2)] != ["=>", "named", "("] {
            continue;
        }
        let number = number(word(skip + 3));
        out.push(Named {
            name,
            number: number.ok_or_else(|| format!("{NAMED}:{}: no plain number", token.line))?,
            at: format!("{NAMED}:{}", token.line),
        });
    }
    if out.is_empty() {
        return Err(format!("{NAMED}: there is no `ScanMode::.. => named(..)`"));
    }
    Ok(out)
}

/// What Rust makes of the numbers: `1 => ScanMode::Full`; any other number,
/// `_`, stands for 0.
fn given(tree: &Tree) -> Result<Vec<Constant>, String> {
    let tokens = tokens(tree.text(DOCUMENTATION)?);
    let mut out = Vec::new();
    for (i, token) in tokens.iter().enumerate() {
        let word = |by: usize| tokens.get(i + by).map_or("", |t| t.text.as_str());
        let Some(name) = in_header(word(2), word(4)).filter(|_| word(3) == "::") else {
            continue;
        };
        if word(1) == "=>" {
            out.push(Constant {
                name,
                value: if word(0) == "_" {
                    Some(0)
                } else {
                    number(word(0))
                },
                at: format!("{DOCUMENTATION}:{}", token.line),
            });
        }
    }
    Ok(out)
}
