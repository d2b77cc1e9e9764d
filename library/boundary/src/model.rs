//! The boundary as the Rattle text has it, how C and Rust spell it, and how C
//! lays it out.

use std::collections::BTreeMap;

/// What every name of the boundary begins with in C.
pub const PREFIX: &str = "hansobrik_";

/// The names of structs that do not follow the rule: in Rattle, C and Rust.
const OTHER_NAMES: [(&str, &str, &str); 2] = [
    ("ReaderState", "hansobrik_state", "State"),
    ("AssemblyRecord", "hansobrik_assembly", "Assembly"),
];

/// Names of parameters and fields that are words of C: there they get a `_`.
const WORDS_OF_C: [&str; 12] = [
    "auto", "char", "default", "double", "float", "int", "long", "register", "short", "signed",
    "switch", "unsigned",
];

#[derive(Clone, Debug, PartialEq, Eq)]
pub enum Type {
    /// A number or a truth value, by its name in Rattle, which is Rust's.
    Plain(&'static str),
    Struct(String),
    Array(Box<Type>, u64),
}

/// The plain types: in Rattle, in C, and their bytes. A `usize` is that of the
/// 64-bit machines for which the toolchain compiles.
const PLAIN: [(&str, &str, u64); 12] = [
    ("bool", "bool", 1),
    ("u8", "uint8_t", 1),
    ("u16", "uint16_t", 2),
    ("u32", "uint32_t", 4),
    ("u64", "uint64_t", 8),
    ("i8", "int8_t", 1),
    ("i16", "int16_t", 2),
    ("i32", "int32_t", 4),
    ("i64", "int64_t", 8),
    ("usize", "size_t", 8),
    ("f32", "float", 4),
    ("f64", "double", 8),
];

impl Type {
    pub fn plain(name: &str) -> Option<Type> {
        let row = PLAIN.iter().find(|row| row.0 == name);
        row.map(|row| Type::Plain(row.0))
    }

    pub fn c(&self) -> String {
        match self {
            Type::Plain(name) => {
                let row = PLAIN.iter().find(|row| row.0 == *name);
                row.map_or(*name, |row| row.1).to_string()
            }
            Type::Struct(name) => c_name(name),
            Type::Array(of, count) => format!("{}[{count}]", of.c()),
        }
    }

    /// In Rust, the structs with the path of their module before them.
    pub fn rust(&self, path: &str) -> String {
        match self {
            Type::Plain(name) => name.to_string(),
            Type::Struct(name) => format!("{path}{}", rust_name(name)),
            Type::Array(of, count) => format!("[{}; {count}]", of.rust(path)),
        }
    }
}

/// A struct's name in C: `CountAnswer` is `hansobrik_count_answer`.
pub fn c_name(name: &str) -> String {
    if let Some(other) = OTHER_NAMES.iter().find(|other| other.0 == name) {
        return other.1.to_string();
    }
    let mut out = PREFIX.to_string();
    for (i, c) in name.chars().enumerate() {
        if c.is_uppercase() && i > 0 {
            out.push('_');
        }
        out.extend(c.to_lowercase());
    }
    out
}

pub fn rust_name(name: &str) -> String {
    let other = OTHER_NAMES.iter().find(|other| other.0 == name);
    other.map_or(name, |other| other.2).to_string()
}

/// A parameter's or a field's name in C.
pub fn c_word(name: &str) -> String {
    let end = if WORDS_OF_C.contains(&name) { "_" } else { "" };
    format!("{name}{end}")
}

/// How a parameter crosses.
#[derive(Clone, Debug, PartialEq, Eq)]
pub enum Crossing {
    /// By value.
    Value(Type),
    /// As a pointer: a reference.
    Lent { mutable: bool, to: Type },
    /// As a pointer and a count: a slice.
    Slice { mutable: bool, of: Type },
}

#[derive(Clone, Debug, PartialEq, Eq)]
pub struct Parameter {
    pub name: String,
    pub crossing: Crossing,
    pub at: String,
}

#[derive(Clone, Debug, PartialEq, Eq)]
pub struct Function {
    pub name: String,
    pub parameters: Vec<Parameter>,
    pub gives: Option<Type>,
    pub at: String,
}

#[derive(Clone, Debug, PartialEq, Eq)]
pub struct Field {
    pub name: String,
    pub of: Type,
    pub at: String,
}

#[derive(Clone, Debug, PartialEq, Eq)]
pub struct Struct {
    pub name: String,
    pub fields: Vec<Field>,
    pub at: String,
}

#[derive(Clone, Debug, Default, PartialEq, Eq)]
pub struct Boundary {
    pub functions: Vec<Function>,
    pub structs: Vec<Struct>,
}

/// The two languages that declare the boundary again.
#[derive(Clone, Copy, Debug, PartialEq, Eq)]
pub enum Language {
    C,
    Rust,
}

/// A parameter or a field as a language spells it.
#[derive(Clone, Debug, PartialEq, Eq)]
pub struct Part {
    pub name: String,
    pub of: String,
    pub at: String,
}

/// A function as a language declares it.
#[derive(Clone, Debug, PartialEq, Eq)]
pub struct Declaration {
    pub name: String,
    pub parts: Vec<Part>,
    pub gives: String,
    pub at: String,
}

/// A struct as a language declares it.
#[derive(Clone, Debug, PartialEq, Eq)]
pub struct Record {
    pub name: String,
    pub parts: Vec<Part>,
    pub at: String,
}

/// What a language declares.
#[derive(Clone, Debug, Default, PartialEq, Eq)]
pub struct Declared {
    pub functions: Vec<Declaration>,
    pub records: Vec<Record>,
}

impl Language {
    fn of(self, of: &Type, path: &str) -> String {
        match self {
            Language::C => of.c(),
            Language::Rust => of.rust(path),
        }
    }

    fn pointer(self, mutable: bool, to: &Type, path: &str) -> String {
        match (self, mutable) {
            (Language::C, true) => format!("{} *", to.c()),
            (Language::C, false) => format!("const {} *", to.c()),
            (Language::Rust, true) => format!("*mut {}", to.rust(path)),
            (Language::Rust, false) => format!("*const {}", to.rust(path)),
        }
    }

    fn word(self, name: &str) -> String {
        match self {
            Language::C => c_word(name),
            Language::Rust => name.to_string(),
        }
    }

    /// Nothing that comes back.
    pub fn nothing(self) -> &'static str {
        match self {
            Language::C => "void",
            Language::Rust => "()",
        }
    }

    /// A parameter or a field as it stands in a declaration.
    pub fn show(self, part: &Part) -> String {
        match self {
            Language::Rust => format!("{}: {}", part.name, part.of),
            Language::C => match part.of.split_once('[') {
                Some((of, count)) => format!("{of} {}[{count}", part.name),
                None if part.of.ends_with('*') => format!("{}{}", part.of, part.name),
                None => format!("{} {}", part.of, part.name),
            },
        }
    }

    /// The parts that a parameter becomes.
    fn parts(self, parameter: &Parameter, path: &str) -> Vec<Part> {
        let part = |name: &str, of: String| Part {
            name: self.word(name),
            of,
            at: parameter.at.clone(),
        };
        let name = &parameter.name;
        match &parameter.crossing {
            Crossing::Value(of) => vec![part(name, self.of(of, path))],
            Crossing::Lent { mutable, to } => vec![part(name, self.pointer(*mutable, to, path))],
            Crossing::Slice { mutable, of } => vec![
                part(name, self.pointer(*mutable, of, path)),
                part(
                    &format!("{name}_count"),
                    self.of(&Type::Plain("usize"), path),
                ),
            ],
        }
    }

    pub fn function(self, function: &Function, path: &str) -> Declaration {
        let parts = function.parameters.iter();
        let gives = function.gives.as_ref().map(|of| self.of(of, path));
        Declaration {
            name: function.name.clone(),
            parts: parts.flat_map(|p| self.parts(p, path)).collect(),
            gives: gives.unwrap_or(self.nothing().to_string()),
            at: function.at.clone(),
        }
    }

    pub fn record(self, of: &Struct, path: &str) -> Record {
        let parts = of.fields.iter().map(|field| Part {
            name: self.word(&field.name),
            of: self.of(&field.of, path),
            at: field.at.clone(),
        });
        Record {
            name: self.of(&Type::Struct(of.name.clone()), path),
            parts: parts.collect(),
            at: of.at.clone(),
        }
    }
}

impl Boundary {
    /// As a language has to declare it.
    pub fn declared(&self, language: Language) -> Declared {
        let functions = self.functions.iter();
        let structs = self.structs.iter();
        Declared {
            functions: functions.map(|f| language.function(f, "")).collect(),
            records: structs.map(|s| language.record(s, "")).collect(),
        }
    }

    /// The layout of every struct. A struct that holds itself, or one that is
    /// not of the boundary, has none.
    pub fn layouts(&self) -> Result<BTreeMap<String, Layout>, String> {
        let mut known = BTreeMap::new();
        while known.len() < self.structs.len() {
            let before = known.len();
            for of in &self.structs {
                if let Some(layout) = laid_out(of, &known) {
                    known.insert(of.name.clone(), layout);
                }
            }
            if known.len() == before {
                let without = self.structs.iter().find(|s| !known.contains_key(&s.name));
                return Err(without.map_or(String::new(), |s| {
                    format!("{}: {} cannot be laid out", s.at, s.name)
                }));
            }
        }
        Ok(known)
    }
}

/// Size, alignment, and the offset of each field.
#[derive(Clone, Debug, PartialEq, Eq)]
pub struct Layout {
    pub size: u64,
    pub align: u64,
    pub offsets: Vec<u64>,
}

fn size_and_align(of: &Type, known: &BTreeMap<String, Layout>) -> Option<(u64, u64)> {
    match of {
        Type::Plain(name) => {
            let row = PLAIN.iter().find(|row| row.0 == *name)?;
            Some((row.2, row.2))
        }
        Type::Struct(name) => known.get(name).map(|l| (l.size, l.align)),
        Type::Array(of, count) => {
            let (size, align) = size_and_align(of, known)?;
            Some((size * count, align))
        }
    }
}

/// C's rule: each field at the next multiple of its alignment, the whole a
/// multiple of the largest.
fn laid_out(of: &Struct, known: &BTreeMap<String, Layout>) -> Option<Layout> {
    let (mut end, mut largest, mut offsets) = (0u64, 1, Vec::new());
    for field in &of.fields {
        let (size, align) = size_and_align(&field.of, known)?;
        let offset = end.next_multiple_of(align);
        offsets.push(offset);
        end = offset + size;
        largest = largest.max(align);
    }
    Some(Layout {
        size: end.next_multiple_of(largest),
        align: largest,
        offsets,
    })
}
