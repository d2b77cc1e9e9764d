//! The claims, as assertions before the compilers: C's, C++'s and Rust's.

use crate::claims::{Claim, Test};
use crate::header;
use crate::model::PREFIX;
use crate::tools::{output, ran, Work};

/// A compiler, and how it is asked.
struct Compiler {
    program: &'static str,
    words: &'static [&'static str],
    file: &'static str,
    /// The words that make a program of a file.
    makes: &'static [&'static str],
}

const C: Compiler = Compiler {
    program: "cc",
    words: &["-std=c11", "-fsyntax-only", "-Wall", "-Wextra", "-Werror"],
    file: "held.c",
    makes: &["-std=c11", "-o", "values", "values.c"],
};

const CPP: Compiler = Compiler {
    program: "c++",
    words: &["-std=c++11", "-fsyntax-only", "-Wall", "-Wextra", "-Werror"],
    file: "held.cc",
    makes: &["-std=c++11", "-o", "values", "values.cc"],
};

const RUST: Compiler = Compiler {
    program: "rustc",
    words: &[
        "--edition=2021",
        "--crate-type=lib",
        "--emit=metadata",
        "--error-format=short",
    ],
    file: "held.rs",
    makes: &["--edition=2021", "-o", "values", "values.rs"],
};

/// What both files of C begin with.
const C_FRONT: &str = "#include \"hansobrik.h\"
#include <stdio.h>
#ifdef __cplusplus
#include <type_traits>
#define ASSERT static_assert
#define ALIGNMENT alignof
#define IS(what, ...) std::is_same<decltype(what), __VA_ARGS__>::value
#define LINKED(name) extern \"C\" decltype(name) name;
#else
#define ASSERT _Static_assert
#define ALIGNMENT _Alignof
#define IS(what, ...) _Generic((what), __VA_ARGS__: 1, default: 0)
#define LINKED(name)
#endif
";

const RUST_FRONT: &str = "#![allow(dead_code, unused_imports)]
mod raw;
mod refusal;
mod sizes;
";

/// The claims as assertions of C that have their numbers as words.
fn c_text(claims: &[Claim]) -> String {
    let mut out = C_FRONT.to_string();
    for (i, claim) in claims.iter().enumerate() {
        let test = match &claim.test {
            Test::Number(left, right) => format!("{left} == {right}"),
            Test::Type(left, right) => format!("IS({left}, {right})"),
        };
        out.push_str(&format!("ASSERT({test}, \"claim {i};\");\n"));
        // of a function: declared once more, as one of C; C++ takes no other
        if let Test::Type(left, _) = &claim.test {
            if let Some(name) = left.strip_prefix("&").filter(|n| n.starts_with(PREFIX)) {
                out.push_str(&format!("LINKED({name})\n"));
            }
        }
    }
    out
}

/// The claims as constants of Rust, each with its number behind it.
fn rust_text(claims: &[Claim]) -> String {
    let mut out = RUST_FRONT.to_string();
    for claim in claims {
        out.push_str(&match &claim.test {
            Test::Number(left, right) => {
                format!("const _: () = assert!({left} as u64 == {right});\n")
            }
            Test::Type(left, right) => format!("const _: {left} = {right};\n"),
        });
    }
    out
}

/// The claim that a line of a compiler's output is about.
fn about(compiler: &Compiler, row: &str) -> Option<usize> {
    if compiler.program == "rustc" {
        let rest = row.strip_prefix(compiler.file)?.strip_prefix(':')?;
        let line: usize = rest.split(':').next()?.parse().ok()?;
        return line.checked_sub(1 + RUST_FRONT.lines().count());
    }
    let (_, rest) = row.split_once("claim ")?;
    rest.split(';').next()?.parse().ok()
}

/// The values that a compiler gives to expressions.
fn values(work: &Work, compiler: &Compiler, lefts: &[&String]) -> Result<Vec<String>, String> {
    let ending = compiler.file.rsplit('.').next().unwrap_or("");
    let mut text = String::new();
    if compiler.program == "rustc" {
        text.push_str(RUST_FRONT);
        text.push_str("fn main() {\n");
        for left in lefts {
            text.push_str(&format!("    println!(\"{{}}\", {left} as u64);\n"));
        }
    } else {
        text.push_str(C_FRONT);
        text.push_str("int main(void) {\n");
        for left in lefts {
            text.push_str(&format!(
                "    printf(\"%llu\\n\", (unsigned long long)({left}));\n"
            ));
        }
    }
    work.write(&format!("values.{ending}"), &(text + "}\n"))?;
    ran(work.path(), compiler.program, compiler.makes)?;
    let program = work.path().join("values");
    let said = ran(work.path(), &program.to_string_lossy(), &[])?;
    Ok(said.lines().map(str::to_string).collect())
}

/// What an error says beside the claim that it is about.
fn detail(row: &str) -> String {
    let rest = row.split_once("error").map_or("", |(_, rest)| rest);
    match rest.split_once(": ") {
        Some((_, words)) if !words.contains("claim ") => format!("; {words}"),
        _ => String::new(),
    }
}

/// What a compiler refuses of the claims, a line for each.
fn asked(work: &Work, compiler: &Compiler, claims: &[Claim]) -> Result<Vec<String>, String> {
    let program = compiler.program;
    let text = match program {
        "rustc" => rust_text(claims),
        _ => c_text(claims),
    };
    work.write(compiler.file, &text)?;
    let words: Vec<&str> = compiler
        .words
        .iter()
        .copied()
        .chain([compiler.file])
        .collect();
    let output = output(work.path(), program, &words)?;
    if output.status.success() {
        return Ok(Vec::new());
    }

    let said = String::from_utf8_lossy(&output.stderr);
    let mut out = Vec::new();
    let mut wrong: Vec<(&Claim, &str)> = Vec::new();
    for row in said.lines().filter(|row| row.contains("error")) {
        match about(compiler, row).and_then(|i| claims.get(i)) {
            Some(claim) => wrong.push((claim, row)),
            None if row.starts_with("error: aborting") => {}
            None => out.push(format!("{program}: {row}")),
        }
    }
    let lefts: Vec<&String> = wrong
        .iter()
        .filter_map(|(claim, _)| match &claim.test {
            Test::Number(left, _) => Some(left),
            Test::Type(..) => None,
        })
        .collect();
    // where a name is not known there are no values, and the error says so
    let mut values = values(work, compiler, &lefts)
        .unwrap_or_default()
        .into_iter();
    for (claim, row) in wrong {
        let (what, at) = (&claim.what, &claim.at);
        let detail = detail(row);
        out.push(match (&claim.test, values.len()) {
            (Test::Number(_, right), 1..) => {
                let there = values.next().unwrap_or_default();
                format!("{program}: {what} is {there}, but {right} by the source, {at}")
            }
            (Test::Number(_, right), 0) => {
                format!("{program}: {what} is not {right} as by the source, {at}{detail}")
            }
            (Test::Type(..), _) => format!("{program}: not {what} as by the source, {at}{detail}"),
        });
    }
    if out.is_empty() {
        out.push(format!("{program}: {}", said.trim_end()));
    }
    Ok(out)
}

/// What C's compiler and C++'s refuse of the header, a line for each.
pub fn by_c(work: &Work, claims: &[Claim]) -> Result<Vec<String>, String> {
    let mut out = asked(work, &C, claims)?;
    out.extend(asked(work, &CPP, claims)?);
    let out = out.into_iter();
    Ok(out
        .map(|line| format!("{} by {line}", header::FILE))
        .collect())
}

/// What Rust's compiler refuses of the declarations.
pub fn by_rust(work: &Work, claims: &[Claim]) -> Result<Vec<String>, String> {
    let out = asked(work, &RUST, claims)?.into_iter();
    Ok(out
        .map(|line| format!("library/rust/src by {line}"))
        .collect())
}
