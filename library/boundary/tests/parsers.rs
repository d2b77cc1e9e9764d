//! The three parsers on texts that say what must come out.

use boundary::calls::{commented, tested};
use boundary::header::{of_file, parse};
use boundary::model::{c_name, rust_name, Boundary, Language};
use boundary::numbers::{order, table};
use boundary::sizes::of_constants;
use boundary::source::boundary;
use boundary::tokens::{number, tokens};
use boundary::{compare, rust};

const SOURCE: &str = r##"
// #[unsafe(no_mangle)] pub extern "C" fn hansobrik_not_this(a: u8) -> u8
ghost use Rattle.std.specs.Prelude.{◌≡◌};
use other::Inner;

/* nor #[repr(C)] pub struct /* this */ one { pub a: u8 } */
#[repr(C)]
pub struct PairAnswer {
    pub refused: u8, // why
    pub pairs: [u16; 3],
    pub state: ReaderState,
}

#[repr(C)]
pub struct ReaderState {
    pub register: u16,
    pub count: u64,
    pub last: u8,
}

fn inner(a: Inner) -> u8
    ensures { result ≡ a' }
{
    let quote = b'"';
    a.of
}

#[unsafe(no_mangle)]
pub extern "C" fn hansobrik_pair(
    format: u8,
    line: &[u8],
    out: &mut [u16],
    register: &mut u16,
) -> PairAnswer
    ensures { result ≡ pair_of format }
{
    "#[unsafe(no_mangle)]"
}

#[unsafe(no_mangle)]
pub extern "C" fn hansobrik_none() -> ReaderState
    ensures { result ≡ none }
{
    none()
}
"##;

fn of(text: &str) -> Result<Boundary, String> {
    boundary([("crates/rack_x/src/lib.rt", text)].into_iter())
}

/// Declarations one below the other.
fn shown(boundary: &Boundary, language: Language) -> Vec<String> {
    let declared = boundary.declared(language);
    let functions = declared.functions.iter().map(|f| {
        let parts: Vec<String> = f.parts.iter().map(|p| language.show(p)).collect();
        format!("{} {}({})", f.gives, f.name, parts.join(", "))
    });
    let records = declared.records.iter().map(|r| {
        let parts: Vec<String> = r.parts.iter().map(|p| language.show(p)).collect();
        format!("{} {{ {} }}", r.name, parts.join("; "))
    });
    functions.chain(records).collect()
}

#[test]
fn the_source_as_c_declares_it() {
    assert_eq!(
        shown(&of(SOURCE).unwrap(), Language::C),
        [
            "hansobrik_pair_answer hansobrik_pair(uint8_t format, const uint8_t *line, \
             size_t line_count, uint16_t *out, size_t out_count, uint16_t *register_)",
            "hansobrik_state hansobrik_none()",
            "hansobrik_pair_answer { uint8_t refused; uint16_t pairs[3]; hansobrik_state state }",
            "hansobrik_state { uint16_t register_; uint64_t count; uint8_t last }",
        ]
    );
}

#[test]
fn the_source_as_rust_declares_it() {
    assert_eq!(
        shown(&of(SOURCE).unwrap(), Language::Rust),
        [
            "PairAnswer hansobrik_pair(format: u8, line: *const u8, line_count: usize, \
             out: *mut u16, out_count: usize, register: *mut u16)",
            "State hansobrik_none()",
            "PairAnswer { refused: u8; pairs: [u16; 3]; state: State }",
            "State { register: u16; count: u64; last: u8 }",
        ]
    );
}

#[test]
fn places_are_those_of_the_text() {
    let found = of(SOURCE).unwrap();
    let line = |words: &str| {
        let before = &SOURCE[..SOURCE.find(words).unwrap()];
        format!(
            "crates/rack_x/src/lib.rt:{}",
            before.matches('\n').count() + 1
        )
    };
    assert_eq!(found.structs[0].fields[1].at, line("pub pairs"));
    assert_eq!(
        found.functions[0].at,
        line("pub extern \"C\" fn hansobrik_pair")
    );
    assert_eq!(found.functions[0].parameters[2].at, line("out: &mut"));
}

#[test]
fn the_layout_is_cs() {
    let layouts = of(SOURCE).unwrap().layouts().unwrap();
    let state = &layouts["ReaderState"];
    assert_eq!(
        (state.size, state.align, &state.offsets[..]),
        (24, 8, &[0, 8, 16][..])
    );
    let pair = &layouts["PairAnswer"];
    assert_eq!(
        (pair.size, pair.align, &pair.offsets[..]),
        (32, 8, &[0, 2, 8][..])
    );
}

#[test]
fn what_is_not_read_is_an_error() {
    for (old, new, words) in [
        (
            "pub extern \"C\" fn hansobrik_none",
            "pub fn hansobrik_none",
            "`extern`",
        ),
        (
            "fn hansobrik_none",
            "fn none",
            "does not begin with hansobrik_",
        ),
        (
            "fn hansobrik_none",
            "fn hansobrik_pair",
            "has hansobrik_pair too",
        ),
        (
            "#[unsafe(no_mangle)]\npub extern \"C\" fn hansobrik_none",
            "pub extern \"C\" fn hansobrik_none",
            "without",
        ),
        (
            "#[unsafe(no_mangle)]\npub",
            "#[no_mangle]\npub",
            "`no_mangle`",
        ),
        (
            "#[repr(C)]\npub struct Reader",
            "#[repr(C, packed)]\npub struct Reader",
            "`repr`",
        ),
        (
            "#[repr(C)]\npub struct Reader",
            "pub struct Reader",
            "no #[repr(C)] struct",
        ),
        ("pub count: u64", "count: u64", "`pub`"),
        ("pub count: u64", "pub count: Inner", "Inner of crate other"),
        ("pub count: u64", "pub count: [u8; N]", "a number"),
        (
            "line: &[u8]",
            "line: &[u8; 4]",
            "an array crosses in a struct alone",
        ),
        (
            "-> PairAnswer",
            "-> rack_y::PairAnswer",
            "a contract or a body",
        ),
        ("pub struct PairAnswer {", "pub struct ReaderState {", "too"),
    ] {
        let text = SOURCE.replacen(old, new, 1);
        assert_ne!(text, SOURCE, "{old}");
        let said = of(&text).unwrap_err();
        assert!(said.contains(words), "{new}: {said}");
        assert!(said.starts_with("crates/rack_x/src/lib.rt:"), "{said}");
    }
}

#[test]
fn a_struct_is_the_one_that_its_file_means() {
    let user = "use rack_a::A;\n#[unsafe(no_mangle)]\npub extern \"C\" fn hansobrik_a() -> A {}\n";
    let a = "#[repr(C)]\npub struct A { pub n: u8 }\n";
    let both = |user: &str| {
        let files = [
            ("crates/rack_a/src/lib.rt", a),
            ("crates/rack_b/src/lib.rt", user),
        ];
        boundary(files.into_iter())
    };
    assert!(both(user).is_ok());
    let other = user.replace("use rack_a::A", "use plain::A");
    assert!(both(&other).unwrap_err().contains("A of crate plain"));
    for (other, words) in [
        ("use rack_a::{B, A};", ""),
        ("use rack_a::m::{A};", ""),
        ("use plain::{B, A};", "A of crate plain"),
        (
            "use rack_a::B as A;",
            "A of crate rack_a under another name",
        ),
    ] {
        let said = both(&user.replace("use rack_a::A;", other)).err();
        assert!(said.is_some() != words.is_empty(), "{other}");
        assert!(said.unwrap_or_default().contains(words), "{other}");
    }
    let none = user.replace("use rack_a::A;", "");
    assert!(both(&none).unwrap_err().contains("A of crate rack_b"));
}

#[test]
fn names_follow_the_rule() {
    assert_eq!(c_name("CountAnswer"), "hansobrik_count_answer");
    assert_eq!(c_name("ReaderState"), "hansobrik_state");
    assert_eq!(c_name("AssemblyRecord"), "hansobrik_assembly");
    assert_eq!(rust_name("CountAnswer"), "CountAnswer");
    assert_eq!(rust_name("ReaderState"), "State");
    assert_eq!(rust_name("AssemblyRecord"), "Assembly");
}

const HEADER: &str = r#"
_Static_assert(sizeof(size_t) == 8, "a; b { c");
enum { HANSOBRIK_A = 1, HANSOBRIK_B = 0x7FFF, HANSOBRIK_C = 1 + 1 };
typedef struct {
    uint8_t refused;
    uint16_t pairs[3];
    _Bool whole;
} hansobrik_pair_answer;
typedef struct { hansobrik_pair_answer last; const uint8_t *rest; } hansobrik_own;
hansobrik_pair_answer hansobrik_pair(uint8_t format, const uint8_t *line, size_t line_count,
                                     uint16_t *register_);
uint32_t hansobrik_none(void);
static inline _Bool hansobrik_helps(hansobrik_own *own)
{
    if (own->rest) { return 1; }
    return 0;
}
"#;

#[test]
fn the_header_is_read() {
    let header = parse(&tokens(HEADER)).unwrap();
    let functions: Vec<String> = header
        .declared
        .functions
        .iter()
        .map(|f| {
            let parts: Vec<String> = f.parts.iter().map(|p| Language::C.show(p)).collect();
            format!("{} {}({}) {}", f.gives, f.name, parts.join(", "), f.at)
        })
        .collect();
    assert_eq!(
        functions,
        [
            "hansobrik_pair_answer hansobrik_pair(uint8_t format, const uint8_t *line, \
             size_t line_count, uint16_t *register_) library/hansobrik.h:10",
            "uint32_t hansobrik_none() library/hansobrik.h:12",
        ]
    );
    let pair = &header.declared.records[0];
    let fields: Vec<String> = pair.parts.iter().map(|p| Language::C.show(p)).collect();
    assert_eq!(pair.name, "hansobrik_pair_answer");
    assert_eq!(
        fields,
        ["uint8_t refused", "uint16_t pairs[3]", "bool whole"]
    );
    let values: Vec<(&str, Option<u64>)> = header
        .enumerators
        .iter()
        .map(|e| (e.name.as_str(), e.value))
        .collect();
    let expected = [
        ("HANSOBRIK_A", Some(1)),
        ("HANSOBRIK_B", Some(0x7FFF)),
        ("HANSOBRIK_C", None),
    ];
    assert_eq!(values, expected);
    assert_eq!(header.inlines[0].name, "hansobrik_helps");
    assert_eq!(header.own(), ["hansobrik_own"]);
}

#[test]
fn a_struct_of_a_call_is_not_the_headers_own() {
    let text = HEADER.replace(
        "uint32_t hansobrik_none(void)",
        "uint32_t hansobrik_none(hansobrik_own *own)",
    );
    assert_eq!(parse(&tokens(&text)).unwrap().own(), [""; 0]);
}

#[test]
fn what_the_header_has_beside_this_is_an_error() {
    for (text, words) in [
        ("extern int hansobrik_count;", "was expected"),
        ("typedef uint8_t hansobrik_byte;", "was expected"),
        ("uint8_t hansobrik_a(uint8_t);", "is not read"),
        ("uint8_t hansobrik_a();", "(void)"),
        ("uint8_t hansobrik_a(void) { return 0; }", "`;`"),
        ("enum { HANSOBRIK_A };", "`=`"),
    ] {
        let said = parse(&tokens(text)).unwrap_err();
        assert!(said.contains(words), "{text}: {said}");
    }
}

#[test]
fn lines_of_other_files_are_left_out() {
    let text = "# 1 \"hansobrik.h\"\na\n\
        # 1 \"/usr/include/stdint.h\" 1 3\nb\n# 31 \"hansobrik.h\" 2\n\nc\n";
    let found: Vec<(String, usize)> = of_file(text, "hansobrik.h")
        .into_iter()
        .map(|t| (t.text, t.line))
        .collect();
    assert_eq!(found, [("a".to_string(), 1), ("c".to_string(), 32)]);
}

#[test]
fn the_declarations_of_rust_are_read() {
    let text = r#"
//! Words.
use core::ffi;
/// More.
#[repr(C)]
#[derive(Clone)]
pub struct Pair {
    /// A field.
    pub pairs: [u16; 3],
    pub state: State,
}
extern "C" {
    pub fn hansobrik_pair(line: *const u8, line_count: usize) -> Pair;
    pub fn hansobrik_put(out: *mut u16);
}
"#;
    let found = rust::declared(text).unwrap();
    let show = |p: &boundary::model::Part| Language::Rust.show(p);
    let fields: Vec<String> = found.records[0].parts.iter().map(show).collect();
    assert_eq!(fields, ["pairs: [u16; 3]", "state: State"]);
    let parts: Vec<String> = found.functions[0].parts.iter().map(show).collect();
    assert_eq!(parts, ["line: *const u8", "line_count: usize"]);
    assert_eq!(found.functions[0].gives, "Pair");
    assert_eq!(found.functions[1].gives, "()");
    assert_eq!(found.functions[1].at, "library/rust/src/raw.rs:14");
    for (old, new) in [
        ("#[repr(C)]", ""),
        ("repr(C)", "repr(C, packed)"),
        ("extern \"C\"", "extern \"system\""),
        ("pub fn hansobrik_put", "fn hansobrik_put"),
        ("use core::ffi;", "pub type u16 = u8;"),
    ] {
        assert!(
            rust::declared(&text.replacen(old, new, 1)).is_err(),
            "{new}"
        );
    }
}

#[test]
fn differences_are_named() {
    let asked = of(SOURCE).unwrap().declared(Language::Rust);
    let side = compare::Side {
        language: Language::Rust,
        file: "raw.rs",
        name: "raw.rs",
    };
    assert!(compare::declared(&side, &asked, &asked, &[]).is_empty());
    let mut other = asked.clone();
    other.functions[0].parts.swap(1, 2);
    let said = compare::declared(&side, &asked, &other, &[]);
    assert_eq!(said.len(), 2);
    assert!(said[0].contains("hansobrik_pair: parameter 2 is `line_count: usize` in raw.rs"));
    assert!(said[0].contains("`line: *const u8` by the source"));
    let mut other = asked.clone();
    other.functions.push(other.functions[1].clone());
    assert!(
        compare::declared(&side, &asked, &other, &[])[0].contains("hansobrik_none stands twice")
    );
}

#[test]
fn numbers_and_tables_are_read() {
    assert_eq!(number("44_356"), Some(44_356));
    assert_eq!(number("0x7FFF"), Some(0x7FFF));
    assert_eq!(number("x"), None);
    assert_eq!(
        order("order : List ℕ\norder = 1 ∷ 12 ∷ 4 ∷ []\n"),
        Ok(vec![1, 12, 4])
    );
    assert!(order("order = 1 ∷ 12").is_err());
    assert!(order("other = 1 ∷ []").is_err());
    let rows = table("| no | name |\n|---|---|\n| 1 | `FORMAT` | x |\n| 12 | `STATE` | y |\n");
    let rows: Vec<(Option<u64>, &str, &str)> = rows
        .iter()
        .map(|r| (r.value, r.name.as_str(), r.at.as_str()))
        .collect();
    let expected = [
        (Some(1), "FORMAT", "docs/REFUSALS.md:3"),
        (Some(12), "STATE", "docs/REFUSALS.md:4"),
    ];
    assert_eq!(rows, expected);
}

const TESTS: &str = "
abbrev pub slotTest : Desk → Test
slotTest d = (19, leb d 1)

abbrev pub slotTests : Desk → Bool → List Test
slotTests d there = slotTest d ∷ (17, not there) ∷ [] -- (97, no) number
";

const ORDERS: &str = "
use Rattle·histories.specs.Tests.{slotTests}

-- (99, no) number
abbrev pub formatTest : ℕ → Test
formatTest f = (1, unknown f)

abbrev pub bothTests : ℕ → Layout → List Test
bothTests f l =
    (5, not (eqb f 0)) ∷ formatTest f ∷ [] -- (98, no) number

pub record Orders : Type 0 where
  pub format-of : (f : ℕ) → Gives (formatRefusal f) (formatTest f ∷ [])
  -- two calls
  pub step : (register : ℕ) → Gives (stepRefusal register) ((12, ltb 3 register) ∷ [])
  pub read : (f : ℕ) (s : State)
      → Gives (readRefusal f s) (bothTests f 1 ++ (7, g s) ∷ [])
  pub mapping-of : (f : ℕ) → Gives (mappingRefusal f) ((4, outside 1 5 f) ∷ (9, f) ∷ [])
  pub elements : (f : ℕ) → Gives (elementsRefusal f) ((4, outside 1 5 f) ∷ (9, f) ∷ [])
  pub publish : (d : Desk) → Gives (publishRefusal d) (slotTests d (filling d))
  pub release : (d : Desk) → Gives (releaseRefusal d) (slotTests d (held d) ++ formatTest d ∷ [])
";

#[test]
fn the_tests_of_a_call_are_read() {
    let found = tested(TESTS, ORDERS).unwrap();
    assert_eq!(found["hansobrik_format"], [1]);
    assert_eq!(found["hansobrik_step"], [12]);
    assert_eq!(found["hansobrik_stepped"], [12]);
    assert_eq!(found["hansobrik_read"], [5, 1, 7]);
    assert_eq!(found["hansobrik_mapping"], [9]);
    assert_eq!(found["hansobrik_fresh"], [0; 0]);
    assert_eq!(found["hansobrik_empty_report"], [0; 0]);
    assert_eq!(found["hansobrik_publish"], [19, 17]);
    assert_eq!(found["hansobrik_release"], [19, 17, 1]);
    assert_eq!(found["hansobrik_seen"], [19, 17, 1]);
    assert_eq!(found.len(), 13);
    for (old, new) in [
        ("record Orders", "record Others"),
        ("pub read :", "pub fresh :"),
        ("(4, outside 1 5 f) ∷ (9, f)", "(9, f)"),
    ] {
        let orders = ORDERS.replacen(old, new, 1);
        assert!(tested(TESTS, &orders).is_err(), "{new}");
    }
}

#[test]
fn the_refusals_of_a_comment_are_read() {
    let text = "/* Refused: NOT, THIS. hansobrik_b(x) */
/* A call.
 * Refused: FORMAT, SHORT_INPUT. More. */
uint8_t hansobrik_b(uint8_t a);
uint8_t hansobrik_bb(uint8_t a);

/* Never refused. */
uint8_t hansobrik_c(void);

/* Nothing. */
uint8_t hansobrik_d(void);
static inline void f(void)
{
    hansobrik_e(1);
}
";
    let names = |call: &str| commented(text, call).map(|found| found.0);
    let both = Some(vec!["FORMAT".to_string(), "SHORT_INPUT".to_string()]);
    assert_eq!(names("hansobrik_b"), both);
    assert_eq!(names("hansobrik_bb"), both);
    assert_eq!(names("hansobrik_c"), Some(Vec::new()));
    assert_eq!(names("hansobrik_d"), None);
    assert_eq!(names("hansobrik_e"), None);
    let at = commented(text, "hansobrik_bb").unwrap().1;
    assert_eq!(at, "library/hansobrik.h:5");
}

#[test]
fn constants_are_computed() {
    let text = tokens(
        "const A: usize = 10;
pub const B: usize = (Self::A + A * 3) / 8;
pub const C: usize = B / 0;
const D: usize = other();
",
    );
    let value = |words: &str| of_constants("f", &text, words);
    assert_eq!(value("A"), Ok((10, 1)));
    assert_eq!(value("B"), Ok((5, 2)));
    assert_eq!(value("B * 2 + 1"), Ok((11, 2)));
    for words in ["C", "D", "E", "A A"] {
        assert!(value(words).is_err(), "{words}");
    }
}
