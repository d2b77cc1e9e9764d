#!/usr/bin/env python3
"""design_count.py [DIR]: the places of docs/DESIGN-PASS.md that a text search finds in a checkout, one line a count; with -v each place too."""
import collections, glob, re, sys

verbose = "-v" in sys.argv
top = next((a for a in sys.argv[1:] if a != "-v"), ".")
sources = {f[len(top) + 1 :]: open(f).read() for f in sorted(glob.glob(f"{top}/crates/*/src/*.rt"))}
# what is exported to C keeps its words
inner = {f: t for f, t in sources.items() if not re.match(r"crates/(rack_\w+|hansobrik)/", f)}


def count(point, what, pattern, within=inner):
    found = []
    for file, text in within.items():
        code = re.sub(r"//[^\n]*", "", text)
        for it in re.finditer(pattern, code, re.M):
            found.append(f"{file}:{code[:it.start()].count(chr(10)) + 1} {it.group(0).strip().splitlines()[0]}")
    print(f"{point}  {len(found):4}  {what}")
    if verbose:
        for it in found:
            print("          ", it)


count("1", "enums of our own", r"^(pub )?enum \w+")
count("1", "enums with a variant Refused", r"^    Refused\(")
count("1", "numbers of refusals as constants", r"^pub const \w+: u8 = \d+;", {f: t for f, t in inner.items() if "/refusals/" in f})
count("1", "functions that answer with a u8", r"-> u8$")
count("1", "structs with a number of a refusal beside values", r"^    (pub )?refused: u8")
count("1", "tests of a number or a flag for 0", r"\bif \w+(\.\w+)? != 0 \{")
count("2", "functions named for a width or a type beside another", r"\bfn \w+_(wide|bytes|f64)\b")
count("3", "loops", r"(^\s*|: )(while|loop)\b")
count("4", "equality, copying, filling by hand", r"\bfn (same|is|copy|fill|equal)\(")
count("4", "types that derive only Clone and Copy", r"#\[derive\(Clone, Copy\)\]")
facts = collections.defaultdict(set)
for file, text in inner.items():
    for it in re.finditer(r"fn (\w+)[^{;]*?requires \{ (.*?) \}\n", text, re.S):
        for fact in it.group(2).split(" × "):
            while fact.startswith("(") and fact.endswith(")"):
                fact = fact[1:-1]
            facts[fact.strip()].add(f"{file} {it.group(1)}")
often = {k: v for k, v in facts.items() if len(v) >= 3}
print(f"5  {len(often):4}  facts that three or more functions require, {sum(map(len, often.values()))} times in all")
if verbose:
    for k, v in sorted(often.items(), key=lambda it: -len(it[1])):
        print("          ", len(v), k)
count("6", "functions with a length beside a slice", r"\bfn \w+\([^)]*&(mut )?\[\w+\][^)]*\b(n|count|length): usize|\bfn \w+\([^)]*\b(n|count): usize, \w+: &")
count("7", "function pointers, dyn and closures passed in", r"\bdyn \w|\bfn\(|impl Fn")
answers = sum(len(re.findall(r"^pub [^\n:]* : goal\.", open(f).read(), re.M)) for f in glob.glob(f"{top}/crates/*/proofs/**/Answers.antt", recursive=True))
files = len(glob.glob(f"{top}/crates/*/proofs/**/Answers.antt", recursive=True))
lines = sum(len(open(f).read().splitlines()) for f in glob.glob(f"{top}/crates/*/proofs/**/*.antt", recursive=True))
print(f"8  {answers:4}  answers in {files} files; {lines} lines of proofs")
