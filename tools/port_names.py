#!/usr/bin/env python3
"""Brings the repository's own definitions and lemmas to today's spelling: words in snake case, types in camel case.

usage: tools/port_names.py [--check]      at the top of the repository, once, right after the toolchain's own port script

What turns is what the files of specs/ and proofs/ declare: definitions, lemmas, fields and cases. `bitsOf` and `bits-of` become
`bits_of`; a definition that gives a type and begins small becomes `IsTail`. Functions, parameters, strings and what the
toolchain's library names stay. In a comment and in the pages only words between backticks turn, but for camel-case ones, which
turn wherever they stand in a comment. --check writes nothing and lists the names that fall together.
"""
import glob
import os
import re
import sys

WORD = re.compile(r"[A-Za-z][A-Za-z0-9_'-]*")
HEAD = re.compile(r"^(?:(?:unfoldable|abbrev|pub|private)\s+)*([A-Za-z][A-Za-z0-9_'-]*)\s*:(?!=)\s*(.*)$")
KIND = re.compile(r"^(?:(?:abbrev|pub)\s+)*(data|record)\s+(?:pub\s+)?([A-Za-z][A-Za-z0-9_'-]*)")
INNER = re.compile(r"^\s+(?:(?:unfoldable|abbrev|pub|private)\s+)*([A-Za-z][A-Za-z0-9_'-]*)\s*:(?!=)\s*(.*)$")
CASE = re.compile(r"^\s+\|?\s*([A-Za-z][A-Za-z0-9_'-]*)\s*(?::|\||$)")
USE = re.compile(r"\buse\s+([\w.'+-]+)\.\{([^}]*)\}")


# Lemmas that would take the name of a definition: they say what it is.
APART = "before-sync doc-word joined-pixel lines-in low-first mirror-byte mode-byte named-by new-bit no-take revision-given slot-tests some-over take-tests tally-at bit-and".split()
# Fields and inner laws whose new name would hide another in their file, or is the library's: they stay.
KEPT = "format-of empty-report fresh-assembly put-sync-left write-line-left bit-of taken-lines pixels-in level-revision f64-field mul-two cut-whole run-append holds-first".split()
# Names of today that a renamed definition would hide, file by file.
MOVED = {"crates/demands/specs/Ones.antt": {"read_left": "reader_left"}, "crates/demands/proofs/AsFormat1.antt": {"read_left": "reader_left"}}
# Modules whose name the toolchain now takes for its own.
MODULES = {"crates/demands/specs/Contracts.antt": ("Contracts", "Promises")}


def own_files():
    return sorted(glob.glob("crates/*/specs/**/*.antt", recursive=True) + glob.glob("crates/*/proofs/**/*.antt", recursive=True))


def of_function(path):
    return re.match(r"crates/[^/]+/proofs/[^/]+/", path) is not None


def snake(word):
    word = re.sub(r"(?<=[a-z0-9])([A-Z])(?=[A-Z])", r"_\1", word)
    word = re.sub(r"(?<=[a-z0-9])([A-Z])", lambda m: "_" + m[1].lower(), word)
    return word.replace("-", "_").lower()


def camel(word):
    return "".join(p[:1].upper() + p[1:] for p in re.split(r"[-_]", word))


def declared(path):
    """The names that a file declares, each with whether it is a type of its own."""
    with open(path, encoding="utf-8") as f:
        lines = f.read().split("\n")
    found, kind = {}, None
    for i, line in enumerate(lines):
        line = line.split("--")[0]
        if not line.strip():
            continue
        if not line[0].isspace():
            kind = None
            k = KIND.match(line)
            if k:
                kind = k[1]
                found[k[2]] = True
                continue
            h = HEAD.match(line)
            if h:
                rest, j = h[2], i + 1
                while j < len(lines) and lines[j][:1].isspace():
                    rest += " " + lines[j].strip()
                    j += 1
                if "goal." in rest or "tie." in rest or "statement" in rest:
                    continue
                found[h[1]] = re.search(r"(→\s*)?Type 0\s*$", rest.strip()) is not None
        else:
            # a field or a case, or a definition or a law inside a module or behind a `where`
            m = INNER.match(line) or (CASE.match(line) if kind else None)
            if m and not line.strip().startswith("let ") and m[1] not in KEPT:
                found.setdefault(m[1], False)
    return found


def table():
    names = {}
    for path in own_files():
        for name, is_type in declared(path).items():
            names.setdefault(name, set()).add(is_type)
    out = {}
    for name, kinds in names.items():
        if name in APART:
            new = snake(name) + "_is"
        elif name[0].isupper():
            new = camel(name) if "-" in name else name
        elif kinds == {True}:
            new = camel(re.sub(r"(?<=[a-z0-9])([A-Z])", r"-\1", name))
        else:
            new = snake(name)
        if new != name:
            out[name] = new
    return out, names


def library(kit):
    """Words that the toolchain's library declares and that a row could be mistaken for."""
    found = set()
    for path in glob.glob(os.path.join(kit, "**", "*.antt"), recursive=True):
        with open(path, encoding="utf-8", errors="replace") as f:
            for line in f:
                m = HEAD.match(line)
                if m:
                    found.add(m[1])
    return found


def imports(text, crates):
    """The names that a file takes from crates of this repository, and those that it takes from elsewhere."""
    ours, others = set(), set()
    for m in USE.finditer(text):
        parts = m[1].split(".")
        own = parts[0] == "Rattle" and len(parts) > 1 and parts[1] in crates
        for item in m[2].split(","):
            item = item.strip().split(" as ")[0].strip()
            (ours if own else others).add(item)
    return ours, others


def turn_comment(text, rows, skip):
    text = re.sub(r"`[^`\n]*`", lambda m: WORD.sub(lambda w: rows.get(w[0], w[0]) if w[0] not in skip else w[0], m[0]), text)
    return re.sub(r"(?<![\w`.-])[a-z][a-z0-9_]*[A-Z]\w*", lambda w: rows.get(w[0], w[0]) if w[0] not in skip else w[0], text)


def turn_antt(text, rows, skip, dots):
    out = []
    for line in text.split("\n"):
        at = re.search(r"(?<![^\s])--", line)
        code, comment = (line[: at.start()], line[at.start():]) if at else (line, "")
        code = turn_code(code, rows, skip, dots)
        out.append(code + (turn_comment(comment, rows, skip) if comment else ""))
    return "\n".join(out)


def turn_code(code, rows, skip, dots):
    def one(m):
        word = m[0]
        if word not in rows or word in skip:
            return word
        if m.start() and code[m.start() - 1] == "." and not (m.start() > 1 and code[m.start() - 2] == "."):
            return rows[word] if word in dots else word
        return rows[word]

    return WORD.sub(one, code)


def turn_rt(text, rows, skip, dots):
    out = []
    for line in text.split("\n"):
        at = line.find("//")
        code, comment = (line[:at], line[at:]) if at >= 0 else (line, "")
        parts = re.split(r'("(?:\\.|[^"\\])*")', code)
        code = "".join(p if i % 2 else turn_code(p, rows, skip, dots) for i, p in enumerate(parts))
        out.append(code + (turn_comment(comment, rows, skip) if comment else ""))
    return "\n".join(out)


def main():
    check = "--check" in sys.argv[1:]
    kit = os.environ.get("RATTLE_KIT") or os.path.dirname(os.path.dirname(os.path.realpath(os.popen("command -v rt").read().strip())))
    crates = set(os.listdir("crates"))
    rows, names = table()
    lib = library(os.path.join(kit, "rattle"))
    # fields and members of our own modules, which stand behind a dot
    dots = set()
    for path in own_files():
        dots |= set(declared(path))
    new_names = {}
    for old, new in rows.items():
        new_names.setdefault(new, set()).add(old)
    fall = {n: o for n, o in new_names.items() if len(o) > 1 or n in names}
    for n, o in sorted(fall.items()):
        print("falls together:", n, "from", ", ".join(sorted(o)), "(stands already)" if n in names else "")
    files = own_files() + sorted(glob.glob("crates/*/src/**/*.rt", recursive=True)) + sorted(glob.glob("crates/*/must-fail/*.edit"))
    for path in files:
        with open(path, encoding="utf-8") as f:
            text = f.read()
        ours, others = imports(text, crates)
        here = set(declared(path)) if path.endswith(".antt") else set()
        skip = {w for w in rows if w in others and w not in ours and w not in here}
        skip |= {w for w in rows if w in lib and w not in ours and w not in here and not path.endswith(".edit")}
        words = set(WORD.findall(text))
        for w in words:
            if w in rows and w not in skip and rows[w] in words:
                print("look:", path, w, "->", rows[w], "stands in the file already")
        for old, moved in MOVED.get(path, {}).items():
            text = re.sub(r"(?<![\w.'-])" + old + r"(?= *[:=])", moved, text)
        new = (turn_antt if path.endswith(".antt") else turn_rt)(text, rows, skip, dots)
        for module, (old, moved) in MODULES.items():
            crate = module.split("/")[1]
            new = new.replace(f"Rattle.{crate}.specs.{old}.", f"Rattle.{crate}.specs.{moved}.")
            if path == f"crates/{crate}/specs/Lib.antt":
                new = re.sub(rf"\bmod {old}\b", f"mod {moved}", new)
        if not check:
            with open(path, "w", encoding="utf-8") as f:
                f.write(new)
    for module, (old, moved) in MODULES.items():
        if not check and os.path.exists(module):
            os.rename(module, module.replace(old, moved))
    for path in sorted(glob.glob("*.md") + glob.glob("docs/**/*.md", recursive=True) + glob.glob("library/**/*.md", recursive=True)):
        with open(path, encoding="utf-8") as f:
            text = f.read()
        new = re.sub(r"`[^`\n]*`", lambda m: WORD.sub(lambda w: rows.get(w[0], w[0]), m[0]), text)
        if new != text and not check:
            with open(path, "w", encoding="utf-8") as f:
                f.write(new)
    print(len(rows), "names turn")


if __name__ == "__main__":
    main()
