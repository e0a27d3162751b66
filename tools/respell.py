#!/usr/bin/env python3
"""Spells the names that specs/ and proofs/ declare as the language's names are spelled today.

usage: python3 tools/respell.py [--check]      at the top of the repository; --check writes nothing and prints the table

Functions, lemmas, fields and constructors go to snake case; a dash stays only where a lemma's name joins the names of a list's
function and of another, as in `length-spelled`; a lemma that would have a definition's name gets `_lem`; a statement that was spelled with a dash goes to
camel case, as `Fault-keeps` to `FaultKeeps`. Names that the Rust sources declare, strings, inputs and outputs keep their
spelling, and so do the names that the check makes for a function's goals and steps. Two old names that would fall together
in one file stop the script before it writes anything.
"""

import os
import re
import sys

WORD = re.compile(r'[^\s(){}.;,@"«»\[\]]+')
DECLARED = re.compile(r'(?m)^(?: +(?=pub ))?(?:abbrev |unfoldable |pub )*([^\s(){}.;,@"«»]+)(?: \{[^{}\n]*\})* : ')
MEMBERS = re.compile(r"(?m)^ +(?:pub |abbrev |unfoldable )*((?:[^\s(){}.;,@\"«»]+ )+): ")
ALIAS = re.compile(r" as ([a-z][^\s(){}.;,@\"«»]*)")
QUIET = re.compile(r'"(?:[^"\\\n]|\\.)*"|--[^\n]*')
QUIET_RUST = re.compile(r'"(?:[^"\\]|\\.)*"|//[^\n]*|b?\'(?:\\.|[^\'\\])\'')
MADE_HEADS = {"c", "goal", "w", "l", "g", "need"}
HOLDERS = {"args", "initial", "fn", "new", "auto", "ranges", "row"}
GOAL = re.compile(r"(?m)^(?:abbrev |pub )*(\S+) : goal\.")
TOP = re.compile(r'(?m)^(?:abbrev |unfoldable |pub )+([^\s(){}.;,@"«»]+)(?: \{[^{}\n]*\})* : .*→')
LIBRARY = set(
    "length take drop set reverse map replicate append get_or slice_index slice_index_or min max sum cond not put_mid".split()
)
# Two lemmas beside a definition of their own file, and a test that was spelled as a fact. Each row goes with a name that must
# be declared in its old spelling, so that a second run does nothing.
BY_HAND = {"all-bytes": ("all_bytes_lem", "all-bytes"), "moved_on": ("moved_on_lem", "movedOn"), "Tested": ("is_tested", "Tested")}
# Fields of two records, which do not meet.
OF_TWO_RECORDS = {"voc_link"}


def is_of_function(path):
    return os.path.basename(path) in ("Answers.antt", "Invariants.antt")


def texts():
    for folder, dirs, files in os.walk("crates"):
        dirs[:] = sorted(d for d in dirs if d not in ("out", "target", "data"))
        for name in sorted(files):
            if name.endswith((".antt", ".rt")):
                yield os.path.join(folder, name)


def read(path):
    with open(path, encoding="utf-8") as f:
        return f.read()


def words_of(name):
    name = name.replace("getD", "get_or")
    return re.sub(r"(?<=[a-z0-9])([A-Z])", lambda m: "_" + m[1].lower(), name)


def camel(name):
    return "".join(part[:1].upper() + part[1:] for part in name.split("-"))


def respelled(name, functions):
    if name in BY_HAND:
        return BY_HAND[name][0]
    if not re.match(r"[A-Za-z]", name):
        return name
    if name[0].isupper():
        if "-" in name and name.split("-")[1][:1].isalpha():
            return camel(name)
        return name
    parts = [words_of(p) for p in name.split("-")]
    new = parts[0]
    joined = parts[0] in LIBRARY and all(part in functions for part in parts[1:])
    for part in parts[1:]:
        new += ("-" if joined else "_") + part
    return new


def main():
    check = "--check" in sys.argv[1:]
    declared, functions, defined = set(), set(LIBRARY), set()
    goals = set()
    for path in texts():
        if not path.endswith(".antt"):
            continue
        if is_of_function(path):
            goals |= set(GOAL.findall(read(path)))
            continue
        code = QUIET.sub(lambda m: " " * len(m[0]), read(path))
        names = set(DECLARED.findall(code))
        names |= set(re.findall(r"(?m)^(?:pub )?(?:record|data) (\S+)", code))
        names |= {name for row in MEMBERS.findall(code) for name in row.split()}
        names |= {name for line in re.findall(r"(?m)^use .*$", code) for name in ALIAS.findall(line)}
        declared |= names
        if "/specs/" in path:
            defined |= names
            functions |= {words_of(n) for n in TOP.findall(code) if n[0].islower() and "-" not in n}
    by_hand = {n for n, (_, old) in BY_HAND.items() if old in declared}
    declared = {n for n in declared if n not in goals and n not in BY_HAND} | by_hand
    table = {n: respelled(n, functions) for n in declared}
    taken = {table[n] for n in defined & declared}
    table = {n: new + "_lem" if n not in defined and new in taken else new for n, new in table.items()}
    table = {a: b for a, b in table.items() if a != b}
    if check:
        for a, b in sorted(table.items()):
            print(f"{a}\t{b}")
    # names that fall together
    back = {}
    for a, b in table.items():
        back.setdefault(b, set()).add(a)
    for n in declared:
        if n not in table and n in back:
            back[n].add(n)
    bad = 0
    for path in texts():
        text = read(path)
        code = (QUIET if path.endswith(".antt") else QUIET_RUST).sub(" ", text)
        code = re.sub(r"\buse [\w+.]+\.", " ", code)
        if path.endswith(".rt"):
            code = re.sub(r"(?m)^use [^;]*;|\bfn \w+|\b\w+(?=::|\()|(?<=::)\w+", " ", code)
        here = set(WORD.findall(code))
        for old in sorted(here & set(table)):
            new = table[old]
            others = (here & back[new]) - {old}
            if (new in here and new not in table or others) and new not in OF_TWO_RECORDS:
                print(f"falls together in {path}: {old} -> {new} {sorted(others)}", file=sys.stderr)
                bad += 1
    if bad or check:
        return 1 if bad else 0

    of_rust = {old: new for old, new in table.items() if re.search("[A-Z-]", old)}

    def turned(text, made, table=table):
        """The text with each word of the table turned; in a function's own proof files the names behind its heads stay."""
        out, last = [], 0
        behind = []
        for m in WORD.finditer(text):
            gap = text[last : m.start()]
            dotted = gap == "." and last > 0
            behind = behind + [m[0]] if dotted else [m[0]]
            stays = False
            if made and len(behind) > 1 and behind[0] in MADE_HEADS:
                if len(behind) == 2 or (len(behind) == 3 and behind[1] in HOLDERS):
                    stays = True
            if len(behind) > 1 and behind[0] == "Rattle":
                stays = True
            out.append(gap)
            out.append(m[0] if stays else table.get(m[0], m[0]))
            last = m.end()
        out.append(text[last:])
        return "".join(out)

    def around(text, quiet, made):
        table_here = of_rust if quiet is QUIET_RUST else table
        out, last = [], 0
        for m in quiet.finditer(text):
            out.append(turned(text[last : m.start()], made, table_here))
            it = m[0]
            if it.startswith(("--", "//")):
                it = re.sub(r"`[^`\n]+`", lambda s: turned(s[0].strip("`"), False).join("``"), it)
            out.append(it)
            last = m.end()
        out.append(turned(text[last:], made, table_here))
        return "".join(out)

    count = 0
    for path in texts():
        text = read(path)
        new = around(text, QUIET if path.endswith(".antt") else QUIET_RUST, path.endswith(".antt") and is_of_function(path))
        if new != text:
            count += 1
            with open(path, "w", encoding="utf-8") as f:
                f.write(new)
    pages = ["README.md"] + [os.path.join("docs", p) for p in sorted(os.listdir("docs")) if p.endswith(".md")]
    for path in pages:
        text = read(path)
        new = re.sub(r"`[^`\n]+`", lambda s: turned(s[0].strip("`"), False).join("``"), text)
        if new != text:
            count += 1
            with open(path, "w", encoding="utf-8") as f:
                f.write(new)
    print(f"{len(table)} names, {count} files")
    return 0


if __name__ == "__main__":
    raise SystemExit(main())
