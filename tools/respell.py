#!/usr/bin/env python3
"""Spells this repository's own definitions and lemmas as the toolchain's library does, once, after the kit's port.py.

usage: tools/respell.py [--check]     at the top of the repository

Functions, lemmas, fields and constructors are in snake case: 'contentsOf' is contents_of, 'ready-from' is ready_from. A function into Type is a
type, and in upper camel case. Names that Rattle makes, in the Answers and Invariants of a function, stay: the first name behind c, l, w, g or goal,
and each name that is answered there. Words of a Rust string stay. A name that would fall together with another of its file is said and nothing is written.
--check writes nothing.
"""
import re
import sys
from pathlib import Path

WORD = re.compile(r'[^\s(){}.;,@"«»]+')
IN_TEXT = re.compile(r"[\w'-]+")
DECLARED = re.compile(r"^\s*((?:(?:abbrev|unfoldable|pattern|pub|record|data|axiom)\s+)*)([^\s(){}:,;=λ]+)\s*(?:\([^)]*\)\s*|\{[^}]*\}\s*)*:\s(.*)$", re.M)
LOCAL = re.compile(r"\blet ([^\s(){}:,;=λ]+) [:=]")
MADE = re.compile(r"(?<![^\s(){};,])(?:c|l|w|g|goal)\.$")
# functions into Type that an older spelling had in lower case
TYPES = {"noted-upto": "NotedUpto", "once-looked": "OnceLooked", "told-upto": "ToldUpto"}
# the list's function that these lemmas speak of has another name now
PARTS = {"getD": "get_or"}
# lemmas that would fall together with the function of which they speak
APART = {"looked-at": "looked_at_is", "slots-at": "slots_at_is", "slots_at": "slots_at_is", "outcome-of": "outcome_of_found", "read-on": "read_goes_on"}


def spelled(name):
    if name in TYPES:
        return TYPES[name]
    if name in APART:
        return APART[name]
    for old, new in PARTS.items():
        name = re.sub(rf"(?<![A-Za-z]){old}(?![A-Za-z])", new, name)
    name = re.sub(r"(?<=[a-z0-9])[A-Z]", lambda m: "_" + m[0].lower(), name)
    return name.replace("-", "_")


def is_answer(path):
    return path.name in ("Answers.antt", "Invariants.antt", "Choices.antt", "Proof.antt")


def answered(text):
    """The names that Rattle made and that this file answers."""
    return {m[2] for m in DECLARED.finditer(text) if m[3].startswith("goal.")}


def code_parts(text, comment, quotes):
    """Pieces of the text: (what, piece), where what is 'code', 'comment' or 'string'."""
    string = r'"(?:[^"\\\n]|\\.)*"'
    cut = re.compile(rf"({comment}[^\n]*)|({string})" if quotes else rf"({comment}[^\n]*)")
    at = 0
    for m in cut.finditer(text):
        yield "code", text[at:m.start()]
        yield ("comment" if m[1] else "string"), m[0]
        at = m.end()
    yield "code", text[at:]


def turned(text, table, path):
    answers = is_answer(path)
    stay = answered(text) if answers else set()
    done = set()

    def turn(piece, word):
        def one(m):
            if m[0] not in table or m[0] in stay or answers and MADE.search(piece[:m.start()]):
                return m[0]
            done.add(m[0])
            return table[m[0]]

        return word.sub(one, piece)

    comment = "//" if path.suffix == ".rt" else "(?<![^\\s(){};])--"
    words = {"code": WORD, "comment": IN_TEXT}
    out = "".join(piece if what == "string" else turn(piece, words[what]) for what, piece in code_parts(text, comment, True))
    return out, done


def main(argv):
    root = Path("crates")
    texts = {p: p.read_text(encoding="utf-8") for p in sorted(root.rglob("*")) if p.suffix in (".antt", ".rt") and "out" not in p.parts}
    table = {}
    for p, t in texts.items():
        if p.suffix != ".antt":
            continue
        stay = answered(t) if is_answer(p) else set()
        code = "".join(piece for what, piece in code_parts(t, "(?<![^\\s(){};])--", True) if what == "code")
        names = {m[2] for m in DECLARED.finditer(code)} | set(LOCAL.findall(code))
        for n in names - stay:
            if n[0].islower() and "◌" not in n and spelled(n) != n:
                table[n] = spelled(n)
    bad = 0
    changed = {}
    for p, t in texts.items():
        new, done = turned(t, table, p)
        comment = "//" if p.suffix == ".rt" else "(?<![^\\s(){};])--"
        code = "".join(piece for what, piece in code_parts(t, comment, True) if what == "code")
        # no clause names a function of the source, and a step of a path is no name in a file
        code = re.sub(r"\w+(?=\()", " ", code) if p.suffix == ".rt" else re.sub(r"\bRattle(?:\.[^\s.{]+)+", " ", code)
        before = set(WORD.findall(code)) - {old for old in table if old != table[old]}
        seen = {}
        for old in sorted(done):
            if table[old] in before:
                print(f"fall together: {p}: {old} and {table[old]}")
                bad += 1
            if table[old] in seen:
                print(f"fall together: {p}: {old} and {seen[table[old]]}, both {table[old]}")
                bad += 1
            seen[table[old]] = old
        if new != t:
            changed[p] = new
    if "--list" in argv:
        for old in sorted(table):
            print(old, table[old])
    print(f"{len(table)} names, {len(changed)} files, {bad} fall together")
    if bad or "--check" in argv:
        return 1 if bad else 0
    for p, new in changed.items():
        p.write_text(new, encoding="utf-8")
    return 0


if __name__ == "__main__":
    raise SystemExit(main(sys.argv[1:]))
