#!/usr/bin/env python3
"""Brings the repository's own definitions and lemmas to today's spelling, once, after the kit's port.py.

usage: tools/respell.py          at the top of the repository; prints each name's old and new spelling

Words are in snake case, types and modules in camel case. A dash stays where it joins the names of two definitions; elsewhere it becomes an
underscore. What stands in src/ as code, exported names, strings, inputs and outputs keep their spelling.
"""

import glob
import re
import sys

BREAK = r"[\s(){}\[\],;.@`\"\u00ab\u00bb|:]"
TOKEN = re.compile(r"[^\s(){}\[\],;.@`\"\u00ab\u00bb|:]+")
STRING = re.compile(r'"(?:\\.|[^"\\])*"')
DECLARED = re.compile(r"^(?:(?:unfoldable|abbrev|pub|record|data) )*([^\s:(){}\[\],;.@`\"]+)(?: .*)? : |^\s+(?:pub )?([^\s:(){}\[\],;.@`\"]+) : ")
CAMEL = re.compile(r"^[a-z][A-Za-z0-9]*[A-Z][A-Za-z0-9₀-₉']*$")
# words of the library that a lemma's name joins to another
LIBRARY = set("take drop append set sets length get_or map replicate tabulate cond concat min reverse".split())
# where two names would fall together in one place, or the rule reads badly
CHOSEN = {
    "joint-lines": "joint_lines_lem",
    "may-follow": "may_follow_lem",
    "own-count": "own_count_lem",
    "read-groups": "read_groups_lem",
    "sheet-answer": "sheet_answer_lem",
    "stored-axial": "stored_axial-axial_of",
    "one-face-words": "one_face_words-of_one_face",
    "eitherIs275": "either_is_275",
    "refusalsAfter10": "refusals_after_10",
    "refusedAfter10": "refused_after_10",
    "tabulate-getD": "tabulate-get_or",
}


def snake(word):
    if not CAMEL.match(word):
        return word
    return re.sub(r"(?<=[a-z0-9])([A-Z])", lambda m: "_" + m.group(1).lower(), word)


def spelled(name, names):
    """The new spelling of a name of one or more words."""
    words = [snake(w) for w in name.split("-")]
    out = words[0]
    for before, word in zip(words, words[1:]):
        out += ("-" if before in names and word in names else "_") + word
    return out


def lines(path):
    with open(path, encoding="utf-8") as f:
        return f.read().split("\n")


def declared(paths, fields=True):
    found = set()
    for p in paths:
        for line in lines(p):
            m = DECLARED.match(line)
            if m and (fields or m.group(1)):
                found.add(m.group(1) or m.group(2))
    return found


def imported(paths):
    """Names that come from other places than this repository."""
    found = set()
    for p in paths:
        for line in lines(p):
            m = re.match(r"\s*(?:ghost )?use ([\w.]+)\.\{(.*)\}", line)
            own = m and re.match(r"Rattle\.(\w+)\.", m.group(1))
            if m and not (own and own.group(1) in CRATES):
                found |= {re.split(r" as ", n.strip())[0] for n in m.group(2).split(",")}
    return found


CRATES = {p.split("/")[1] for p in glob.glob("crates/*/src")}


def table():
    specs = glob.glob("crates/*/specs/*.antt")
    laws = glob.glob("crates/*/proofs/*.antt")
    rest = glob.glob("crates/*/proofs/*/*.antt")
    sources = glob.glob("crates/*/src/*.rt")
    own = declared(specs + laws)
    foreign = imported(specs + laws + rest + sources)
    top = declared(specs + laws, fields=False)
    names = {snake(n) for n in declared(specs, fields=False) if "-" not in n} | LIBRARY
    turn = {}
    for n in sorted(own - foreign):
        if "-" in n[1:] or CAMEL.match(n):
            turn[n] = CHOSEN.get(n) or spelled(n, names if n in top else set())
    # variables of definitions and lemmas
    for p in specs + laws + rest + sources:
        for line in lines(p):
            for t in TOKEN.findall(re.sub(r"(--|//).*", "", STRING.sub("", line))):
                if CAMEL.match(t) and t not in foreign:
                    turn.setdefault(t, snake(t))
    return {a: b for a, b in turn.items() if a != b}, own | foreign


def respell(text, turn, comment):
    """The text with its names respelled; of a comment only names in backquotes or in camel case."""

    def code(t):
        return TOKEN.sub(lambda m: turn.get(m.group(0), m.group(0)), t)

    def words(t):
        t = re.sub(r"`[^`]*`", lambda m: code(m.group(0)), t)
        return TOKEN.sub(lambda m: turn[m.group(0)] if CAMEL.match(m.group(0)) and m.group(0) in turn else m.group(0), t)

    out = []
    for line in text.split("\n"):
        m = re.search(r"(?:^|\s)" + comment + r"(?:\s|$)", line)
        at = 0 if comment == "(?=)" else m.start() if m else len(line)
        before, after = line[:at], line[at:]
        parts, last = [], 0
        for s in STRING.finditer(before):
            parts += [code(before[last : s.start()]), s.group(0)]
            last = s.end()
        out.append("".join(parts) + code(before[last:]) + words(after))
    return "\n".join(out)


def main():
    turn, taken = table()
    new = {}
    for a, b in turn.items():
        if b in taken and b not in turn:
            print(f"look: {a} becomes {b}, which is a name already")
        if b in new:
            print(f"look: {a} and {new[b]} both become {b}")
        new[b] = a
    texts = glob.glob("crates/**/*.antt", recursive=True) + glob.glob("crates/*/src/*.rt") + glob.glob("crates/*/must-fail/*.edit")
    pages = glob.glob("docs/*.md") + ["docs/check-rules", "README.md", "CONTRIBUTING.md"]
    for p in sorted(texts + pages):
        with open(p, encoding="utf-8") as f:
            old = f.read()
        comment = "--" if p.endswith(".antt") else "//" if p.endswith(".rt") else "#" if p in texts else "(?=)"
        text = respell(old, turn, comment)
        if text != old:
            with open(p, "w", encoding="utf-8") as f:
                f.write(text)
    for a, b in sorted(turn.items()):
        print(a, b)


if __name__ == "__main__":
    sys.exit(main())
