#!/usr/bin/env python3
"""Brings the names of our definitions and lemmas to the spelling of the Rattle kit's library.

usage: python3 tools/respell.py            at the top of a checkout; once, after the kit's port.py

    firstConversation  ->  first_conversation       definitions and fields, of camel case
    place-le           ->  place_le                 lemmas that are words of English
    fromBe-toBe        ->  from_be-to_be            a dash stays where it joins two definitions

Types keep their capitals, and names of src/ (functions, fields, variants), of the library and of
what Rattle makes are not touched. Where a lemma would get the name of a definition or of the
library that stands beside it, it gets _lem, as answer-head beside answerHead.
It goes by the names that each file declares or imports, and writes .antt, .rt, .edit and .md.
"""
import collections
import glob
import os
import re
import sys

TOKEN = re.compile(r"--[^\n]*|\"(?:[^\"\\\n]|\\.)*\"|[^\s(){}.;,@\"«»\[\]\\`]+|.", re.S)
DECLARED = re.compile(
    r"^\s*(?:(?:pub|abbrev|unfoldable|private) )*([^\s(){}.;,@\"\[\]\\:]+)"
    r"(?:\s*[({][^\n]*?[)}])*\s*:(?!:)"
)
CONSTRUCTOR = re.compile(r"^\s+(?:pub )?([a-z][^\s(){}.;,@\"\[\]\\:]*)\s*:")
USE = re.compile(r"^(?:ghost |pub )*use ([^\s{;]+?)(?:\.\{([^}]*)\}| as (\S+?))?\s*;?\s*$", re.M)
GOAL = re.compile(r":\s*(?:tie|goal|need|given)\.")
CAMEL = re.compile(r"^[a-z][a-z0-9]*(?:[A-Z][A-Za-z0-9]*)+(?=$|['′₀-₉-])")
OWN = [
    # a number that is a word of its own
    ("atMost14", "at_most_14"),
    ("atMost512", "at_most_512"),
    ("newNot8", "new_not_8"),
    ("oldNot8", "old_not_8"),
]
# Lemmas that port.py turned already, beside a definition that now gets their name: the module, the name.
BESIDE = [
    ("Rattle.message.proofs.Laws", "call_fits"),
    ("Rattle.series.proofs.GuessRuns", "on_line"),
    ("Rattle.series.proofs.WrongFiles", "handed_out"),
    ("Rattle.smbpasswd.proofs.ReadBack", "written_at"),
    ("Rattle.verify.proofs.Counting", "one_more"),
]
FIELD = re.compile(r"(?m)^\s+(?:pub )?([a-z][A-Za-z0-9]*(?:-[A-Za-z0-9]+)+) : ")


def snake(word):
    for old, new in OWN:
        if word == old:
            return new
    return re.sub(r"(?<=[a-z0-9])([A-Z])", lambda m: "_" + m[1].lower(), word)


def is_camel(t):
    parts = t.split("-")
    return any(CAMEL.match(p) for p in parts) and not re.match(r"^[A-Z]", t)


def is_dashed(t):
    return re.match(r"^[a-z0-9][A-Za-z0-9_]*(?:-[A-Za-z0-9_]+)+['′]*$", t) is not None


def turned(t):
    """The spelling of a name, before any _lem."""
    if is_camel(t):
        return "-".join(snake(p) for p in t.split("-"))
    return t.replace("-", "_")


def read(path):
    with open(path, encoding="utf-8", newline="") as f:
        return f.read()


def ours(module, crates):
    parts = module.split(".")
    return parts[0] == "Rattle" and len(parts) > 1 and parts[1] in crates


class File:
    def __init__(self, path, crates):
        self.path = path
        self.text = read(path)
        self.foreign, self.imported, self.aliases, self.declared = set(), set(), set(), set()
        for m in USE.finditer(self.text):
            names = [n.strip() for n in (m[2] or "").replace("\n", " ").split(",") if n.strip()]
            if m[3]:
                (self.aliases if ours(m[1], crates) else self.foreign).add(m[3])
            for n in names:
                a = re.match(r"(\S+) as (\S+)$", n)
                n, alias = (a[1], a[2]) if a else (n, None)
                if ours(m[1], crates):
                    self.imported |= {n} | ({alias} if alias else set())
                else:
                    self.foreign |= {alias or n}
        if path.endswith(".antt"):
            for line in self.text.split("\n"):
                if line.lstrip().startswith("--") or line.startswith("use ") or "let " in line.split(":")[0]:
                    continue
                m = DECLARED.match(line)
                if m and not GOAL.search(line) and not m[1].startswith("+"):
                    self.declared.add(m[1])
        self.tokens = set(TOKEN.findall(self.text))
        here = re.search(r"crates/(\w+)/(specs|proofs)/(.*)\.antt$", path)
        self.module = "Rattle." + ".".join([here[1], here[2], *here[3].split("/")]) if here else ""
        self.lemmas = here is not None and "/" not in here[3]
        used = {(m[1], n.strip()) for m in USE.finditer(self.text) for n in (m[2] or "").split(",")}
        self.beside = {n: n + "_lem" for m, n in BESIDE if m == self.module or (m, n) in used}


def main():
    root = os.getcwd()
    crates = set(os.listdir(os.path.join(root, "crates")))
    paths = [
        p
        for kind in ("src/**/*.rt", "specs/**/*.antt", "proofs/**/*.antt")
        for p in sorted(glob.glob(os.path.join(root, "crates", "*", kind), recursive=True))
    ]
    files = [File(p, crates) for p in paths]

    # what is ours, and what a module of ours holds that others name by a dot
    declared = set()
    for f in files:
        declared |= f.declared
    names = {t for t in declared if is_camel(t) or is_dashed(t)}
    for f in files:
        names |= {t for t in f.tokens if is_camel(t) and t not in f.foreign and not t.startswith('"')}
    table = {t: turned(t) for t in names}

    # names that fall together, where one file sees both
    where = collections.defaultdict(list)
    for f in files:
        for t in f.tokens:
            if t in table:
                where[t].append(f)
    def seen(f):
        return f.declared | f.imported | f.foreign
    by_new = collections.defaultdict(set)
    for t in table:
        by_new[table[t]].add(t)
    lem = set()
    for t in sorted(table):
        if is_camel(t):
            continue
        new = table[t]
        others = by_new[new] - {t}
        for f in where[t]:
            visible = seen(f)
            if t in visible and ((others & visible) or new in visible):
                lem.add(t)
        # a definition of that name anywhere: the lemma stands beside it for a reader
        if any(is_camel(o) for o in others):
            lem.add(t)
    for t in lem:
        table[t] = re.sub(r"('*)$", r"_lem\1", table[t], count=1)
    global FIELDS
    FIELDS = fields_of(files)
    check(files, table, seen)

    for f in files:
        write(f.path, f.text, rewritten(f.text, f, table))
    # names that port.py turned already stand in edits and pages as they were
    named = declared | set(table.values())
    for p in sorted(glob.glob(os.path.join(root, "crates", "*", "must-fail", "*.edit"))):
        text = read(p)
        target = re.search(r"^file: (\S+)", text, re.M)
        f = next(g for g in files if g.path == os.path.join(os.path.dirname(os.path.dirname(p)), target[1]))
        out = []
        for line in text.split("\n"):
            kind = re.match(r"(old|new): ", line)
            out.append(line[: kind.end()] + in_edit(line[kind.end() :], f, table, named) if kind else line)
        write(p, text, "\n".join(out))
    for p in pages(root):
        text = read(p)
        write(p, text, re.sub(r"`[^`\n]+`", lambda m: in_page(m[0], table, named), text))


def fields_of(files):
    """The fields of our records that have a dash."""
    found = set()
    for f in files:
        if f.lemmas:
            for m in re.finditer(r"(?m)^( *)(?:(?:pub|abbrev) )*record [^\n]*(?:\n\1 [^\n]*)*", f.text):
                found |= set(FIELD.findall(m[0]))
    return found


def pages(root):
    found = [os.path.join(root, "README.md")]
    for p in sorted(glob.glob(os.path.join(root, "docs", "**", "*.md"), recursive=True)):
        if os.path.basename(p) not in ("PORT.md", "PORT-OTHER.md"):
            found.append(p)
    return found


def in_page(span, table, named):
    def one(m):
        t = m[0]
        if t in table:
            return table[t]
        if is_dashed(t) and any(turned(t) == n for _, n in BESIDE):
            return turned(t) + "_lem"
        return turned(t) if (is_camel(t) or is_dashed(t)) and turned(t) in named else t
    return re.sub(r"(?<![A-Za-z0-9_/.-])[A-Za-z][A-Za-z0-9_'-]*", one, span)


def in_edit(text, f, table, named):
    def one(m):
        t = m[0]
        return turned(t) if is_camel(t) and turned(t) in named else t
    return re.sub(r"[A-Za-z][A-Za-z0-9_'-]*", one, rewritten(text, f, table))


def rewritten(text, f, table):
    out, last = [], ""
    for t in TOKEN.findall(text):
        if t.startswith('"') or t == "":
            out.append(t)
        elif t.startswith("--"):
            out.append(re.sub(r"[A-Za-z][A-Za-z0-9_'-]*", lambda m: table[m[0]] if m[0] in table and is_camel(m[0]) and m[0] not in f.foreign else m[0], t))
        elif t in table and t not in f.foreign:
            if is_camel(t):
                out.append(table[t])
            elif last == ".":
                # behind a dot: a member of a module of ours, or a field that a file of ours declares
                head = "".join(out[-2:-1])
                mine = t in FIELDS and (f.lemmas or not t.endswith("-is"))
                out.append(table[t] if head in f.aliases or mine else t)
            elif t in f.declared or t in f.imported:
                out.append(table[t])
            else:
                out.append(t)
        elif t in f.beside and last != ".":
            out.append(f.beside[t])
        else:
            out.append(t)
        last = t
    return "".join(out)


def check(files, table, seen):
    """What a reader should look at: a new name that a file already has."""
    for f in files:
        news = collections.defaultdict(set)
        for t in f.tokens:
            if t in table and (is_camel(t) or t in f.declared or t in f.imported) and t not in f.foreign:
                news[table[t]].add(t)
        for new, olds in sorted(news.items()):
            if len(olds) > 1 or new in f.tokens:
                print(f"look: {os.path.relpath(f.path)}: {', '.join(sorted(olds))} -> {new}" + (" (is there)" if new in f.tokens else ""))


FIELDS = set()


def write(path, old, new):
    if new != old:
        with open(path, "w", encoding="utf-8", newline="") as f:
            f.write(new)


if __name__ == "__main__":
    main()
