#!/usr/bin/env python3
"""Shows what differs by more than spelling from a commit in the older Rattle's spelling.

usage: python3 tools/same_text.py COMMIT     at the top of a checkout

Reads each file of specs/, each file of lemmas in proofs/, and the clauses of each function in src/,
as the commit has them and as they stand, brings both to one spelling (names, operators, tight
projections, no `use` lines, no comments, no brackets round clauses, no parentheses) and prints those
that are not the same then. By text alone; what it prints a reader judges.
"""
import os
import re
import subprocess
import sys

MOVED = [("crates/unicode/", "crates/unicode_text/")]
WORDS = [
    ("Rattle.unicode.", "Rattle.unicode_text."),
    ("get_d", "get_or"),
    ("at_most14", "at_most_14"),
    ("at_most512", "at_most_512"),
    ("new_not8", "new_not_8"),
    ("old_not8", "old_not_8"),
]
OPERATOR = re.compile(r"_(≡|≢|\+\+|\+|-|\*|&&|\|\||∷|≤|<|\^|/|%|∙)_")


def git(*words):
    return subprocess.run(["git", *words], capture_output=True, text=True, check=True).stdout


def snake(word):
    return re.sub(r"(?<=[a-z0-9])([A-Z])", lambda m: "_" + m[1].lower(), word)


def one_spelling(t):
    t = re.sub(r"(?m)^(pub |ghost )*use [^{\n;]*(\{[^}]*\})?;?[^\n]*\n", "", t)
    t = re.sub(r"--[^\n]*", "", t)
    return spelled(t)


def spelled(t):
    for gone in "⌜⌝«»":
        t = t.replace(gone, "")
    t = re.sub(r"Rattle·(\w+)·(specs|proofs)\.\2", r"Rattle.\1.\2", t).replace("Rattle·", "Rattle.")
    t = re.sub(
        r"([A-Za-z0-9_'′₀-₉-]+)",
        lambda m: m[1] if re.match(r"[A-Z]", m[1]) and not re.search("[_-]", m[1]) else snake(m[1]).replace("-", "_"),
        t,
    )
    t = t.replace("′", "'").replace("List·", "").replace("·", "_")
    t = OPERATOR.sub(r"◌\1◌", t)
    t = re.sub(r"_lem\b", "", t)
    t = re.sub(r"[\s()]", "", t)
    for old, new in WORDS:
        t = t.replace(old, new)
    return t


def closing(t, i, a, b):
    deep = 0
    while True:
        if t.startswith("//", i):
            i = t.find("\n", i)
            continue
        string = re.compile(r"\"(?:[^\"\\]|\\.)*\"|'(?:\\.|[^\\'])'").match(t, i)
        if string:
            i = string.end()
            continue
        deep += (t[i] == a) - (t[i] == b)
        i += 1
        if not deep:
            return i


def functions(t):
    """The signature and the clauses of each function, by its name behind its type's."""
    heads = re.finditer(r"(?m)^impl(?:<[^>]*>)?\s+(?:[\w:<>]+\s+for\s+)?(\w+)[^{]*\{", t)
    impls = [(m.start(), closing(t, m.end() - 1, "{", "}"), m[1]) for m in heads]
    found = {}
    for m in re.finditer(r'(?m)^[ \t]*(?:pub(?:\([a-z]+\))? )?(?:const )?(?:extern "C" )?fn (\w+)', t):
        i = closing(t, m.end(), "<", ">") if t[m.end()] == "<" else m.end()
        end = closing(t, i, "(", ")")
        signature, clauses = t[i:end], []
        while True:
            clause = re.compile(r"\s*(ghost|requires|ensures)\*?(?:\s+\w+:?)?\s*(?=\{)").match(t, end)
            result = re.compile(r"\s*->\s*").match(t, end)
            if clause:
                to = closing(t, clause.end(), "{", "}")
                clauses.append((clause[1], t[clause.end() + 1 : to - 1].strip()))
                end = to
            elif result:
                end, deep = result.end(), 0
                while True:
                    deep += (t[end] in "([<") - (t[end] in ")]>")
                    if deep == 0 and (t[end] == "{" or re.match(r"\s+(requires|ensures|ghost)\b", t[end : end + 14])):
                        break
                    end += 1
            else:
                break
        own = [name for a, b, name in impls if a < m.start() < b]
        found["::".join([*own, m[1]])] = (signature, clauses)
    return found


def older_clause(kind, c, signature):
    c = re.sub(r"\s+", " ", c).replace("«", "").replace("»", "")
    answer = re.match(r"λ (\S+)\. ", c) if kind == "ensures" else None
    if answer:
        c = c[answer.end() :]
        if answer[1] != "_":
            c = re.sub(r"(?<![\w.'-])" + re.escape(answer[1]) + r"(?![\w'-])", "result", c)
    lent = set(re.findall(r"(\w+): &(?:'\w+ )?mut", signature)) | ({"self"} if "&mut self" in signature else set())
    begins = lambda m: m[1] + (".old" if m[1] in lent else ".now")
    for _ in range(6):
        c = re.sub(r"now \((\w+) \.exit\)", r"\1.new", c)
        c = re.sub(r"now \((\w+) \.entry\)", begins, c)
        c = re.sub(r"\bnow (\w+)", begins, c)
        c = re.sub(r"(\w+) \.entry", lambda m: m[1] + (".old" if m[1] in lent else ""), c)
        c = re.sub(r"([\w')\]]) \.(\w)", r"\1.\2", c)
    return spelled(c)


def main():
    commit = sys.argv[1]
    counts = {"specs": [0, 0], "proofs": [0, 0], "clauses": [0, 0]}
    for path in git("ls-tree", "-r", "--name-only", commit).split("\n"):
        kind = re.match(r"crates/\w+/(?:(specs)/.*\.antt|(proofs)/[^/]*\.antt|src/.*\.rt)$", path)
        if not kind:
            continue
        now = path
        for a, b in MOVED:
            now = now.replace(a, b)
        was = git("show", f"{commit}:{path}")
        if not os.path.exists(now):
            print("gone:", now)
            continue
        with open(now, encoding="utf-8") as f:
            text = f.read()
        if now.endswith(".antt"):
            tell(counts[kind[1] or kind[2]], now, one_spelling(was), one_spelling(text))
            continue
        here = functions(text)
        for name, (signature, clauses) in functions(was).items():
            if not clauses:
                continue
            before = [(k, older_clause(k, c, signature)) for k, c in clauses]
            after = [(k, spelled(c)) for k, c in here[name][1]] if name in here else []
            tell(counts["clauses"], f"{now} {name}", str(before), str(after))
    for what, (all_of, differ) in counts.items():
        print(f"{what}: {all_of - differ} of {all_of} the same")


def tell(count, name, was, now):
    count[0] += 1
    if was != now:
        count[1] += 1
        i = next((k for k, (x, y) in enumerate(zip(was, now)) if x != y), min(len(was), len(now)))
        print(f"{name}\n   - {was[max(0, i - 40) : i + 100]}\n   + {now[max(0, i - 40) : i + 100]}")


if __name__ == "__main__":
    main()
