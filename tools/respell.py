#!/usr/bin/env python3
"""Respells this repository's own definitions and lemmas: words in snake case, types and facts in camel case.

usage: python3 PATH/respell.py             at the top of the repository, once, after the kit's own port.py

It collects the names with a dash that the .antt files below crates/ declare, and writes them anew in .antt and .rt files:
in code, and in comments between backticks, as also in README.md and docs/. Code of .rt files has names with a dash in its
clauses alone. FACTS and OTHERWISE below name what is turned in another way. Names that Rattle makes (goals, steps,
invariants) and names that a file imports from elsewhere are left. It lays out the files at the end.
Where two names with a dash would fall together it stops, and writes nothing; where a name comes to stand beside
the same plain word in a file, it says so.
"""

import os
import re
import subprocess
import sys

WORD = r"[A-Za-z_][A-Za-z0-9_']*(?:-[A-Za-z0-9_']+)+|[A-Za-z_][A-Za-z0-9_']*"
TOKEN = re.compile(WORD)
DECLARED = re.compile(r"^(\s*)((?:(?:pub|abbrev|unfoldable|record|data)\s+)*)(" + WORD + r")(?:\s*\{[^}]*\})*\s*:\s*(\S*)")
TYPE = re.compile(r"^(?:pub )?(?:record|data) (" + WORD + ")")
ALIAS = re.compile(r" as (" + WORD + r")(?=[,}])")
BOUND = re.compile(r"[({]((?:(?:" + WORD + r") )+): ")
LET = re.compile(r"\blet\s+(" + WORD + r")\s*[:=]")
IMPORT = re.compile(r"^(?:ghost )?use ([\w.'+-]+)\.\{([^}]*)\}", re.M)
# the dashed names whose plain respelling is a word of the library
OTHERWISE = {"bit-or": "bit_of_or", "bit-and": "bit_of_and"}
# facts that are named by a plain lower-case word: the definition's crate, and the word
FACTS = {("mask_device", "above"): "Above", ("register_device", "below"): "Below"}


def stop(text):
    sys.exit("respell: " + text)


def camel(name):
    return "".join(w[:1].upper() + w[1:] for w in name.split("-"))


def turned(name):
    if name in OTHERWISE:
        return OTHERWISE[name]
    return camel(name) if name[0].isupper() else name.replace("-", "_")


def files(ends):
    for folder, dirs, names in os.walk("crates"):
        dirs[:] = sorted(d for d in dirs if d != "out")
        for n in sorted(names):
            if n.endswith(ends):
                yield os.path.join(folder, n)


def read(path):
    with open(path, encoding="utf-8") as f:
        return f.read()


def declared(text):
    """The names that a file declares, and those of them that answer a goal."""
    own, made = set(), set()
    for line in text.splitlines():
        m = DECLARED.match(line)
        if m:
            (made if m.group(4).startswith("goal.") else own).add(m.group(3))
        own.update(LET.findall(line) + TYPE.findall(line) + ALIAS.findall(line))
        for words in BOUND.findall(line):
            own.update(words.split())
    return own, made


def collect():
    crates = {p.split(os.sep)[1] for p in files((".rt", ".antt"))}
    names = set()
    for p in files(".antt"):
        own, _ = declared(read(p))
        names |= {n for n in own if "-" in n}
    return crates, names


def foreign(text, crates):
    """The names that a file imports from outside this repository."""
    found = set()
    for path, items in IMPORT.findall(text):
        parts = path.split(".")
        if parts[0] == "Rattle" and len(parts) > 1 and parts[1] in crates:
            continue
        for item in items.split(","):
            found.add(item.strip().split(" as ")[-1].strip())
    return found


def split_comment(line, mark):
    i = line.find(mark)
    return (line, "") if i < 0 else (line[:i], line[i:])


def respell(text, names, left, mark, facts):
    """The text with its names turned, outside comments; in comments only between backticks."""

    def one(m):
        word, at = m.group(0), m.start()
        before = m.string[:at]
        if word in facts and not before.endswith("."):
            return facts[word]
        if word not in names or word in left or re.search(r"\bgoal\.$", before):
            return word
        return turned(word)

    out = []
    for line in text.split("\n"):
        code, comment = split_comment(line, mark)
        comment = re.sub(r"`(" + WORD + r")`", lambda m: "`" + (turned(m.group(1)) if m.group(1) in names else m.group(1)) + "`", comment)
        out.append(TOKEN.sub(one, code) + comment)
    return "\n".join(out)


def facts_in(path, text):
    """The lower-case facts that a file declares or imports."""
    crate = path.split(os.sep)[1]
    found = {}
    for (home, word), new in FACTS.items():
        imports = any(word in [i.strip() for i in items.split(",")] and f"Rattle.{home}." in where + "." for where, items in IMPORT.findall(text))
        if imports or (crate == home and re.search(r"^abbrev pub " + word + r" :", text, re.M)):
            found[word] = new
    return found


def check_apart(crates, names):
    """No file comes to use one name for two."""
    for p in files(".antt"):
        text = read(p)
        left = foreign(text, crates)
        words = set(TOKEN.findall(text))
        for n in words & names - left:
            if turned(n) in words and turned(n) not in n:
                print(f"respell: look: {p} has {n} and {turned(n)}")


def pages():
    yield "README.md"
    for n in sorted(os.listdir("docs")):
        if n.endswith(".md"):
            yield os.path.join("docs", n)


def main():
    if not os.path.isdir("crates"):
        stop("run it at the top of the repository")
    crates, names = collect()
    new = {}
    for n in sorted(names):
        if turned(n) in new:
            stop(f"{n} and {new[turned(n)]} fall together")
        new[turned(n)] = n
    check_apart(crates, names)
    for p in files((".antt", ".rt")):
        text = read(p)
        made = declared(text)[1] if p.endswith(".antt") else set()
        out = respell(text, names, foreign(text, crates) | made, "--" if p.endswith(".antt") else "//", facts_in(p, text))
        if out != text:
            with open(p, "w", encoding="utf-8") as f:
                f.write(out)
    for p in pages():
        text = read(p)
        out = re.sub(r"`(" + WORD + r")`", lambda m: "`" + (turned(m.group(1)) if m.group(1) in names else m.group(1)) + "`", text)
        if out != text:
            with open(p, "w", encoding="utf-8") as f:
                f.write(out)
    for c in sorted(crates):
        subprocess.run(["rt", "fmt"], cwd=os.path.join("crates", c), stdout=subprocess.DEVNULL, check=True)
    print(f"respell: {len(names)} names")


if __name__ == "__main__":
    main()
