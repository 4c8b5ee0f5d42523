#!/usr/bin/env python3
"""respell [ROOT]: brings the names of the repository's own definitions and lemmas to snake case, after the toolchain's port.py.

A name that an .antt file of crates/ declares with hyphens or in lower camel case becomes snake_case wherever it is used: in .antt files,
in the clauses of .rt files, in must-fail edits and in the pages. A name that a file takes from a library keeps its spelling there, and so
do functions of src/, exported names and strings. specs/contracts/ becomes specs/internal/, since the checker makes modules of that name.
Names that would fall together are printed."""
import collections
import os
import re
import subprocess
import sys

ROOT = os.path.abspath(sys.argv[1] if len(sys.argv) > 1 else os.path.join(os.path.dirname(os.path.abspath(__file__)), ".."))
CRATES = os.path.join(ROOT, "crates")
TOKEN = re.compile(r"[^\s(){}\[\],;.λ⌜⌝\"`]+")
DECLARED = re.compile(r"^ *(?:abbrev |unfoldable )?(?:pub )?(?:record |data )?(?:abbrev |unfoldable )?([^\s(){}\[\],;.]+)(?: [({].*)? :(?: |$)")
TURNED = re.compile(r"^[A-Za-z0-9_']*[A-Za-z0-9]-[A-Za-z0-9][A-Za-z0-9_'-]*$|^[a-z][a-z0-9_]*[A-Z][A-Za-z0-9_']*$")
LIBRARY = ("mathlib", "native", "lib", "borrow", "Prim", "Rattle.std", "seplogic", "antt")


def read(path):
    with open(path, encoding="utf-8") as f:
        return f.read()


def write(path, text):
    with open(path, "w", encoding="utf-8") as f:
        f.write(text)


def walk(top, endings):
    for folder, dirs, names in os.walk(top):
        dirs[:] = sorted(d for d in dirs if d not in ("out", "target", ".git"))
        for name in sorted(names):
            if name.endswith(endings):
                yield os.path.join(folder, name)


def snake(name):
    """The name in snake case; one that begins with a capital keeps it and loses its hyphens."""
    if name[0].isupper():
        return "".join(p[0].upper() + p[1:] for p in name.split("-") if p) if "-" in name else name
    name = name.replace("-", "_")
    name = re.sub(r"([a-z0-9])([A-Z])", r"\1_\2", name)
    return name.lower() if not re.search(r"[A-Z]{2}", name) else re.sub(r"[A-Z]+", lambda m: m.group(0).lower(), name)


def code(line):
    """The line without its comment."""
    at = re.search(r"(^|\s)--(\s|$)", line)
    return (line[:at.start()], line[at.start():]) if at else (line, "")


def from_library(text):
    """Names that the file's use lines take from a library."""
    taken = set()
    for m in re.finditer(r"^ *(?:pub )?(?:ghost )?use ([^\s{;]+?)\.?(?:\{([^}]*)\})?(?: as \S+)?;?$", text, re.M):
        if m.group(1).startswith(LIBRARY) and m.group(2):
            for item in m.group(2).split(","):
                taken.add(item.split(" as ")[0].strip())
    return taken


def turn(text, names, kept):
    """The line with the names turned, but for a module's path: it names files, which stay."""
    path = re.match(r"^ *(?:pub )?use [^\s{]+", text)
    at = path.end() if path else 0
    return text[:at] + TOKEN.sub(lambda m: names[m.group(0)] if m.group(0) in names and m.group(0) not in kept else m.group(0), text[at:])


def rename_folders():
    for crate in sorted(os.listdir(CRATES)):
        specs = os.path.join(CRATES, crate, "specs")
        for old, new in (("contracts", "internal"), ("contracts.antt", "internal.antt")):
            if os.path.exists(os.path.join(specs, old)):
                subprocess.run(["git", "-C", ROOT, "mv", os.path.join(specs, old), os.path.join(specs, new)], check=True)


def main():
    antt = [p for p in walk(CRATES, (".antt",))]
    declared, taken, variables = set(), set(), set()
    for path in antt:
        # the answers of a generated statement keep the names that the checker gives them
        if path.endswith("Proof.antt"):
            continue
        text = read(path)
        taken |= from_library(text)
        for line in text.split("\n"):
            variables |= {t for t in TOKEN.findall(code(line)[0]) if re.match(r"^[a-z][a-z0-9]*[A-Z][A-Za-z']*$", t)}
            m = DECLARED.match(code(line)[0])
            if m and not re.match(r"^ *(pub )?(use|mod) ", line):
                declared.add(m.group(1))
    variables -= taken
    names = {name: snake(name) for name in declared | variables if TURNED.match(name)}
    # A definition in camel case keeps its plain name; the lemma or the field about it, with hyphens or turned before, says what it `is`.
    camel = {new for old, new in names.items() if "-" not in old}
    for old, new in names.items():
        if "-" in old and (new in camel or new in taken):
            names[old] = new + "_is"
    for new in sorted(camel & declared):
        names[new] = new + "_is"
    sources = collections.defaultdict(set)
    for old, new in names.items():
        sources[new].add(old)
    for name in sorted(variables - declared):
        if snake(name) in declared or len(sources[snake(name)]) > 1:
            print("look: the variable", name, "reads as", snake(name))
    for new, olds in sorted(sources.items()):
        if len(olds) > 1 or new in declared and new not in names:
            print("look:", new, "<-", " ".join(sorted(olds)))
    rename_folders()
    said = {n: s for n, s in names.items() if TURNED.match(n) and "-" not in n}
    for path in walk(CRATES, (".antt",)):
        text = read(path)
        kept = from_library(text)
        if path.endswith("Proof.antt"):
            kept |= {m.group(1) for m in map(DECLARED.match, text.split("\n")) if m}
        out = []
        for line in text.split("\n"):
            body, comment = code(line)
            if not re.match(r"^ *(pub )?use (%s)\b" % "|".join(re.escape(b) for b in LIBRARY), body):
                body = turn(body, names, kept)
            out.append(body + turn(comment, said, set()))
        write(path, "\n".join(out).replace(".specs.contracts.", ".specs.internal.").replace("pub mod contracts", "pub mod internal"))
    # clauses, edits and pages: camel case anywhere; hyphens in ghost lines, clauses and edits of specs, and between backticks
    known = set(names.values()) | declared
    def camel_name(m):
        word = m.group(0)
        return snake(word) if re.match(r"^[a-z][a-z0-9]*[A-Z]", word) and snake(word) in known else word
    word = re.compile(r"[A-Za-z][A-Za-z0-9_']*")
    for path in walk(CRATES, (".rt",)):
        text = read(path).replace(".specs.contracts.", ".specs.internal.")
        write(path, word.sub(camel_name, text))
    def quoted(m):
        inner = TOKEN.sub(lambda t: snake(t.group(0)) if "-" in t.group(0) and TURNED.match(t.group(0)) and snake(t.group(0)) in known else t.group(0), m.group(0))
        return inner
    pages = [os.path.join(ROOT, "README.md")] + [p for p in walk(os.path.join(ROOT, "docs"), (".md",)) if os.path.basename(p) != "PORT.md"]
    pages += [os.path.join(ROOT, "tests", "limit")]
    for path in pages:
        text = re.sub(r"`[^`\n]+`", quoted, word.sub(camel_name, read(path)))
        write(path, text.replace("specs/contracts", "specs/internal"))
    for path in walk(CRATES, (".edit",)):
        lines = []
        for line in read(path).split("\n"):
            line = word.sub(camel_name, line)
            if line.startswith(("old: ", "new: ")):
                line = TOKEN.sub(lambda t: snake(t.group(0)) if "-" in t.group(0) and TURNED.match(t.group(0)) and snake(t.group(0)) in known else t.group(0), line)
            lines.append(line.replace("specs/contracts/", "specs/internal/"))
        write(path, "\n".join(lines))


main()
