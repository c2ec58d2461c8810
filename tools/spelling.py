#!/usr/bin/env python3
"""Brings the repository's own antt names to today's spelling: words in snake case.

usage: python3 tools/spelling.py           at the top, once, on what the kit's port.py left
       python3 tools/spelling.py --plan    lists each name with the one that it would get, and changes nothing

A name that specs/ or a lemma file of proofs/ declares in camel case (byteAt) becomes byte_at. A dash becomes an underscore too (number-none is number_none), but
for one between two names that specs/ declares (map-rules). Names of src/ are in snake case already, and goals that rt names (proofs/F/Proof.antt) go with their
files. Where two names of one file would fall together, or a name with a parameter or field of src/, it prints them and changes nothing. In pages and comments a
name is turned where it stands in backticks.
"""

import os
import re
import sys

HEAD = re.compile(r"^(\s*)((?:(?:pub|abbrev|unfoldable|data|record)\s+)*)([^\s:(){}.,;]+)((?:\s+[({][^:(){}]*:.*?[)}])*)\s+:\s(.*)$")
TOKEN = re.compile(r"\"[^\"\n]*\"|[^\s(){};,.λ\[\]\"`]+")
SHAPE = re.compile(r"[a-z0-9'][A-Z]")
LETTER = re.compile(r"^[a-zμ][A-Za-z0-9_'\-μ]*$")


def files(root, ends):
    for folder, dirs, names in os.walk(root):
        dirs[:] = sorted(d for d in dirs if d not in ("out", ".git", "paper", "target"))
        for name in sorted(names):
            if name.endswith(ends):
                yield os.path.join(folder, name)


def text(path):
    with open(path, encoding="utf-8") as f:
        return f.read()


def declared():
    """The names that specs/ and lemma files declare, the words of each such file, and the parameters and fields of src/."""
    own, per_file, source = {}, {}, set()
    for path in files("crates", (".antt", ".rt")):
        t = text(path)
        if path.endswith(".rt"):
            source.update(re.findall(r"\b([a-z_0-9]+)\s*:(?!:)", re.sub(r"//[^\n]*|\b(?:requires|ensures) [a-z_]+", "", t)))
            continue
        if os.path.basename(path) == "Proof.antt":
            continue
        per_file[path] = {w for line in t.split("\n") for w in TOKEN.findall(line[: comment_start(line)]) if not w.startswith('"')}
        for line in t.split("\n"):
            m = HEAD.match(line)
            if m and not line.lstrip().startswith(("--", "use ", "pub use")):
                own.setdefault(m.group(3), set()).add(path)
            m = re.match(r"^\s+((?:pub )?[a-z][A-Za-z0-9_'\-]*(?: [a-z][A-Za-z0-9_'\-]*)*) : ", line)
            if m:
                for name in m.group(1).removeprefix("pub ").split(" "):
                    own.setdefault(name, set()).add(path)
    return own, per_file, source


def snake(part):
    return re.sub(r"(?<=[a-z0-9'])([A-Z])", lambda m: "_" + m.group(1).lower(), part)


def turned(name, known):
    parts = name.split("-")
    out = snake(parts[0])
    for before, part in zip(parts, parts[1:]):
        out += ("-" if before in known and part in known else "_") + snake(part)
    return out


# Where the plain turn would fall together with a name of the same file. A lemma that would have its function's name gets _lem.
CHOSEN = {
    name: name.replace("-", "_") + "_lem"
    for name in ("found_in", "is-held", "move-word", "move-place", "terms-word", "factors-word", "ev_step", "go_step", "ev-line", "go_on", "place-of", "end_step", "none_of", "line_after")
}
CHOSEN |= {"stepUp": "step_up_kind", "stepDown": "step_down_kind", "inputUp": "input_up_kind", "inputDown": "input_down_kind", "wrong?": "is_wrong"}


def plan():
    own, per_file, source = declared()
    known = {n for n, paths in own.items() if any("/specs/" in p for p in paths) and len(n) > 1}
    names, clash = {}, []
    for name in sorted(own):
        if name not in CHOSEN and not (LETTER.match(name) and ("-" in name or SHAPE.search(name))):
            continue
        new = CHOSEN.get(name) or turned(name, known)
        if new != name:
            names[name] = new
    for path, words in per_file.items():
        seen = {}
        for w in words:
            new = names.get(w, w)
            if seen.setdefault(new, w) != w:
                clash.append((seen[new], w, path))
    for name, new in names.items():
        if new in source:
            clash.append((name, new, "a parameter or field of src/"))
    return names, clash


def turn_all(t, names):
    return TOKEN.sub(lambda m: names.get(m.group(0), m.group(0)), t)


def turn_ticks(t, names):
    return re.sub(r"`[^`\n]+`", lambda m: turn_all(m.group(0), names), t)


def turn_antt(t, names):
    out = []
    for line in t.split("\n"):
        at = comment_start(line)
        out.append(turn_all(line[:at], names) + turn_ticks(line[at:], names))
    return "\n".join(out)


def comment_start(line):
    if line.lstrip().startswith("--"):
        return len(line) - len(line.lstrip())
    at = line.find(" -- ")
    return len(line) if at < 0 else at


CLAUSE = re.compile(r"^\s*(ghost\b|requires\b|ensures\b|pub ghost\b)")


def turn_rt(t, names):
    """In a source file: the lines of clauses and ghost items, whole clauses over several lines, and names in backticks of comments."""
    out = []
    depth = 0
    for line in t.split("\n"):
        if depth == 0 and not CLAUSE.match(line):
            out.append(turn_ticks(line, names) if line.lstrip().startswith("//") else line)
            continue
        depth += line.count("{") - line.count("}")
        out.append(turn_all(line, names))
    return "\n".join(out)


def write(path, old, new):
    if new != old:
        with open(path, "w", encoding="utf-8") as f:
            f.write(new)


def main():
    names, clash = plan()
    if "--plan" in sys.argv:
        for name in sorted(names):
            print(name, names[name])
    for one, other, path in clash:
        print(f"fall together: {one} and {other}, {path}", file=sys.stderr)
    if clash or "--plan" in sys.argv:
        raise SystemExit(1 if clash else 0)
    for path in files("crates", (".antt",)):
        t = text(path)
        write(path, t, turn_antt(t, names))
    for path in files("crates", (".rt",)):
        t = text(path)
        write(path, t, turn_rt(t, names))
    for path in files(".", (".md",)):
        t = text(path)
        write(path, t, turn_ticks(t, names))
    print(f"{len(names)} names turned")


if __name__ == "__main__":
    main()
