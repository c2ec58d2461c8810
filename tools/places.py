#!/usr/bin/env python3
"""Lists the places in crates/*/src that docs/DESIGN-PASS.md counts, point by point.

usage: python3 tools/places.py            counts: a line for each question
       python3 tools/places.py --list     the places too, each with its file and line
       python3 tools/places.py --list 3a  those of one question

It reads the sources as text (comments and ghost lines left out) and says where to look, not what is wrong there. Run on another commit: give its checkout's
folder in the environment variable TREE.
"""

import collections
import glob
import os
import re
import sys

ROOT = os.environ.get("TREE", ".")


def sources():
    for path in sorted(glob.glob(os.path.join(ROOT, "crates/*/src/*.rt"))):
        lines = open(path, encoding="utf-8").read().split("\n")
        yield os.path.relpath(path, ROOT), [re.sub(r"//.*", "", l) if not l.lstrip().startswith("ghost use") else "" for l in lines]


FILES = list(sources())


def crate(path):
    return path.split("/")[1]


def grep(pattern, but=None):
    p, b = re.compile(pattern), re.compile(but) if but else None
    return [(f, n, l.strip()) for f, ls in FILES for n, l in enumerate(ls, 1) if p.search(l) and not (b and b.search(l))]


CLAUSE = re.compile(r"^\s*(requires|ensures)\b")


def functions():
    """(file, line, name, signature, clauses, body lines) of each function."""
    for f, ls in FILES:
        n = 0
        while n < len(ls):
            m = re.match(r"^(\s*)(?:pub(?:\(crate\))? )?(?:extern \"C\" )?fn (\w+)", ls[n])
            if not m:
                n += 1
                continue
            first, sign, clauses = n, "", []
            while n < len(ls) and not CLAUSE.match(ls[n]) and not re.search(r"\{\s*$", ls[n]):
                sign += ls[n].strip() + " "
                n += 1
            while n < len(ls) and CLAUSE.match(ls[n]):
                clauses.append((n + 1, ls[n].strip()))
                n += 1
            if not clauses and n < len(ls):
                sign += ls[n].strip()
            body, indent = [], m.group(1)
            n += 1
            while n < len(ls) and ls[n] != indent + "}":
                body.append((n + 1, ls[n]))
                n += 1
            yield f, first + 1, m.group(2), sign, clauses, body


FUNCTIONS = list(functions())


def blocks(word):
    for f, ls in FILES:
        for n, l in enumerate(ls):
            m = re.match(r"^\s*(?:pub )?" + word + r" (\w+)", l)
            if m and l.rstrip().endswith("{"):
                inner = []
                for k in range(n + 1, len(ls)):
                    if ls[k].strip() == "}":
                        break
                    inner.append(ls[k].strip())
                yield f, n + 1, m.group(1), [x for x in inner if x]


def own_options():
    """1a: enums of which one variant holds nothing or a fault and another a value."""
    found = []
    for f, n, name, inner in blocks("enum"):
        bare = [x for x in inner if re.match(r"\w+,$", x)]
        full = [x for x in inner if re.match(r"\w+\(", x)]
        if full and (len(bare) == 1 or any(re.match(r"(Fault|Err|Error)\(", x) for x in full)):
            found.append((f, n, "enum " + name))
    return found


def flagged():
    """1b: structs that say by a bool whether a value beside it is there."""
    return [(f, n, "struct %s { %s }" % (name, " ".join(inner))) for f, n, name, inner in blocks("struct")
            if any(re.match(r"(pub )?(any|failed|found|first|ok|some|present): bool", x) for x in inner)]


def codes():
    """1c: constants that number kinds, phases or refusals."""
    return grep(r"\bconst [A-Z_]+: (u8|u32) = (b'.'|[0-9]+);", but=r"SHORTEST_DELAY|ITEMS|LINES|DIGITS|STEPS: u32 = 30")


def numbers():
    """1d: literal answer numbers and 0 or another place as none."""
    return grep(r"Fault\([0-9]|\bgiven\(\s*[0-9]|(refusal|refused|bad|failure)\([0-9]|number: [0-9]|blame\(.*[0-9]{2}\)|\.number [!=]= 0|\bf [!=]= 0|\bn == 0|place == 0|d == 0|number != 0|== BAD|declared_at\(.*\) [!=]= 0|return (4|6|7|16|17);|qualifier\(.*\) != 0")


KEPT = set("if else return let mut while loop for in match as true false Some None Ok Err Self self new".split())


def shape(lines):
    """The lines with their names by the order in which they come, and numbers and texts as #."""
    names = {}

    def name(m):
        return m.group(0) if m.group(0) in KEPT else names.setdefault(m.group(0), "v%d" % len(names))

    text = " ".join(lines)
    text = re.sub(r"b?'[^']*'|b?\"[^\"]*\"|\b[0-9][0-9_]*\b", "#", text)
    return re.sub(r"\b[A-Za-z_]\w*\b", name, text)


def twins():
    """2a: functions whose bodies are the same but for names, numbers and texts (a call alone, or the making of a struct, does not count)."""
    by = collections.defaultdict(list)
    for f, n, name, sign, clauses, body in FUNCTIONS:
        text = [l.strip() for _, l in body if l.strip()]
        if len(text) > 2 or any(w in " ".join(text) for w in ("if ", "match ", "<", "|")):
            by[shape(text)].append((f, n, name))
    return [x for xs in by.values() if len(xs) > 1 for x in xs]


def twin_types():
    """2b: structs and enums that have one name in several crates, or the same fields."""
    by = collections.defaultdict(list)
    for word in ("struct", "enum"):
        for f, n, name, inner in blocks(word):
            by[name].append((f, n, word + " " + name))
            if inner:
                by[" ".join(x.replace("pub ", "") for x in inner)].append((f, n, word + " " + name))
    return sorted({x for xs in by.values() if len(xs) > 1 for x in xs})


def counted_loops():
    """3a: `while` and `loop` whose body steps a counter by hand."""
    found = []
    for f, n, name, sign, clauses, body in FUNCTIONS:
        text = [l for _, l in body]
        for k, l in enumerate(text):
            m = re.match(r"^(\s*)(while .*|loop) \{$", l)
            if not m:
                continue
            inner = []
            for x in text[k + 1:]:
                if x == m.group(1) + "}":
                    break
                inner.append(x)
            if any(re.search(r"\b\w+ [+-]= [0-9]+;", x) for x in inner):
                found.append((f, body[k][0], "%s: %s" % (name, l.strip())))
    return found


def other_loops():
    """3b: the other `while` and `loop`."""
    known = {(f, n) for f, n, _ in counted_loops()}
    return [(f, n, l) for f, n, l in grep(r"^\s*(while .*|loop) \{$") if (f, n) not in known]


def least():
    """4a: the least of two, a difference that stops at 0, a sum that stops, a byte's class: by hand."""
    return grep(r"if (\w+) < (\w+) \{ \1 \} else \{ \2 \}|if n < 32 \{ n|if n < 64 \{ n|if n == 0 \{ 0 \}|\{ n \+ 1 \} else \{ n \}|\{ line \+ 1 \} else|if from < len \{ len - from|b'0' <= b|b'a' <= b|b - 32|if n < u64::MAX|if number < u64::MAX")


def converted():
    """4b: conversions by hand: a bool as 1 or 0, a byte or word widened by `as`."""
    return grep(r"\{ 1 \} else \{ 0 \}| as u64\b|\bb as u32\b|\bb as u64\b")


def compared():
    """4c: fields of two values compared or copied one by one; printing by write_all of pieces."""
    return grep(r"\(m\.situation == |write_all\(b\"|rt\.print\(|print\(rt")


def clauses():
    """5a: facts that stand in the contracts of three or more functions of one crate."""
    by = collections.defaultdict(list)
    for f, n, name, sign, cl, body in FUNCTIONS:
        for k, c in cl:
            m = re.match(r"requires(?: \w+)? \{ (.*) \}", c)
            if m:
                by[(crate(f), m.group(1))].append((f, k, "%s: %s" % (name, c)))
    return [x for xs in by.values() if len(xs) > 2 for x in xs]


def together():
    """5b: parameters that travel together: signatures with two or more of a group."""
    groups = {"cond": (r"\bs: &\[u8; Condition::BYTES\]", r"\bview: &"), "evolve": (r"\btable: &", r"\btext: &"), "engine": (r"\btable: &", r"\btext: &"),
              "line": (r"\bw: &", r"\bknown: &"), "writer": (r"\broom: &", r"\bat: usize|\bfrom: usize"), "text": (r"\broom: &", r"\bat: usize"),
              "naming": (r"\btext: &", r"\bt: Token"), "outline": (r"\btext: &", r"\bt: Token")}
    return [(f, n, name) for f, n, name, sign, cl, body in FUNCTIONS if crate(f) in groups and all(re.search(g, sign) for g in groups[crate(f)])]


def buffers():
    """6a: structs with an array and its length; constants that are places in an array of words."""
    found = [(f, n, "struct " + name) for f, n, name, inner in blocks("struct")
             if any(re.search(r": \[\w+; ", x) for x in inner) and any(re.match(r"(pub )?(count|size|length): usize", x) for x in inner)]
    return found + grep(r"const [A-Z_]+: usize = [0-9]+;", but=r"(BYTES|WORDS|TEXT|ROOM|PAGE|INPUT|ITEMS|LINE|DIGITS)\b")


def word_arrays():
    """6b: words behind index constants in place of fields."""
    return grep(r"\b(view|known|words|table|w)\[[A-Z]\w+::[A-Z_]+")


def switches():
    """7a: three or more tests in a row, each of which picks the function to run."""
    found = []
    for f, n, name, sign, cl, body in FUNCTIONS:
        picks = [k for k, l in body if re.match(r"\s*return \w[\w:]*\(.*\);", l)]
        tests = [k for k, l in body if re.match(r"\s*if .*(==|begins\(|same\().* \{$", l)]
        if len(tests) >= 3 and len(picks) >= 3:
            found.append((f, n, name))
    return found


QUESTIONS = [("1a", own_options), ("1b", flagged), ("1c", codes), ("1d", numbers), ("2a", twins), ("2b", twin_types), ("3a", counted_loops), ("3b", other_loops),
             ("4a", least), ("4b", converted), ("4c", compared), ("5a", clauses), ("5b", together), ("6a", buffers), ("6b", word_arrays), ("7a", switches)]


def main():
    words = sys.argv[1:]
    listed = "--list" in words
    only = [w for w in words if not w.startswith("-")]
    for mark, ask in QUESTIONS:
        if only and mark not in only:
            continue
        places = sorted(ask())
        print("%s %4d  %s" % (mark, len(places), ask.__doc__.split(": ", 1)[1].strip()))
        if listed:
            for f, n, what in places:
                print("        %s:%d  %s" % (f, n, what))


if __name__ == "__main__":
    main()
