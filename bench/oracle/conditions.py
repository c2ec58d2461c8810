#!/usr/bin/env python3
"""Oracle for conditions: a second reader, made from the paper alone, and its cases.

    python3 bench/oracle/conditions.py

writes crates/cond_cases/stdin and crates/cond_cases/stdout.

stdin, for each case: one line of numbers
    LEN:STEPS:INPUTS:HOLD:SITUATION:PREVIOUS:INPUTWORD:OLDINPUTS:STEP:AGE
then LEN bytes of condition, then byte 10. All ages are 0 but that of STEP.
stdout, for each case: `N ans=A holds=B`.

Each hand-chosen case names its answer and truth as read off the paper by hand;
the script stops if the reader below thinks otherwise.
"""
import re
from pathlib import Path
from typing import NamedTuple

# --- the reader --------------------------------------------------------------
# It does not descend the grammar: it cuts the bytes into atoms and signs, writes
# T or F for each atom and then replaces innermost brackets by their value.

# "A number is 1 to 7 decimal digits without a leading zero, except 0 itself."
NUMBER = rb"(?:0|[1-9][0-9]{0,6})"
# "atom: 1 true, 0 false, xS, iI, uxS dxS uiI diI, T/xS";
# "`1` followed by `/` begins an on-delay", so the delay is tried before 1 and 0.
TOKEN = re.compile(
    rb"(?P<delay>%b)/x(?P<step>%b)" % (NUMBER, NUMBER)
    + rb"|(?P<edge>[ud]?)(?P<kind>[xi])(?P<item>%b)" % NUMBER
    + rb"|(?P<truth>[01])|(?P<sign>[!().+])"
)
LONGEST, LONGEST_DELAY = 64, 3_600_000


class View(NamedTuple):
    """What a condition is held against: words (bit j for item j) and one age."""
    sit: int = 0
    prev: int = 0
    inp: int = 0
    old: int = 0
    step: int = 0
    age: int = 0


def tokens(cond):
    """The tokens of the bytes, or None if some byte begins none or T is out of range."""
    found, place = [], 0
    while place < len(cond):
        token = TOKEN.match(cond, place)
        if token is None:
            return None
        if token["delay"] and not 1 <= int(token["delay"]) <= LONGEST_DELAY:
            return None
        found.append(token)
        place = token.end()
    return found


def bit(word, item):
    return word >> item & 1 == 1


def atom(token, view):
    """Evolution, rules 4 and 5."""
    if token["truth"]:
        return token["truth"] == b"1"
    if token["delay"]:
        step = int(token["step"])
        age = view.age if step == view.step and step < 30 else 0
        return bit(view.sit, step) and age >= int(token["delay"])
    now, before = (view.sit, view.prev) if token["kind"] == b"x" else (view.inp, view.old)
    item = int(token["item"])
    if token["edge"] == b"u":
        return bit(now, item) and not bit(before, item)
    if token["edge"] == b"d":
        return bit(before, item) and not bit(now, item)
    return bit(now, item)


def flat(text):
    """Value of a condition without brackets whose atoms are T and F; None if it is none.
    "cond: terms joined by +; term: factors joined by .; factor: ! factor, or an atom"."""
    terms = [term.split(".") for term in text.split("+")]
    if not all(re.fullmatch("!*[TF]", factor) for term in terms for factor in term):
        return None
    truth = lambda factor: (factor[-1] == "T") != (factor.count("!") % 2 == 1)
    return any(all(truth(factor) for factor in term) for term in terms)


def read(cond, view=View()):
    """(tokens, truth in the view), or None for bytes not of the grammar."""
    found = tokens(cond)
    if found is None:
        return None
    text = "".join(
        t["sign"].decode() if t["sign"] else "FT"[atom(t, view)] for t in found)
    while inner := re.search(r"\(([^()]*)\)", text):
        value = flat(inner[1])
        if value is None:
            return None
        text = text[:inner.start()] + "FT"[value] + text[inner.end():]
    value = flat(text)
    if value is None:
        return None
    return found, value


def judge(cond, steps, inputs, hold):
    """Answer number of a condition: the lowest of its faults, or 0."""
    reading = read(cond)
    # 4: "condition empty, too long or not of the grammar (T out of range too)"
    if not 1 <= len(cond) <= LONGEST or reading is None:
        return 4
    found, _ = reading
    faults = []
    for t in found:
        # 6: "undeclared step, input or output"
        if t["step"] and int(t["step"]) >= steps:
            faults.append(6)
        if t["item"] and int(t["item"]) >= (steps if t["kind"] == b"x" else inputs):
            faults.append(6)
        # 7: "edge atom in a hold"
        if t["edge"] and hold:
            faults.append(7)
    return min(faults, default=0)


def holds(cond, view):
    """Truth in the view; bytes that are no condition never hold. Declared counts and
    the place (move or hold) do not matter here."""
    reading = read(cond, view)
    return 1 <= len(cond) <= LONGEST and reading is not None and reading[1]


# --- numbers for generated cases ----------------------------------------------

class Dice:
    """A fixed row of numbers, the same on every machine and Python."""

    def __init__(self, seed):
        self.state = seed

    def below(self, n):
        self.state = (self.state * 6364136223846793005 + 1442695040888963407) % 2**64
        return (self.state >> 33) % n

    def pick(self, things):
        return things[self.below(len(things))]


def word(dice):
    return dice.below(2**16) << 16 | dice.below(2**16)


def some_condition(dice, steps, inputs, edges=True, room=64, most=6):
    """A random condition of at most `room` bytes over the declared items."""
    def some_atom():
        while True:
            kind = dice.below(8)
            if kind == 0:
                return dice.pick(["0", "1"])
            edge = dice.pick(["", "u", "d"]) if edges and kind > 4 else ""
            if kind == 1 and steps:
                return f"{dice.pick([1, 2, 10, 99, 100, 101, 3600000])}/x{dice.below(steps)}"
            if kind in (2, 3, 5) and steps:
                return f"{edge}x{dice.below(steps)}"
            if kind in (4, 6, 7) and inputs:
                return f"{edge}i{dice.below(inputs)}"

    def some(size):
        if size <= 1:
            return dice.pick(["", "", "!", "!!"]) + some_atom()
        left = 1 + dice.below(size - 1)
        inside = some(left) + dice.pick(".+") + some(size - left)
        return dice.pick(["%s", "%s", "(%s)", "!(%s)", "((%s))"]) % inside

    while True:
        cond = some(1 + dice.below(most)).encode()
        if len(cond) <= room:
            return cond


# --- the cases ------------------------------------------------------------------

CASES = []


def case(cond, ans, truth, steps=30, inputs=32, hold=0, **view):
    """One hand-chosen case with its answer number and its truth (0 or 1)."""
    cond = cond.encode("latin-1")
    view = View(**view)
    told = (judge(cond, steps, inputs, hold), int(holds(cond, view)))
    assert told == (ans, truth), f"{cond}: by hand {(ans, truth)}, by the reader {told}"
    CASES.append((cond, steps, inputs, hold, view))


def bad(*conds, **rest):
    """Bytes that are no condition: 4, and they hold never (whatever is on)."""
    for cond in conds:
        case(cond, 4, 0, **{**ALL_ON, **rest})


ALL = 2**32 - 1
ALL_ON = dict(sit=ALL, inp=ALL, age=ALL)


def hand_chosen():
    # Atoms 1 and 0; "`((1))`"
    case("1", 0, 1)
    case("0", 0, 0)
    case("0", 0, 0, **ALL_ON)
    case("1", 0, 1, hold=1)
    case("(1)", 0, 1)
    case("(0)", 0, 0)
    case("((1))", 0, 1)
    case("((0))", 0, 0)

    # xS: step active. Bits 0, 5, 29 of the situation, each alone and each alone missing
    for s in (0, 5, 29):
        case(f"x{s}", 0, 1, sit=1 << s)
        case(f"x{s}", 0, 0, sit=ALL ^ 1 << s, prev=ALL, inp=ALL, old=ALL)

    # iI: input on. Bits 0, 5, 29, 31 of the new inputs
    for i in (0, 5, 29, 31):
        case(f"i{i}", 0, 1, inp=1 << i)
        case(f"i{i}", 0, 0, inp=ALL ^ 1 << i, old=ALL, sit=ALL, prev=ALL)

    # "`ux`, `dx` compare the current situation with the one before it", all four ways
    for s in (0, 5, 29):
        b = 1 << s
        case(f"ux{s}", 0, 1, sit=b)
        case(f"ux{s}", 0, 0, prev=b)
        case(f"ux{s}", 0, 0, sit=b, prev=b)
        case(f"dx{s}", 0, 1, prev=b)
        case(f"dx{s}", 0, 0, sit=b)
        case(f"dx{s}", 0, 0, sit=b, prev=b)
    case("ux0+dx0", 0, 0)
    case("ux0", 0, 0, inp=1)
    case("dx0", 0, 0, old=1)
    case("ux3.dx4", 0, 1, sit=8, prev=16)
    case("ux3.dx4", 0, 0, sit=16, prev=8)
    case("ux4.dx3", 0, 1, sit=16, prev=8)
    case("ux3", 0, 1, sit=ALL, prev=ALL ^ 8)
    case("dx3", 0, 1, sit=ALL ^ 8, prev=ALL)

    # "input edges compare old and new", all four ways
    for i in (0, 5, 31):
        b = 1 << i
        case(f"ui{i}", 0, 1, inp=b)
        case(f"ui{i}", 0, 0, old=b)
        case(f"ui{i}", 0, 0, inp=b, old=b)
        case(f"di{i}", 0, 1, old=b)
        case(f"di{i}", 0, 0, inp=b)
        case(f"di{i}", 0, 0, inp=b, old=b)
    case("ui0+di0", 0, 0)
    case("ui0", 0, 0, sit=1)
    case("di0", 0, 0, prev=1)
    case("ui1+di1", 0, 0, inp=ALL, old=ALL)

    # "`T/xS` holds when S is in the current situation and its age is at least T"
    for age, truth in ((99, 0), (100, 1), (101, 1), (0, 0), (3600000, 1), (ALL, 1)):
        case("100/x2", 0, truth, sit=4, step=2, age=age)
    case("100/x2", 0, 0, sit=ALL ^ 4, prev=4, step=2, age=100)
    case("100/x2", 0, 0, sit=4, step=3, age=100)
    case("1/x0", 0, 0, sit=1, age=0)
    case("1/x0", 0, 1, sit=1, age=1)
    case("1/x0", 0, 0, sit=0, age=1)
    case("2/x0", 0, 0, sit=1, age=1)
    case("2/x0", 0, 1, sit=1, age=2)
    case("10/x0", 0, 0, sit=1, age=9)
    case("10/x0", 0, 1, sit=1, age=10)
    case("7/x29", 0, 1, sit=1 << 29, step=29, age=7)
    case("7/x29", 0, 0, sit=1 << 29, step=28, age=7)
    case("3600000/x1", 0, 0, sit=2, step=1, age=3599999)
    case("3600000/x1", 0, 1, sit=2, step=1, age=3600000)
    case("5/x0.5/x1", 0, 0, sit=3, step=1, age=5)
    case("5/x0+5/x1", 0, 1, sit=3, step=1, age=5)
    case("5/x1.3/x1", 0, 1, sit=3, step=1, age=5)
    case("!5/x0", 0, 1, sit=1, age=4)
    case("!5/x0", 0, 0, sit=1, age=5)
    case("5/x0", 0, 1, sit=1, age=5, hold=1)      # an on-delay is no edge

    # "T 1 to 3,600,000 ms": out of range is 4, also beside an undeclared step
    bad("0/x0", "3600001/x0", "9999999/x0", "0/x9", "3600001/x30", "x0+0/x0", "1+0/x0")
    # `1` followed by `/` begins an on-delay; `2` alone is no atom
    bad("2", "10", "11", "00", "01", "12", "9", "1/", "/x0", "1/x", "1/0", "1/1", "1/i0",
        "1/ux0", "1/dx0", "1/!x0", "1/(x0)", "2/x0.2", "x0/x0", "i1/x0", "1//x0", "1/x0/x0",
        "1.5/x", "1/xx0", "1/x 0", "u1/x0", "(1)/x0")

    # A number is 1 to 7 digits without a leading zero; anything else is 4
    bad("x01", "x00", "i00", "i07", "ux00", "01/x0", "1/x00", "00/x0", "1/x01")
    bad("x10000000", "i10000000", "10000000/x0", "1/x10000000", "x12345678", "x00000001",
        "ux10000000", "di10000000", "x99999999999999999999", "x4294967296", "i4294967296",
        "99999999999999999999/x0")
    # Seven digits are a number, so its own rule decides (here 6)
    case("x9999999", 6, 0, **ALL_ON)
    case("i9999999", 6, 0, **ALL_ON)
    case("1/x9999999", 6, 0, **ALL_ON)
    case("1000000/x0", 0, 1, sit=1, age=1000000)

    # Names: each atom whole and in small letters
    bad("x", "i", "u", "d", "ux", "ui", "dx", "di", "uy0", "u0", "d0", "uu0", "uux0", "udx0",
        "xu0", "X0", "I0", "UX0", "uX0", "Ui0", "x-1", "x+0", "x.0", "i(0)", "x!0", "xx0",
        "ix0", "xi0", "ux 0", "x0x1", "x0i0", "i0ui0", "x0ux0", "true", "T", "F", "s0", "?")

    # "condition empty": a condition has 1 to 64 bytes
    bad("")
    # A lone, doubled, leading or trailing operator; operators side by side
    bad("+", ".", "!", "!!", "++", "..", "+1", ".1", "1+", "1.", "1!", "1++1", "1..1", "1.+1",
        "1+.1", "1!1", "1!+1", "1+!", "!+1", "!.1", "1.!", "x0.", "x0+x1+")
    # Brackets: missing, extra, empty, crossed, beside an atom
    bad("(", ")", "()", "(1", "1)", "((1)", "(1))", ")1(", ")(", "1()", "()1", "(())", "!()",
        "(1)(1)", "1(1)", "(1)1", "(1)x0", "x0(1)", "(1+)", "(+1)", "(.)", "(!)", "(1.(0)",
        "(1).0)", "x(0)", "(x)0", "1+()", "[1]", "{1}")
    # Bytes that are not of the grammar: space, tab, 0, 10, 13, 255 and others
    for b in (" ", "\t", "\0", "\n", "\r", "\xff", "\x80"):
        bad(b, b + "1", "1" + b, "1+" + b + "1")
    bad("x\x000", "x0\r\n", "1:1", "x0>x1", "1,1", "x0=1", "1*1", "1&1", "1|1", "x0-x1", "-1",
        "+-1", "1\n1", "\xb1", "x\xb2", "1;", "'1'", "~1", "x0\0")

    # "cond: terms joined by + (or); term: factors joined by . (and)"; `!` binds closest
    case("1+0.0", 0, 1)
    case("(1+0).0", 0, 0)
    case("0.0+1", 0, 1)
    case("0.(0+1)", 0, 0)
    case("1.1+0", 0, 1)
    case("0+1.0", 0, 0)
    case("0+1.1", 0, 1)
    case("!0.0", 0, 0)
    case("!(0.0)", 0, 1)
    case("!1+1", 0, 1)
    case("!(1+1)", 0, 0)
    case("!0", 0, 1)
    case("!1", 0, 0)
    case("!!1", 0, 1)
    case("!!0", 0, 0)
    case("!!!1", 0, 0)
    case("!(!(!1))", 0, 0)
    case("1.!0.1", 0, 1)
    case("0+0+1", 0, 1)
    case("0+0+0", 0, 0)
    case("1.1.0", 0, 0)
    case("1.1.1", 0, 1)
    case("1+1.0.0", 0, 1)
    case("1.0+0.1+1.1", 0, 1)
    case("((1+0).(0+1)).!(1.0)", 0, 1)
    case("((1+0).(0+1)).!(1+0)", 0, 0)
    case("(((0)+1).((1)))", 0, 1)
    case("!x0.x1", 0, 1, sit=2)
    case("!(x0.x1)", 0, 0, sit=3)
    case("!(x3.x5)", 0, 1, sit=8)
    case("!(x3.x5)", 0, 0, sit=40)
    case("x1.!x5", 0, 1, sit=2)
    case("x0.i0+!x0.!i0", 0, 1)
    case("x0.i0+!x0.!i0", 0, 0, sit=1)
    case("x0.i0+!x0.!i0", 0, 1, sit=1, inp=1)
    case("(ux1+dx2).!(ui3.200/x4)", 0, 1, sit=18, prev=16, inp=8, step=4, age=199)
    case("(ux1+dx2).!(ui3.200/x4)", 0, 0, sit=18, prev=16, inp=8, step=4, age=200)
    case("(ux1+dx2).!(ui3.200/x4)", 0, 1, sit=18, prev=16, inp=8, old=8, step=4, age=200)

    # "condition 1 to 64 bytes": both sides
    case("!" * 63 + "1", 0, 0)
    case("!" * 63 + "0", 0, 1)
    case("!" * 62 + "1", 0, 1)
    bad("!" * 64 + "1", "!" * 63, "!" * 64)
    case("x1+" * 20 + "x1+1", 0, 1)                      # 64
    bad("x1+" * 20 + "x1+x1", "x1+" * 30 + "x1")         # 65, 92
    case("1." * 31 + "x0", 0, 1, sit=1)                  # 64
    case("1." * 31 + "x0", 0, 0)
    bad("1." * 31 + "x10", "1+" * 32 + "1")              # 65, 65
    case("3600000/x1." * 5 + "100/x29.1", 0, 0, sit=2, step=1, age=3600000)   # 64
    bad("3600000/x1." * 5 + "3600/x29.1", "1" * 64, "1" * 65, "0" * 200)
    case("i7+" * 21 + "0", 0, 0, inp=ALL ^ 128)          # 64
    case("i7+" * 21 + "1", 0, 1)
    # 64 and 65 bytes with a further fault
    case("!" * 61 + "x30", 6, 0, sit=1 << 30)
    case("!" * 61 + "ux0", 7, 0, sit=1, hold=1)
    bad("!" * 62 + "x30", "!" * 62 + "ux0", hold=1)

    # 02, P5: "33 pairs and an atom need 67" bytes: brackets that are too deep are too long, 4; 5 is struck
    case("(" * 31 + "1" + ")" * 31, 0, 1)
    case("(" * 31 + "!1" + ")" * 31, 0, 0)
    case("!(" * 21 + "1" + ")" * 21, 0, 0)               # 64
    case("(" * 30 + "x0" + ")" * 30, 0, 1, sit=1)
    case("(" * 31 + "x" + "0" + ")" * 31, 0, 1, sit=1)   # 64
    case("(1)." * 14 + "(((1)))", 0, 1)
    bad("(" * 32 + "1" + ")" * 32)                       # 65, 32 deep
    bad("(" * 33 + "1" + ")" * 33)                       # 67, 33 deep
    bad("(" * 32 + "1", "(" * 32 + "1" + ")" * 31)       # not closed
    bad("(" * 32 + ")" * 32, "(" * 33 + "1" + ")" * 30, "(" * 64, "(" * 63 + "1", ")" * 64)
    bad("(" * 31 + "1" + ")" * 32, "(" * 31 + "1" + ")" * 30, "1" + ")" * 63)

    # 6: "undeclared step, input or output": numbers count from 0, both sides of each count
    case("x3", 0, 1, steps=4, sit=8)
    case("x4", 6, 1, steps=4, sit=16)
    case("x0", 0, 1, steps=1, sit=1)
    case("x1", 6, 0, steps=1, sit=1)
    case("x29", 0, 1, steps=30, **ALL_ON)
    case("x30", 6, 1, steps=30, **ALL_ON)
    case("i1", 0, 1, inputs=2, inp=2)
    case("i2", 6, 1, inputs=2, inp=4)
    case("i31", 0, 1, inputs=32, **ALL_ON)
    case("i32", 6, 0, inputs=32, **ALL_ON)
    case("i0", 6, 1, inputs=0, inp=1)
    case("i0", 6, 0, inputs=0)
    case("x0", 6, 1, steps=0, inputs=0, sit=1)
    case("1", 0, 1, steps=0, inputs=0)
    case("0", 0, 0, steps=0, inputs=0)
    case("i3", 0, 0, steps=1, inputs=4)                  # steps and inputs are counted apart
    case("x3", 6, 0, steps=1, inputs=4)
    case("x3", 0, 0, steps=4, inputs=1)
    case("i3", 6, 0, steps=4, inputs=1)
    # in every atom
    for name, last in (("ux", 4), ("dx", 4), ("ui", 2), ("di", 2)):
        case(f"{name}{last - 1}", 0, 0, steps=4, inputs=2)
        case(f"{name}{last}", 6, 0, steps=4, inputs=2)
    case("5/x3", 0, 1, steps=4, sit=8, step=3, age=5)
    case("5/x4", 6, 1, steps=4, sit=16, step=4, age=5)
    # in every place, even where its truth does not matter
    case("x0+x4", 6, 1, steps=4, sit=1)
    case("x4+x0", 6, 1, steps=4, sit=1)
    case("0.x4", 6, 0, steps=4, sit=16)
    case("1+(0.!i9)", 6, 1, inputs=9)
    # the words have 32 bits: an item of 32 or more is never on
    for n, on in ((29, 1), (30, 1), (31, 1), (32, 0), (9999999, 0)):
        case(f"x{n}", 0 if n < 30 else 6, on, **ALL_ON)
        case(f"i{n}", 0 if n < 32 else 6, on, **ALL_ON)
    case("ux31", 6, 1, sit=1 << 31)
    case("dx30", 6, 1, prev=1 << 30)
    case("ux32+dx32+ui32+di32", 6, 0, sit=ALL, inp=ALL)
    case("ux32+dx32+ui32+di32", 6, 0, prev=ALL, old=ALL)
    case("!x32", 6, 1, **ALL_ON)
    case("!i9999999", 6, 1, **ALL_ON)
    case("x64+x33+x4096", 6, 0, **ALL_ON)
    # there are thirty ages: that of a step of 30 or more is 0
    for s in (30, 31, 32, 60, 9999999):
        case(f"1/x{s}", 6, 0, sit=ALL, step=0, age=ALL)
    case("1/x30", 6, 0, sit=ALL, step=29, age=ALL)
    case("!1/x31", 6, 1, sit=ALL, step=29, age=ALL)

    # 7: "edge atom in a hold"
    for name in ("ux0", "dx0", "ui0", "di0"):
        on = dict(sit=1, inp=1) if name[0] == "u" else dict(prev=1, old=1)
        case(name, 7, 1, hold=1, **on)
        case(name, 7, 0, hold=1)
        case(name, 0, 1, hold=0, **on)
    case("x0.i0", 0, 1, hold=1, sit=1, inp=1)
    case("!(x0+(1.di3))", 7, 1, hold=1)
    case("1+ux1", 7, 1, hold=1)
    case("0.ui1", 7, 0, hold=1)
    case("200/x1+ui0", 7, 1, hold=1, sit=2, step=1, age=200)

    # Two faults in one condition: the lowest number
    bad("x9.", "x9+?", "0/x9", "(x9", "i9)", "x01+x9", steps=2, inputs=2)             # 4 with 6
    bad("ux0.", "ux0+?", "ux", "(ui0", "0/x0+di0", "dx0 ", "ui01", hold=1)            # 4 with 7
    bad("ux9.", "x9.ui0.", hold=1, steps=2, inputs=2)                                 # 4, 6, 7
    for cond in ("ux9", "ui9", "dx9", "di9", "ux0.x9", "x9.ux0", "i9+di0", "di0+i9"):  # 6 with 7
        case(cond, 6, 0, hold=1, steps=2, inputs=2)
        case(cond, 6, 0, hold=0, steps=2, inputs=2)                                   # 6 alone
    case("5/x9.ui0", 6, 1, hold=1, steps=2, sit=512, inp=1, step=9, age=5)

    # Counts above what a chart can declare: still "undeclared" means number >= count
    case("x31", 0, 1, steps=32, sit=1 << 31)
    case("x9999999", 0, 0, steps=10000000, **ALL_ON)
    case("i9999999", 6, 0, inputs=9999999, **ALL_ON)
    case("i9999999.1/x9999999", 0, 0, steps=ALL, inputs=ALL, **ALL_ON)


def generated(pairs=30):
    """Random good conditions in random views, and each again with one byte damaged."""
    dice = Dice(60848)
    while pairs:
        pairs -= 1
        steps, inputs = dice.pick([2, 4, 30]), dice.pick([1, 3, 32])
        cond = some_condition(dice, steps, inputs, most=3 + pairs // 2)
        told_steps = dice.pick([steps, steps, steps, steps - 1])
        hold = dice.pick([0, 0, 0, 1])
        view = View(word(dice), word(dice), word(dice), word(dice),
                    dice.below(4), dice.pick([0, 1, 99, 100, 101, 3600000]))
        assert judge(cond, steps, inputs, 0) == 0
        CASES.append((cond, told_steps, inputs, hold, view))
        place = dice.below(len(cond))
        other = dice.pick([dice.below(256), *b"01259xiud/!().+"])
        while other == cond[place]:
            other = dice.below(256)
        cond = cond[:place] + bytes([other]) + cond[place + 1:]
        CASES.append((cond, told_steps, inputs, hold, view))


def write(name, questions, answers):
    folder = Path(__file__).resolve().parents[2] / "crates" / name
    folder.mkdir(parents=True, exist_ok=True)
    (folder / "stdin").write_bytes(b"".join(questions))
    (folder / "stdout").write_bytes(b"".join(answers))


def main():
    hand_chosen()
    generated()
    questions, answers = [], []
    for n, (cond, steps, inputs, hold, view) in enumerate(CASES, 1):
        header = ":".join(map(str, (len(cond), steps, inputs, hold, *view)))
        questions.append(header.encode() + b"\n" + cond + b"\n")
        ans, truth = judge(cond, steps, inputs, hold), int(holds(cond, view))
        answers.append(b"%d ans=%d holds=%d\n" % (n, ans, truth))
    write("cond_cases", questions, answers)


if __name__ == "__main__":
    main()
