#!/usr/bin/env python3
"""Oracle for whole chart texts: a second reader, made from the paper alone, and its cases.

    python3 bench/oracle/charts.py

writes crates/chart_cases/stdin and crates/chart_cases/stdout.

stdin, for each case: one line `LEN:K`, then LEN bytes of chart text, then byte 10.
stdout, for each case: `N ans=A n=L cond=C`: answer number and line of the check, and
the condition that the lookup of move number K yields (nothing if there is none).

Each hand-chosen case names its answer, line and condition as read off the paper by
hand; the script stops if the reader below thinks otherwise.
"""
import re
import sys

sys.dont_write_bytecode = True
from conditions import NUMBER, Dice, judge, some_condition, write

# --- the reader --------------------------------------------------------------

# "Key=value lines in this fixed order, each ended by byte 10, no spaces."
HEAD = ["chart", "steps", "initial", "inputs", "outputs", "limit"]
BODY = ["move", "hold", "latch", "end"]
# "A list is numbers joined by commas, perhaps empty."
LIST = rb"(?:%b(?:,%b)*)?" % (NUMBER, NUMBER)
# A list has no colon, so the colon after a move's second list is its first one.
SHAPE = {
    "initial": rb"initial=(%b)" % LIST,
    "move": rb"move=(%b)>(%b):(.*)" % (LIST, LIST),
    "hold": rb"hold=(%b):(%b):(.*)" % (NUMBER, NUMBER),
    "latch": rb"latch=(%b):[ud]:(%b):[01]" % (NUMBER, NUMBER),
}
for key in ("chart", "steps", "inputs", "outputs", "limit", "end"):
    SHAPE[key] = key.encode() + rb"=(%b)" % NUMBER
# "N 1 to 30, M and K 0 to 32, L 1 to 1,024"; "a `chart=` number but 1" is refused
RANGE = {"chart": (1, 1), "steps": (1, 30), "inputs": (0, 32), "outputs": (0, 32),
         "limit": (1, 1024)}
MOST_BYTES, MOST_LINES = 16384, 64


def numbers(text):
    return [int(n) for n in text.split(b",")] if text else []


def rises(items):
    # "Lists rise strictly."
    return all(a < b for a, b in zip(items, items[1:]))


class Chart:
    """What the lines read so far say."""

    def __init__(self):
        self.head = {}
        self.lines = {"move": [], "hold": [], "latch": []}
        self.place = 0          # of the last line's key in BODY
        self.ended = False

    def allowed(self):
        """The keys that can continue the order read so far."""
        if len(self.head) < len(HEAD):
            return [HEAD[len(self.head)]]
        return [] if self.ended else BODY[self.place:]

    def faults(self, line):
        """The answer numbers that one line (without its byte 10) deserves, and takes it in."""
        key = line.split(b"=")[0].decode("latin-1")
        # 2: "line not of its shape (a wrong E or V too) or place"
        if key not in self.allowed():
            return [2]
        parts = re.fullmatch(SHAPE[key], line, re.DOTALL)
        if parts is None:
            return [2]
        if key in HEAD:
            return self.head_faults(key, parts[1])
        self.place = BODY.index(key)
        if key == "end":
            self.ended = True
            # 9: "`end` total wrong"
            total = sum(len(lines) for lines in self.lines.values())
            return [9] if int(parts[1]) != total else []
        self.lines[key].append(parts.groups())
        found = getattr(self, key + "_faults")(*parts.groups())
        # 3: "65th line of a kind"
        if len(self.lines[key]) > MOST_LINES:
            found.append(3)
        return found

    def head_faults(self, key, value):
        self.head[key] = numbers(value)
        # 3: "head number or list rule broken"
        if key == "initial":
            return self.list_faults(self.head[key]) + ([3] if value == b"" else [])
        low, high = RANGE[key]
        return [] if low <= int(value) <= high else [3]

    def count(self, key):
        return self.head[key][0]

    def list_faults(self, items):
        found = [] if rises(items) else [3]
        return found + [6 for s in items if s >= self.count("steps")]

    def move_faults(self, before, after, cond):
        # "A move may have one empty list, not both."
        found = [3] if before == after == b"" else []
        found += self.list_faults(numbers(before)) + self.list_faults(numbers(after))
        return found + self.condition_faults(cond, hold=0)

    def hold_faults(self, step, output, cond):
        return self.item_faults(step, output) + self.condition_faults(cond, hold=1)

    def latch_faults(self, step, output):
        # 8: "latch on an output that has a hold"
        held = [int(o) for _, o, _ in self.lines["hold"]]
        return self.item_faults(step, output) + ([8] if int(output) in held else [])

    def item_faults(self, step, output):
        # 6: "undeclared step, input or output"
        inside = int(step) < self.count("steps") and int(output) < self.count("outputs")
        return [] if inside else [6]

    def condition_faults(self, cond, hold):
        ans = judge(cond, self.count("steps"), self.count("inputs"), hold)
        return [ans] if ans else []


def check(text):
    """(answer number, line, the moves' conditions)."""
    # 1: "text over 16,384 bytes"; "Answer 1 comes first"
    if len(text) > MOST_BYTES:
        return 1, 0, []
    chart = Chart()
    *lines, rest = text.split(b"\n")
    # "then the first faulty line, lowest number within it"; "Lines count from 1"
    for number, line in enumerate(lines, 1):
        if found := chart.faults(line):
            return min(found), number, []
    # 2: "no final byte 10, anything after `end`";
    # "a missing line counts at the number it would have"
    if rest or not chart.ended:
        return 2, len(lines) + 1, []
    return 0, 0, [cond for _, _, cond in chart.lines["move"]]


def lookup(text, k):
    # "given a move's number, counted from 1 among the move lines"; "for a refused text,
    # number 0 or one too high it returns the empty part"
    conds = check(text)[2]
    return conds[k - 1] if 1 <= k <= len(conds) else b""


# --- the cases ------------------------------------------------------------------

CASES = []
USUAL = {"chart": 1, "steps": 3, "initial": 0, "inputs": 2, "outputs": 2, "limit": 16}


def join(lines):
    return "".join(line + "\n" for line in lines)


def text(*body, end=None, **head):
    """The usual head with some values changed, the body lines and the right total."""
    lines = [f"{key}={value}" for key, value in {**USUAL, **head}.items()]
    return join([*lines, *body, f"end={len(body) if end is None else end}"])


def unfinished(*body):
    """The same without the `end` line and without the byte 10 before it."""
    return text(*body).rsplit("end=", 1)[0][:-1]


def case(chart, ans, line, k=1, cond=""):
    """One hand-chosen case with its answer number, its line and the condition looked up."""
    chart = chart.encode("latin-1")
    told = (*check(chart)[:2], lookup(chart, k).decode("latin-1"))
    hand = (ans, line, cond)
    assert told == hand, f"{chart[-300:]}: by hand {hand}, by the reader {told}"
    CASES.append((chart, k))


def head(key, ans, *values, **others):
    """A head line with each of the values: the answer stands at that line."""
    for value in values:
        line = HEAD.index(key) + 1 if ans else 0
        case(text(**{**others, key: value}), ans, line)


def last(ans, *body, **others):
    """Body lines whose last one gets the answer; the first move is looked up."""
    cond = body[0].split(":", 1)[1] if not ans and body[0].startswith("move=") else ""
    case(text(*body, **others), ans, 6 + len(body) if ans else 0, cond=cond)


def each(ans, *lines, **others):
    """Each line alone in a chart: the answer stands at line 7."""
    for line in lines:
        last(ans, line, **others)


RIG = """chart=1
steps=4
initial=0
inputs=2
outputs=2
limit=16
move=0>1:ui0
move=1>2:1
move=2>3:200/x2
move=3>0:!i0
hold=1:0:1
hold=3:0:i1
latch=1:u:1:1
latch=3:d:1:0
end=8
"""
ODD_BYTES = (" ", "\t", "\0", "\r", "\xff")
HUGE = 2**32 - 1


def long_condition(n):
    """A condition of n bytes."""
    return "!" * (1 - n % 2) + "1+" * ((n - 1) // 2) + "1"


def long_text(size, end=192):
    """64 lines of each kind, all lists full, and conditions (1 to 64 bytes) as long as
    it takes to fill `size` bytes."""
    full = ",".join(map(str, range(30)))
    opens = [f"move={full}>{full}:"] * 64 + [f"hold={i % 30}:{i % 16}:" for i in range(64)]
    latches = [f"latch={i % 30}:{'ud'[i % 2]}:{16 + i % 16}:{i // 2 % 2}" for i in range(64)]
    make = lambda sizes: text(
        *(o + long_condition(n) for o, n in zip(opens, sizes)), *latches,
        steps=30, initial=full, inputs=32, outputs=32, limit=1024, end=end)
    sizes = [1] * 128
    for i in range(128):
        sizes[i] += min(63, size - len(make(sizes)))
    assert len(make(sizes)) == size
    return make(sizes)


def whole_texts():
    # The paper's rig chart and small charts
    case(RIG, 0, 0, 1, "ui0")
    case(text("move=0>1:1", "move=1>0:1", limit=3), 0, 0, 2, "1")                   # A
    case(text("move=0>0:1", steps=1, limit=2), 0, 0, 1, "1")                        # C
    case(text("move=0>1:1", "move=0>2:1"), 0, 0, 2, "1")                            # E
    case(text("move=0>1:1", "move=1>:x0", initial="0,1"), 0, 0, 2, "x0")            # F
    case(text("move=0>1:ui0", "move=1>2:dx0", "move=2>1:1"), 0, 0, 2, "dx0")        # I
    case(text("move=0>1:1", "move=1>0:!(x3.x5)", "move=2>3:x1", "move=3>2:x1.!x5",
              "move=4>5:x1.x3", steps=6, initial="0,2,4"), 0, 0, 2, "!(x3.x5)")     # J
    case(text("move=0>1:1", "latch=0:d:0:1", "latch=1:u:0:0"), 0, 0, 1, "1")        # K
    # the least chart
    case(text(), 0, 0)
    case(text(steps=1, inputs=0, outputs=0, limit=1), 0, 0)

    # "an empty text gives 2 at line 1"; one byte; only byte 10
    case("", 2, 1)
    for one in ("c", "\0", "\n", "\r", "\xff", "\n\n\n", "\0\0", "chart=1", "chart=9", "chart="):
        case(one, 2, 1)
    case("chart=1\n", 2, 2)
    case("chart=9\n", 3, 1)
    case("chart=1\n\n", 2, 2)
    case("chart=1\nsteps=0", 2, 2)
    case("chart=1\nsteps=0\n", 3, 2)

    # A text that ends early: 2 at the missing line; without byte 10: 2 at that very line
    lines = RIG.splitlines()
    for n in range(1, 16):
        if n > 1:
            case(join(lines[:n - 1]), 2, n)
        case(join(lines[:n])[:-1], 2, n)
    # ... whatever else is wrong in that line
    for line in ("move=0>9:1", "move=0>1:?", "move=>:1", "move=0>1:", "hold=0:0:ux0", "end=7",
                 "hold=9:0:1", "latch=9:u:0:1"):
        case(unfinished(line), 2, 7)
    case(unfinished("hold=0:0:1", "latch=0:u:0:1"), 2, 8)
    case(RIG.replace("end=8\n", "end=7"), 2, 15)
    case(RIG.replace("end=8\n", "end=7\n"), 9, 15)

    # "anything after `end`": 2 at the next line's number; a wrong total before it wins
    for more in ("\n", "x", "\0", "\r\n", " ", "end=8\n", "end=8", "chart=1\n", RIG,
                 "move=0>1:1\n"):
        case(RIG + more, 2, 16)
    case(RIG.replace("end=8", "end=7") + "\n", 9, 15)
    case(RIG.replace("end=8", "end=08") + "\n", 2, 15)

    # "text at most 16,384 bytes"; "Answer 1 comes first"
    case(long_text(16384), 0, 0, 1, "!" + "1+" * 31 + "1")
    case(long_text(16384), 0, 0, 64, "1")
    case(long_text(16383), 0, 0, 64, "1")
    case(long_text(16385), 1, 0)
    case(long_text(16384) + "\n", 1, 0)
    case(long_text(16383) + "\n", 2, 200)
    case(long_text(16385)[:-1], 2, 199)
    case(long_text(16384, end=191), 9, 199)
    case(long_text(16385, end=191), 1, 0)
    case("\n" * 16384, 2, 1)
    case("\n" * 16385, 1, 0)
    case("\0" * 16385, 1, 0)
    case(RIG + "\xff" * (16384 - len(RIG)), 2, 16)
    case(RIG + "\xff" * (16385 - len(RIG)), 1, 0)
    case("steps=" + "3" * 20000, 1, 0)
    case(text(steps="3" * 16000), 2, 2)
    case(text("move=0>1:" + "1+" * 8000 + "1"), 4, 7)


def heads():
    # chart=: "also a `chart=` number but 1"
    head("chart", 3, "0", "2", "9", "10", "9999999")
    head("chart", 2, "", "01", "00", "10000000", "+1", "-1", "1.0", "1,", "a", "0x1", "1=1", "=1")
    # steps=: "N 1 to 30"
    head("steps", 0, "1", "3", "30")
    head("steps", 3, "0", "31", "32", "9999999")
    head("steps", 2, "", "03", "00", "10000000", "0000003", "1,2", "4294967299", "x", "-0")
    # inputs=, outputs=: "M and K 0 to 32"
    for key in ("inputs", "outputs"):
        head(key, 0, "0", "32")
        head(key, 3, "33", "64", "9999999")
        head(key, 2, "", "00", "02", "10000000", "4294967296", "-1", "1,2")
    # limit=: "L 1 to 1,024"
    head("limit", 0, "1", "1024")
    head("limit", 3, "0", "1025", "9999999")
    head("limit", 2, "", "016", "00", "10000000", "1,024", "1 024")
    # initial=: "not empty", "Lists rise strictly", steps numbered from 0
    head("initial", 0, "0", "2", "0,1", "0,2", "0,1,2")
    head("initial", 3, "", "0,0", "1,0", "2,2", "0,0,1", "0,2,1", "0,1,1")
    head("initial", 6, "3", "0,3", "0,1,2,3", "9999999", "0,9999999")
    head("initial", 2, "0,,1", ",1", "1,", ",", "00", "0,01", "10000000", "0,10000000", "0;1",
         "0, 1", "0>1", "-1", "x0", "0,1=")
    head("initial", 0, "29", ",".join(map(str, range(30))), steps=30)
    head("initial", 6, "30", ",".join(map(str, range(31))), steps=30)
    head("initial", 6, "1", "0,1", steps=1)
    # lowest number in the line
    head("initial", 3, "9,8", "0,9,9", steps=2)            # 3 with 6
    head("initial", 6, "0,9", "8,9", steps=2)              # 6 alone
    head("initial", 2, "1,0,", "9,8,a", ",9", "9,8,01")    # 2 with 3 and 6
    # space, tab, 0, 13 or 255 in a head line; "Byte 13 before byte 10 belongs to the line"
    for b in ODD_BYTES:
        for key in HEAD:
            head(key, 2, f"{USUAL[key]}{b}")
    for b in ODD_BYTES[:3]:
        head("initial", 2, b, f"0{b},1")
        case(RIG.replace("steps=", f"steps{b}="), 2, 2)
        case(b + RIG, 2, 1)
    case(RIG.replace("\n", "\r\n"), 2, 1)
    # keys
    for line in ("Chart=1", "chart:1", "chart1", "charts=1", "chart", "=1", "", "hart=1", "c=1",
                 "1=chart", "\xef\xbb\xbfchart=1", "chart=1\0", "\nchart=1", "steps=1"):
        case(RIG.replace("chart=1", line), 2, 1)
    # each head line missing, repeated, swapped with the next: 2 at the line that stands there
    lines = RIG.splitlines()
    for n in range(6):
        case(join(lines[:n] + lines[n + 1:]), 2, n + 1)
        case(join(lines[:n + 1] + lines[n:]), 2, n + 2)
        case(join(lines[:n] + [lines[n + 1], lines[n]] + lines[n + 2:]), 2, n + 1)
    case(join(lines[:3] + [""] + lines[3:]), 2, 4)
    case(join(lines[6:]), 2, 1)


def bodies():
    # Place: moves, then holds, then latches, then end; each kind may be missing
    move, hold, latch = "move=0>1:i0", "hold=0:0:1", "latch=0:u:1:1"
    last(0, move)
    last(0, hold)
    last(0, latch)
    last(0, move, hold)
    last(0, move, latch)
    last(0, hold, latch)
    last(0, move, move, hold, hold, latch, latch)
    last(2, hold, move)
    last(2, latch, move)
    last(2, latch, hold)
    last(2, move, hold, move)
    last(2, move, latch, hold)
    last(2, move, hold, latch, hold)
    last(2, move, hold, latch, move)
    for line in [f"{key}={value}" for key, value in USUAL.items()]:
        last(2, move, line)
    last(2, "end=0", move)
    last(2, move, "end=1", hold)
    last(2, move, "")
    last(2, move, "# moves")
    last(2, move, "step=0")
    last(2, move, "move")
    last(2, move, "\0")
    # out of place and a further fault: 2 is the lowest
    last(2, hold, "move=>:?")
    last(2, latch, "hold=9:9:ux0")

    # move: "steps before, steps after"; "one empty list, not both"; "Lists rise strictly"
    each(0, "move=0>1:1", "move=>0:1", "move=0>:1", "move=0>0:1", "move=0,1>2:1",
         "move=0>1,2:x0", "move=0,1,2>0,1,2:i1", "move=0,2>1:1", "move=2>2:1")
    each(3, "move=>:1", "move=0,0>1:1", "move=1,0>2:1", "move=0>2,1:1", "move=0>1,1:1",
         "move=0,1>2,2:1", "move=>1,0:1", "move=1,0>:1", "move=0,2,1>:1")
    each(6, "move=3>0:1", "move=0>3:1", "move=0,3>1:1", "move=0>1,3:1", "move=>3:1", "move=3>:1",
         "move=9999999>1:1", "move=0>9999999:1", "move=3>3:1")
    each(2, "move=0,,1>2:1", "move=,1>2:1", "move=1,>2:1", "move=0>,2:1", "move=0>2,:1",
         "move=,>0:1", "move=00>1:1", "move=0>01:1", "move=10000000>1:1", "move=0>10000000:1",
         "move=0,00000001>2:1")
    # "everything after a move's first colon": that colon ends the lists
    each(2, "move=0>1>0:1", "move=0:1>1:1", "move=0>1", "move=0:1", "move=:1", "move=>", "move=",
         "move", "move=01:1", "move=0>>1:1", "move=>1>:1", "move=0>1;1", "move=0-1:1",
         "move=0<1:1", "move=x0>1:1", "move=1:0>1", "move=0=1:1", "move=0>1=1", "move=0")
    each(4, "move=0>1:x0>x1", "move=0>1:", "move=>1:", "move=0>:", "move=0>1::", "move=0>1::1",
         "move=0>1:1:1", "move=0>1:1:", "move=0>1:0>1:1", "move=0>1:move=0>1:1")
    each(2, "Move=0>1:1", "moves=0>1:1", "mov=0>1:1", "move:0>1:1", "move==0>1:1", " move=0>1:1",
         "move =0>1:1", "move= 0>1:1", "move=0 >1:1", "move=0> 1:1", "move=0>1 :1", "mmove=0>1:1")

    # conditions in a move: 4, 6, and no 7
    each(0, "move=0>1:ux0", "move=0>1:dx1", "move=0>1:ui0", "move=0>1:di1", "move=0>1:((1))",
         "move=0>1:2/x0", "move=0>1:1/x0", "move=0>1:3600000/x2", "move=0>1:x2", "move=0>1:i1",
         "move=0>1:!(x0+i0).!ux2", "move=0>1:0")
    each(4, "move=0>1:2", "move=0>1:0/x0", "move=0>1:3600001/x0", "move=0>1:0/x9", "move=0>1:?",
         "move=0>1:x", "move=0>1:()", "move=0>1:x00", "move=0>1:x10000000", "move=0>1:1=1",
         "move=0>1:10000000/x0", "move=0>1:1+", "move=0>1:(1", "move=0>1:1)", "move=0>1:X0")
    each(6, "move=0>1:x3", "move=0>1:i2", "move=0>1:ux3", "move=0>1:dx3", "move=0>1:ui2",
         "move=0>1:di2", "move=0>1:1/x3", "move=0>1:1+x9", "move=0>1:x9999999")
    # "condition 1 to 64 bytes"; 02, P5: "33 pairs and an atom need 67"
    for start in ("move=0>1:", "hold=0:0:"):
        for n in (1, 2, 63, 64):
            last(0, start + long_condition(n))
        for n in (65, 66, 129, 1000):
            last(4, start + long_condition(n))
        last(0, start + "(" * 31 + "1" + ")" * 31)
        last(4, start + "(" * 32 + "1" + ")" * 32)
        last(4, start + "(" * 33 + "1" + ")" * 33)
        last(4, start + "(" * 33 + "1")
        last(4, start + "(" * 33 + "x9" + ")" * 33)
    # lowest number in a move line
    each(2, "move=1,0>2", "move=0>>1:?", "move=9>a:1", "move=9,8>1,:?", "move=9,8>0")
    each(3, "move=>:", "move=>:?", "move=1,0>2:", "move=9,8>0:1", "move=0>9,9:?", "move=>:x9")
    each(4, "move=9>1:?", "move=0>9:", "move=0>1:x9.", "move=9>9:0/x9",
         "move=0>1:i9+" + "!" * 61 + "1")                                  # 65 bytes
    each(6, "move=0>1:i9+" + "!" * 60 + "1")                               # 64 bytes

    # hold=STEP:OUTPUT:COND, "everything after a hold's second colon"
    each(0, "hold=0:0:1", "hold=2:1:1", "hold=1:0:!x0+i1", "hold=0:1:5/x0", "hold=0:0:3600000/x2")
    each(6, "hold=3:0:1", "hold=0:2:1", "hold=0:0:x3", "hold=0:0:i2", "hold=0:0:1/x3", "hold=9:9:1",
         "hold=9999999:0:1", "hold=0:9999999:1")
    each(2, "hold=0:0", "hold=0:", "hold=0", "hold=", "hold", "hold=:0:1", "hold=0::1", "hold=::1",
         "hold=::", "hold=00:0:1", "hold=0:00:1", "hold=01:0:1", "hold=10000000:0:1",
         "hold=0:10000000:1", "hold=0,1:0:1", "hold=0:0,1:1", "hold=0>0:1", "hold=x0:0:1",
         "hold=0:o0:1", "hold=0:u:0:1", "hold=0;0:1", "Hold=0:0:1", "hold:0:0:1", "holds=0:0:1",
         "hold==0:0:1", "hold=-1:0:1")
    each(4, "hold=0:0:", "hold=0:0::", "hold=0:0:1:1", "hold=0:0:1:", "hold=0:0:?", "hold=0:0:2",
         "hold=0:0:0/x0", "hold=0:0:3600001/x0", "hold=0:0:0/x9", "hold=0:0:ux", "hold=0:0::1")
    # 7: "edge atom in a hold"
    each(7, "hold=0:0:ux0", "hold=0:0:dx0", "hold=0:0:ui0", "hold=0:0:di1", "hold=0:0:1+ux1",
         "hold=0:0:0.(i0.!di0)")
    # lowest number in a hold line
    each(2, "hold=00:0:ux0", "hold=9:a:?", "hold=9:9")
    each(4, "hold=9:9:ux0.", "hold=9:0:?", "hold=0:9:", "hold=0:0:ux0.", "hold=0:0:ui9+?")
    each(6, "hold=0:0:ux9", "hold=9:0:ux0", "hold=0:9:ui0", "hold=0:0:ui0.x9", "hold=0:0:i9+di0")

    # latch=STEP:E:OUTPUT:V, "E is `u` or `d`, V is 0 or 1"
    each(0, "latch=0:u:0:1", "latch=0:u:0:0", "latch=0:d:0:1", "latch=2:d:1:0")
    each(6, "latch=3:u:0:1", "latch=0:d:2:0", "latch=9:u:9:1", "latch=9999999:u:0:1",
         "latch=0:u:9999999:1")
    each(2, "latch=0:U:0:1", "latch=0:D:0:1", "latch=0:x:0:1", "latch=0::0:1", "latch=0:ud:0:1",
         "latch=0:1:0:1", "latch=0:u:0:2", "latch=0:u:0:", "latch=0:u:0:10", "latch=0:u:0:01",
         "latch=0:u:0:00", "latch=0:u:0:u", "latch=0:u:0:1:", "latch=0:u:0:1:1", "latch=0:u:0",
         "latch=0:u", "latch=0", "latch=", "latch", "latch=:u:0:1", "latch=0:u::1", "latch=0:0:1",
         "latch=00:u:0:1", "latch=0:u:00:1", "latch=01:u:0:1", "latch=10000000:u:0:1",
         "latch=0:u:10000000:1", "latch=0,1:u:0:1", "latch=0:u:0,1:1", "latch=u:0:0:1",
         "Latch=0:u:0:1", "latch:0:u:0:1", "latch==0:u:0:1", "latch=0:u:0:-1", "latch=0>u:0:1")
    each(2, "latch=9:u:0:2", "latch=9:U:9:1", "latch=0:u:9:")              # 2 with 6
    # 8: "latch on an output that has a hold", at the latch line
    last(8, "hold=0:0:1", "latch=1:u:0:1")
    last(8, "hold=0:0:0", "latch=0:d:0:0")
    last(8, "hold=0:1:1", "hold=0:0:1", "latch=1:u:0:1")
    last(8, "hold=0:0:1", "latch=1:u:1:1", "latch=1:u:0:1")
    last(8, "hold=1:31:1", "latch=1:u:31:1", outputs=32)
    last(0, "hold=0:0:1", "latch=0:u:1:1")
    last(0, "hold=0:0:1", "hold=1:0:i0", "hold=0:0:1", "latch=0:u:1:1", "latch=0:u:1:0")
    last(6, "hold=0:0:1", "latch=3:u:0:1")                                 # 6 with 8
    last(2, "hold=0:0:1", "latch=0:u:0:2")                                 # 2 with 8

    # 6 on both sides of each count
    last(0, "move=29>29:x29+ux29+1/x29", "hold=29:0:x29", "latch=29:u:1:1", steps=30)
    each(6, "move=30>0:1", "move=0>30:1", "move=0>1:x30", "move=0>1:1/x30", "hold=30:0:1",
         "hold=0:0:x30", "latch=30:u:0:1", steps=30)
    last(0, "move=0>0:x0", "hold=0:0:x0", "latch=0:u:1:1", steps=1)
    each(6, "move=1>0:1", "move=0>1:1", "move=0>0:x1", "hold=1:0:1", "latch=1:u:0:1", steps=1)
    last(0, "move=0>1:i31.di31", "hold=0:31:i31", inputs=32, outputs=32)
    each(6, "move=0>1:i32", "hold=0:0:i32", "hold=0:32:1", "latch=0:u:32:1", inputs=32, outputs=32)
    each(6, "move=0>1:i0", "move=0>1:!ui0", "hold=0:0:i0", inputs=0)
    each(6, "hold=0:0:1", "latch=0:u:0:1", "hold=0:0:ux0", outputs=0)
    last(0, "latch=0:u:31:1", outputs=32)

    # space, tab, 0, 13 or 255: 4 inside a condition, elsewhere 2
    for b in ODD_BYTES:
        each(4, f"move=0>1:1{b}", f"move=0>1:{b}1", f"move=0>1:{b}", f"hold=0:0:1{b}",
             f"hold=0:0:x{b}0")
        each(2, f"move=0{b}>1:1", f"move=0>1{b}:1", f"move{b}=0>1:1", f"hold=0{b}:0:1",
             f"hold=0:0{b}:1", f"latch=0:u:0:1{b}", f"latch=0:u{b}:0:1", f"latch=0:{b}:0:1")
        case(text(end=f"0{b}"), 2, 7)
    # byte 10 ends the line wherever it stands
    case(text("move=0>1:x0\n+x1"), 2, 8)
    case(text("move=0>1:\n1"), 4, 7)
    case(text("move=0>\n1:1"), 2, 7)
    case(text("hold=0:0:1\n\nhold=0:0:1"), 2, 8)


def counts():
    move, hold, latch = "move=0>1:1", "hold=0:0:1", "latch=0:u:1:1"
    # "up to 64" of each kind, the 65th is 3
    for line in (move, hold, latch):
        last(0, *[line] * 64)
        last(3, *[line] * 65)
        last(3, *[line] * 65, end=64)
    last(0, *[move] * 64, *[hold] * 64, *[latch] * 64)
    last(3, *[move] * 64, *[hold] * 65)
    last(3, *[move] * 64, *[hold] * 64, *[latch] * 65)
    case(text(*[move] * 64, *[hold] * 65, *[latch] * 65), 3, 135)
    case(text(*[move] * 65, "move=?"), 3, 71)
    # the 65th line: 3 before 4, 6, 7 and 8, but 2 if its shape or its end is wrong
    for line in ("move=0>1:?", "move=9>1:1", "move=0>1:", "move=>:x9", "move=1,0>2:1"):
        last(3, *[move] * 64, line)
    for line in ("hold=0:0:?", "hold=0:9:1", "hold=0:0:ux0", "hold=9:9:ui9."):
        last(3, *[hold] * 64, line)
    for line in ("latch=9:u:1:1", "latch=0:u:9:1", "latch=0:u:0:1"):
        last(3, hold, *[latch] * 64, line)
    for start, line in ((move, "move=0>1"), (move, "move=0>01:1"), (hold, "hold=0:0"),
                        (latch, "latch=0:u:1:2"), (latch, "hold=0:0:1"), (hold, "move=0>1:1"),
                        (move, "")):
        last(2, *[start] * 64, line)
    last(2, *[move] * 64, hold, move)
    case(unfinished(*[move] * 65), 2, 71)
    case(unfinished(*[move] * 64) + "\n", 2, 71)
    # faults in the 64th line are its own
    last(4, *[move] * 63, "move=0>1:?")
    last(6, *[hold] * 63, "hold=0:2:1")
    last(8, hold, *[latch] * 63, "latch=0:u:0:1")

    # "`end=T`, T the total of move, hold and latch lines"
    case(text(end=0), 0, 0)
    for total in ("1", "8", "9999999"):
        case(text(end=total), 9, 7)
    for total in ("", "00", "10000000", "-0", "0,0", "x", "0=0", "0:0"):
        case(text(end=total), 2, 7)
    for total in ("0", "2", "10", "9999999", "4294967"):
        case(text(move, end=total), 9, 8)
    for total in ("01", "10000001", "4294967297", "", "1.", "+1"):
        case(text(move, end=total), 2, 8)
    for total in (2, 4, 1, 0):                     # each kind counts
        case(text(move, hold, latch, end=total), 9, 10)
    case(text(move, hold, latch, end=3), 0, 0, 1, "1")
    for total in (191, 193, 64, 128):
        case(text(*[move] * 64, *[hold] * 64, *[latch] * 64, end=total), 9, 199)
    for line in ("end", "End=8", "end:8", "ends=8", "end =8", "end= 8", " end=8", "end=8 ",
                 "end==8"):
        case(RIG.replace("end=8", line), 2, 15)


def first_line_wins():
    case(text(chart=2, steps=0), 3, 1)
    case(text(chart=2, steps="x"), 3, 1)
    case(text(steps=31, initial="x"), 3, 2)
    case(text(initial=9, inputs="x"), 6, 3)
    case(text(initial=9, limit=0), 6, 3)
    case(text(outputs=33, limit=""), 3, 5)
    case(text("move=9>1:1", "move"), 6, 7)
    case(text("move=0>1:?", "move=>:1"), 4, 7)
    case(text("hold=0:0:ux0", "hold=0:0:x9"), 7, 7)
    case(text("hold=0:0:ux0", "hold=0:0:?"), 7, 7)
    case(text("hold=0:0:ux0", "move=0>1:1"), 7, 7)
    case(text("hold=0:0:1", "latch=0:u:0:1", "latch=0:u:9:1"), 8, 8)
    case(text("hold=0:0:1", "latch=0:u:0:1", end=9), 8, 8)
    case(text("move=0>1:1", "move=0>1:x9", end=1), 6, 8)
    case(text("move=0>1:1", end=2) + "move=0>1:1\n", 9, 8)
    case(text("move=0>1:1", "move=0>1:x9")[:-1], 6, 8)
    case(text("move=0>9:1") + "x", 6, 7)
    # a broken head is never asked what it declares
    case(text("move=30>0:1", steps=31), 3, 2)
    case(text("move=0>1:i32", inputs=33), 3, 4)


def lookups():
    for k, cond in ((0, ""), (1, "ui0"), (2, "1"), (3, "200/x2"), (4, "!i0"), (5, ""), (6, ""),
                    (8, ""), (64, ""), (65, ""), (256, ""), (257, ""), (65537, ""), (HUGE, "")):
        case(RIG, 0, 0, k, cond)
    many = [f"move=0>1:{k}/x0" for k in range(1, 65)]
    for k in (1, 2, 9, 10, 32, 63, 64):
        case(text(*many), 0, 0, k, f"{k}/x0")
    for k in (0, 65, 66, 128, HUGE):
        case(text(*many), 0, 0, k)
    for k in (1, 65):                              # holds and latches are no moves
        case(text(*["hold=0:0:i0"] * 64), 0, 0, k)
        case(text("latch=0:u:0:1"), 0, 0, k)
    case(text(*many, "hold=0:0:x1"), 0, 0, 65)
    for k in (0, 1, HUGE):
        case(text(), 0, 0, k)
    lines = [f"move=0,1>2:{long_condition(64)}", f"move=>2:{long_condition(1)}", "move=2>:(x0)"]
    case(text(*lines), 0, 0, 1, long_condition(64))
    case(text(*lines), 0, 0, 2, "1")
    case(text(*lines), 0, 0, 3, "(x0)")
    # a refused text yields nothing, wherever its fault stands
    for k in (0, 1, 4, 5, HUGE):
        case(RIG.replace("end=8", "end=9"), 9, 15, k)
    for k in (1, 2):
        case(RIG[:-1], 2, 15, k)
        case(RIG + "\n", 2, 16, k)
        case(RIG.replace("chart=1", "chart=2"), 3, 1, k)
        case(RIG.replace("hold=3:0:i1", "hold=3:0:ui1"), 7, 12, k)
        case(RIG.replace("latch=3:d:1:0", "latch=3:d:0:0"), 8, 14, k)
        case(RIG.replace("3>0:!i0", "3>0:!i2"), 6, 10, k)
        case(RIG.replace("3>0:!i0", "3>0:i0!"), 4, 10, k)
        case("", 2, 1, k)


def some_chart(dice):
    """The lines of a random small accepted chart, and how many moves it has."""
    steps, inputs = dice.pick([1, 2, 4, 30]), dice.pick([0, 1, 3, 32])
    outputs, limit = dice.pick([0, 1, 4, 32]), dice.pick([1, 16, 1024])

    def some_list():
        return [s for s in range(steps) if dice.below(steps) < 2]

    def show(items):
        return ",".join(map(str, items))

    initial = some_list() or [0]
    held = [o for o in range(outputs) if dice.below(2)]
    free = [o for o in range(outputs) if o not in held]
    moves, holds, latches = [], [], []
    for _ in range(dice.below(5)):
        before, after = some_list(), some_list()
        cond = some_condition(dice, steps, inputs).decode()
        moves.append(f"move={show(before)}>{show(after if before or after else [0])}:{cond}")
    for _ in range(dice.below(4) if held else 0):
        cond = some_condition(dice, steps, inputs, edges=False).decode()
        holds.append(f"hold={dice.below(steps)}:{dice.pick(held)}:{cond}")
    for _ in range(dice.below(4) if free else 0):
        step, edge, value = dice.below(steps), dice.pick("ud"), dice.below(2)
        latches.append(f"latch={step}:{edge}:{dice.pick(free)}:{value}")
    lines = text(*moves, *holds, *latches, steps=steps, initial=show(initial), inputs=inputs,
                 outputs=outputs, limit=limit).splitlines()
    return lines, len(moves)


def generated(pairs=50, seed=2217):
    """Random accepted charts, and each again with one byte or one line spoilt."""
    dice = Dice(seed)
    digits, signs = b"0123456789", b",:>=\nudxi.+!()/"
    for n in range(pairs):
        lines, moves = some_chart(dice)
        chart = join(lines).encode()
        k = dice.below(moves + 2)
        assert check(chart)[:2] == (0, 0)
        CASES.append((chart, k))
        place = dice.below(len(chart))
        kin = chart[place] in digits and dice.below(4) > 0     # mostly a digit for a digit
        other = dice.pick(digits if kin else [dice.below(256), *digits, *signs])
        while other == chart[place]:
            other = dice.pick(digits + signs)
        line = dice.below(len(lines) - 1)
        a, b = lines[line:line + 2]
        start, byte, rest = chart[:place], bytes([other]), chart[place:]
        above, below = lines[:line], lines[line + 2:]
        CASES.append(([
            start + byte + rest[1:],
            start + rest[1:],
            start + byte + rest,
            join([*above, b, *below]).encode(),
            join([*above, a, a, b, *below]).encode(),
            join([*above, b, a, *below]).encode(),
        ][n % 6], k))


def main():
    for cases in (whole_texts, heads, bodies, counts, first_line_wins, lookups, generated):
        cases()
    questions, answers = [], []
    for n, (chart, k) in enumerate(CASES, 1):
        questions.append(b"%d:%d\n%b\n" % (len(chart), k, chart))
        answers.append(b"%d ans=%d n=%d cond=%b\n" % (n, *check(chart)[:2], lookup(chart, k)))
    write("chart_cases", questions, answers)


if __name__ == "__main__":
    main()
