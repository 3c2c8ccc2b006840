#!/usr/bin/env python3
"""The program `conform`, modelled from the written rules alone.

    model.py < input > output

Bytes in, bytes out. Nothing here is taken from the project's code. `model.conform(text)` answers the output for a text;
`model.work(text)` answers the lines as tuples, the lot and the sheet, for tests that want to look inside.
"""
import sys
from functools import lru_cache

M = 1_000_000
FAR = 2_000_000          # offsets run from -FAR to FAR
LONGEST = 65_536         # bytes of text
SHEET_PLACES = 100
LOT_PLACES = 1_000
COMMA, CR, LF, QUOTE = 44, 13, 10, 34

P = [int(v) for v in """
50000 53983 57926 61791 65542 69146 72575 75804 78814 81594
84134 86433 88493 90320 91924 93319 94520 95543 96407 97128
97725 98214 98610 98928 99180 99379 99534 99653 99744 99813
99865 99903 99931 99952 99966 99977 99984 99989 99993 99995 99997
""".split()]
assert len(P) == 41


class Refused(Exception):
    """A record is refused: number and field; `ends` where the reading ends with it."""

    def __init__(self, number, field, ends=False):
        super().__init__(number, field)
        self.number, self.field, self.ends = number, field, ends


# ---- text ------------------------------------------------------------------------------------------------------------

def next_record(text, i):
    """The record that begins at i (i < len(text)): the contents of its fields, and where the next one begins."""
    fields, n = [], len(text)
    while True:
        here = len(fields) + 1
        if i < n and text[i] == QUOTE:
            said, j = bytearray(), i + 1
            while True:
                if j >= n:
                    raise Refused(2, here, True)
                if text[j] != QUOTE:
                    said.append(text[j])
                    j += 1
                elif j + 1 < n and text[j + 1] == QUOTE:
                    said.append(QUOTE)
                    j += 2
                else:
                    j += 1
                    break
            fields.append(bytes(said))
            wrong = 2
        else:
            j = i
            while j < n and text[j] not in (COMMA, CR, LF, QUOTE):
                j += 1
            fields.append(bytes(text[i:j]))
            wrong = 3
        if j == n:
            return fields, n
        if text[j] == COMMA:
            i = j + 1
        elif text[j] == CR and j + 1 < n and text[j + 1] == LF:
            return fields, j + 2
        else:
            raise Refused(wrong, here, True)


# ---- fields ----------------------------------------------------------------------------------------------------------

def number(fields, k):
    """Field k (counted from 1) as a number."""
    said = fields[k - 1]
    digits = said[1:] if said[:1] == b"-" else said
    if not 1 <= len(digits) <= 10 or any(not 48 <= b <= 57 for b in digits):
        raise Refused(11, k)
    value = 0
    for b in digits:
        value = value * 10 + (b - 48)
    return -value if said[:1] == b"-" else value


def ranged(fields, k, low, high):
    value = number(fields, k)
    if not low <= value <= high:
        raise Refused(12, k)
    return value


def limit(fields, k):
    return None if fields[k - 1] == b"" else ranged(fields, k, -M, M)


def letter(fields, k, known):
    said = fields[k - 1]
    if len(said) != 1 or said not in known:
        raise Refused(13, k)
    return said.decode("ascii")


# ---- states of knowledge ---------------------------------------------------------------------------------------------

def up(a, b):
    return -((-a) // b)


def clamp(x):
    return max(-FAR, min(FAR, x))


def rectangular(s, x):
    if x <= -s:
        return 0, 0
    if x >= s:
        return M, M
    return M * (x + s) // (2 * s), up(M * (x + s), 2 * s)


def normal(s, x):
    if x == 0:
        return 500_000, 500_000
    if x < 0:
        low, high = normal(s, -x)
        return M - high, M - low
    k, r = divmod(10 * x, s)
    if k >= 40:
        return 999_965, M
    height = 10 * (P[k] * s + (P[k + 1] - P[k]) * r)       # over s
    return max(500_000, height // s - 5), min(M, up(height, s) + 308)


def below(kind, s, x):
    return (rectangular if kind == "R" else normal)(s, clamp(x))


def answers(knowledge, x):
    """Floor and ceiling at offset x, the bias layer over the kind."""
    kind, s, c = knowledge
    return below(kind, s, clamp(x) + c)


def expanded(kind, s):
    """U: twice the standard uncertainty, for R rounded up to a whole step."""
    if kind == "N":
        return 2 * s
    n = 0
    step = 1 << 20
    while step:
        if 3 * (n + step) ** 2 < 4 * s * s:
            n += step
        step >>= 1
    n += 1
    assert 3 * n * n >= 4 * s * s > 3 * (n - 1) ** 2
    return n


# ---- judging ---------------------------------------------------------------------------------------------------------

@lru_cache(maxsize=None)
def least_offset(knowledge, share):
    """The least offset whose floor reaches a million less the share; floors never fall, so halving finds it."""
    def good(x):
        return answers(knowledge, x)[0] >= M - share
    if not good(FAR):
        return None
    low, high = -FAR, FAR
    while low < high:
        middle = (low + high) // 2
        if good(middle):
            high = middle
        else:
            low = middle + 1
    return low


@lru_cache(maxsize=None)
def greatest_offset(knowledge, share):
    """The greatest offset whose ceiling stays within the share."""
    def good(x):
        return answers(knowledge, x)[1] <= share
    if not good(-FAR):
        return None
    low, high = -FAR, FAR
    while low < high:
        middle = (low + high + 1) // 2
        if good(middle):
            low = middle
        else:
            high = middle - 1
    return low


def within(low, high, y):
    return (low is None or low <= y) and (high is None or y <= high)


def moved(value, by):
    return None if value is None else value + by


def acceptance(req, big_u, knowledge):
    """Width of the guard band and acceptance limits."""
    _, _, tl, tu, rule, first, second, _ = req
    if rule == "P":
        al = au = None
        if tl is not None:
            x = greatest_offset(knowledge, first)
            if x is None:
                raise Refused(31, 0)
            al = tl - x
        if tu is not None:
            x = least_offset(knowledge, second)
            if x is None:
                raise Refused(31, 0)
            au = tu - x
        w = 0
    else:
        w = {"S": 0, "G": first, "M": up(first * big_u, 100)}[rule]
        al, au = moved(tl, w), moved(tu, -w)
    if al is not None and au is not None and al > au:
        raise Refused(32, 0)
    return w, al, au


def bracket(req, y, knowledge):
    tl, tu = req[2], req[3]
    if tl is None:
        return answers(knowledge, tu - y)
    low_a, high_a = answers(knowledge, tl - y)
    if tu is None:
        return M - high_a, M - low_a
    low_b, high_b = answers(knowledge, tu - y)
    return max(0, low_b - high_a), high_b - low_a


def judge(req, big_u, y, knowledge):
    tl, tu, mode = req[2], req[3], req[7]
    w, al, au = acceptance(req, big_u, knowledge)
    if within(al, au, y):
        verdict = "pass"
    elif mode == 2:
        verdict = "fail"
    elif within(tl, tu, y):
        verdict = "cpass"
    elif within(moved(tl, -w), moved(tu, w), y):
        verdict = "cfail"
    else:
        verdict = "fail"
    return (verdict, *bracket(req, y, knowledge))


# ---- records ---------------------------------------------------------------------------------------------------------

def against_rule(tl, tu, rule, first, second, mode):
    if rule == "S":
        return first != 0 or second != 0
    if rule == "G":
        return not -100_000 <= first <= 100_000 or second != 0 or (mode == 4 and first < 0)
    if rule == "M":
        return not -200 <= first <= 200 or second != 0 or (mode == 4 and first < 0)
    return (not 0 <= first <= 500_000 or not 0 <= second <= 500_000 or (tl is None and first != 0)
            or (tu is None and second != 0) or mode == 4)


def take_requirement(f, sheet):
    cls = ranged(f, 2, 1, 9)
    characteristic = ranged(f, 3, 1, 20)
    tl = limit(f, 4)
    tu = limit(f, 5)
    rule = letter(f, 6, (b"S", b"G", b"M", b"P"))
    first = ranged(f, 7, -M, M)
    second = ranged(f, 8, -M, M)
    mode = number(f, 9)
    if mode not in (2, 4):
        raise Refused(12, 9)
    if tl is None and tu is None:
        raise Refused(20, 0)
    if tl is not None and tu is not None and tl >= tu:
        raise Refused(21, 0)
    if against_rule(tl, tu, rule, first, second, mode):
        raise Refused(22, 0)
    if (cls, characteristic) in sheet:
        raise Refused(23, 2)
    if len(sheet) >= SHEET_PLACES:
        raise Refused(24, 0)
    sheet[cls, characteristic] = (cls, characteristic, tl, tu, rule, first, second, mode)


def take_item(f, sheet, lot):
    item = ranged(f, 2, 1, 999_999_999)
    cls = ranged(f, 3, 1, 9)
    characteristic = ranged(f, 4, 1, 20)
    y = ranged(f, 5, -M, M)
    kind = letter(f, 6, (b"N", b"R"))
    spread = ranged(f, 7, 1, 100_000 if kind == "N" else 400_000)
    bias = ranged(f, 8, -100_000, 100_000)
    if item in lot:
        raise Refused(40, 2)
    if len(lot) >= LOT_PLACES:
        raise Refused(41, 0)
    req = sheet.get((cls, characteristic))
    if req is None:
        raise Refused(30, 3)
    judgement = judge(req, expanded(kind, spread), y, (kind, spread, bias))
    lot[item] = (cls, *judgement)
    return ("item", item, *judgement)


def work(text):
    lines = [("line", "key", "outcome", "floor", "ceiling")]
    sheet, lot = {}, {}
    if len(text) > LONGEST:
        lines.append(("refused", 0, 1, 1, 0))
    else:
        i, record = 0, 0
        while i < len(text):
            record += 1
            try:
                f, i = next_record(text, i)
                if f[0] == b"REQ" and len(f) == 9:
                    take_requirement(f, sheet)
                elif f[0] == b"ITEM" and len(f) == 8:
                    lines.append(take_item(f, sheet, lot))
                else:
                    raise Refused(10, 0)
            except Refused as e:
                lines.append(("refused", record, e.number, e.number // 10 + 1, e.field))
                if e.ends:
                    break
    for cls in range(1, 10):
        entries = [e for e in lot.values() if e[0] == cls]
        if entries:
            passes = [e for e in entries if e[1] == "pass"]
            lines.append(("class", cls, len(passes), sum(M - e[3] for e in passes), sum(M - e[2] for e in passes)))
    return lines, sheet, lot


def conform(text):
    return b"".join(",".join(map(str, line)).encode("ascii") + b"\r\n" for line in work(text)[0])


if __name__ == "__main__":
    sys.stdout.buffer.write(conform(sys.stdin.buffer.read()))
    sys.stdout.buffer.flush()
