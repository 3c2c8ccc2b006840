#!/usr/bin/env python3
"""Writes the cases of this crate, `stdin`, and the answers that they must get, `stdout`.

The answers are worked out here from a table of the columns, with Python's own csv reader for the texts. Run it in this folder.
"""
import csv, io, re

REACH = (-1000000, 1000000)
NUMBER = re.compile(r"-?[0-9]{1,10}")


def number(said, low, high):
    if not NUMBER.fullmatch(said):
        return 11, None
    return (0 if low <= int(said) <= high else 12), str(int(said))


def limit(said, low, high):
    return (0, "none") if said == "" else number(said, low, high)


def letter(said, known):
    return (0 if len(said) == 1 and said in known else 13), said


def mode(said):
    refusal, value = number(said, -10**10, 10**10)
    return (refusal if refusal or value in ("2", "4") else 12), value


def spread(said, kind):
    return number(said, 1, 100000 if kind == "N" else 400000)


COLUMNS = {
    "REQ": [lambda s, f: number(s, 1, 9), lambda s, f: number(s, 1, 20), lambda s, f: limit(s, *REACH), lambda s, f: limit(s, *REACH),
            lambda s, f: letter(s, "SGMP"), lambda s, f: number(s, *REACH), lambda s, f: number(s, *REACH), lambda s, f: mode(s)],
    "ITEM": [lambda s, f: number(s, 1, 999999999), lambda s, f: number(s, 1, 9), lambda s, f: number(s, 1, 20), lambda s, f: number(s, *REACH),
             lambda s, f: letter(s, "NR"), lambda s, f: spread(s, f[5]), lambda s, f: number(s, -100000, 100000)],
}


def kind(letter, spread):
    """What the program shows of a kind: of a half-width h the share at or below one step above the reading, (1 + h) / 2h."""
    if letter == "N":
        return "N"
    h = int(spread)
    parts = 1000000 * min(h + 1, 2 * h)
    return "R:%d:%d" % (parts // (2 * h), -(-parts // (2 * h)))


def answer(n, fields):
    columns = COLUMNS.get(fields[0])
    if columns is None or len(fields) != len(columns) + 1:
        return "!10,%d,0" % n
    values = []
    for k, column in enumerate(columns, 2):
        refusal, value = column(fields[k - 1], fields)
        if refusal:
            return "!%d,%d,%d" % (refusal, n, k)
        values.append(value)
    if fields[0] == "REQ":
        return "(R %s)" % " ".join(values)
    return "(I %s %s %s)" % (" ".join(values[:4]), kind(values[4], values[5]), values[6])


def show(text):
    rows = list(csv.reader(io.StringIO(text, newline=""), strict=True, lineterminator="\r\n"))
    return "".join(answer(n, row) for n, row in enumerate(rows, 1))


REQ = ["REQ", "3", "7", "-250", "480", "G", "25", "0", "4"]
ITEM = ["ITEM", "40012", "3", "7", "119", "N", "60", "-12"]
NOT_NUMBERS = ["", "-", "+1", " 1", "1 ", "1.0", "1e2", "0x1", "12345678901", "-12345678901", "one", "1\n", '"']
NOT_LETTERS = ["", "SS", "NR", "s", "n", "X", "0", " ", '"', "S "]
RANGES = {
    ("REQ", 2): (1, 9), ("REQ", 3): (1, 20), ("REQ", 4): REACH, ("REQ", 5): REACH, ("REQ", 7): REACH, ("REQ", 8): REACH, ("REQ", 9): (2, 4),
    ("ITEM", 2): (1, 999999999), ("ITEM", 3): (1, 9), ("ITEM", 4): (1, 20), ("ITEM", 5): REACH, ("ITEM", 7): (1, 100000), ("ITEM", 8): (-100000, 100000),
}


def quoted(said):
    return '"' + said.replace('"', '""') + '"'


def spelled(fields, quote=lambda k: False):
    return ",".join(quoted(f) if quote(k) or set(f) & set('",\r\n') else f for k, f in enumerate(fields, 1))


def changed(fields, k, said):
    return fields[:k - 1] + [said] + fields[k:]


cases = [spelled(REQ), spelled(ITEM), spelled(REQ, lambda k: True), spelled(ITEM, lambda k: True), spelled(REQ) + "\r\n" + spelled(ITEM) + "\r\n"]
# each number: no number, leading zeros, each boundary and both its neighbours, far out
for (word, k), (low, high) in RANGES.items():
    good = REQ if word == "REQ" else ITEM
    values = [str(v) for edge in (low, high) for v in (edge - 1, edge, edge + 1)] + ["0", "-0", "-1", "9999999999", "-9999999999"]
    zeros = ["%s%s" % ("-" if v < 0 else "", str(abs(v)).zfill(10)) for v in (low - 1, low, high, high + 1)]
    for said in NOT_NUMBERS + values + zeros:
        cases += [spelled(changed(good, k, said)), spelled(changed(good, k, said), lambda j: j == k)]
# the spread of the other kind
for said in NOT_NUMBERS + ["0", "1", "2", "99999", "100000", "100001", "399999", "400000", "400001"]:
    cases.append(spelled(changed(changed(ITEM, 6, "R"), 7, said)))
# each letter
for good, k, known in ((REQ, 6, "SGMP"), (ITEM, 6, "NR")):
    for said in NOT_LETTERS + list("ABCDEFGHIJKLMNOPQRSTUVWXYZ"):
        cases += [spelled(changed(good, k, said)), spelled(changed(good, k, said), lambda j: j == k)]
# modes and absent limits
cases += [spelled(changed(REQ, 9, str(m))) for m in range(-5, 10)]
cases += [spelled(changed(changed(REQ, 4, low), 5, high)) for low in ("", "5", "x") for high in ("", "5", "x", "1000001")]
# the word, and too few or too many fields
for good in (REQ, ITEM):
    for word in ("", "req", "RE", "REQS", "REQ ", " REQ", "ITEM ", "item", "ITEMS", "REQ", "ITEM", "X", '"REQ"'):
        cases.append(spelled(changed(good, 1, word)))
    cases += [spelled(good[:n]) for n in range(1, len(good))] + [spelled(good + ["1"] * n) for n in range(1, 5)]
# of two fields that are refused the first one counts
for good in (REQ, ITEM):
    for j in range(2, len(good) + 1):
        for k in range(j + 1, len(good) + 1):
            cases.append(spelled(changed(changed(good, j, "?"), k, "??")))
    cases.append(spelled([good[0]] + ["?"] * (len(good) - 2)))
# records are counted, and a refused one does not end the text
cases.append("\r\n".join([spelled(REQ), spelled(changed(REQ, 9, "3")), spelled(ITEM), "X", spelled(changed(ITEM, 8, "100001")), spelled(ITEM)]))

with open("stdin", "w") as cin, open("stdout", "w") as cout:
    for text in cases:
        print(text.encode().hex(), file=cin)
        print(show(text), file=cout)
