#!/usr/bin/env python3
"""Writes the cases of this crate, `stdin`, and the answers that they must get, `stdout`.

The answers are worked out here by regular expressions over RFC 4180's grammar, with no machine and no look at the
reader; wherever Python's own `csv` module accepts the text, its contents are compared too. Run it in this folder.
"""
import csv, io, itertools, re

QUOTED = re.compile(rb'"((?:[^"]|"")*)"(?!")', re.S)
BARE = re.compile(rb'[^",\r\n]*', re.S)
NUMBER = re.compile(rb'-?[0-9]{1,10}')
PLACES = 3


def read(text):
    """The records, as lists of (kind, bytes), and the fault, if any."""
    if len(text) > 65536:
        return [], (1, 0, 0)
    records, at = [], 0
    while at < len(text):
        fields = []
        while True:
            place = (len(records) + 1, len(fields) + 1)
            if text[at:at + 1] == b'"':
                m = QUOTED.match(text, at)
                if not m:
                    return records, (2, *place)
                kind, held, refusal = "q", m.group(1), 2
            else:
                m = BARE.match(text, at)
                kind, held, refusal = "b", m.group(0), 3
            at = m.end()
            comma, line, end = text[at:at + 1] == b",", text[at:at + 2] == b"\r\n", at == len(text)
            if not (comma or line or end):
                return records, (refusal, *place)
            fields.append((kind, held))
            at += 1 if comma else 2 if line else 0
            if not comma:
                break
        records.append(fields)
    return records, None


def content(field):
    return field[1].replace(b'""', b'"') if field[0] == "q" else field[1]


def fault(f):
    return "!%d,%d,%d" % f


def show(text):
    records, found = read(text)
    out = ""
    for n, fields in enumerate(records, 1):
        shown = ["%s%d.%d:%s" % (k, n, i, b.hex()) for i, (k, b) in enumerate(fields, 1)][:PLACES]
        shown += ["b0.0:"] * (PLACES - len(shown))
        out += "(%d,%d %s)" % (n, len(fields), " ".join(shown))
    return out + (fault(found) if found else "")


def values(text):
    records, found = read(text)
    assert len(records) <= 1 and not found, text
    n, said = (1, content(records[0][0])) if records else (0, b"")
    number = str(int(said)) if NUMBER.fullmatch(said) else fault((11, n, n))
    limit = "none" if said == b"" else number
    letter = str(said[0]) if len(said) == 1 else fault((13, n, n))
    return " ".join([number, limit, letter, str(said == b"REQ").lower(), str(said == b'"').lower()])


def compare_with_csv(text):
    """Python's reader agrees on every text that is read whole, but for empty lines, which it skips."""
    records, found = read(text)
    if found or b"\0" in text:
        return
    theirs = list(csv.reader(io.StringIO(text.decode("latin-1"), newline=""), strict=True, lineterminator="\r\n"))
    ours = [[content(f).decode("latin-1") for f in r] for r in records]
    drop = lambda rs: [r for r in rs if r not in ([], [""])]
    assert drop(theirs) == drop(ours), (text, theirs, ours)


cases = []
# every text of at most five of the bytes that matter
for n in range(6):
    cases += [("t", bytes(p)) for p in itertools.product(b'a,"\r\n', repeat=n)]
# every byte in every state of the machine, at the end, before a LF and before a field
for before in (b"", b"a", b'"a', b'"a"'):
    for b in range(256):
        for after in (b"", b"\n", b",x"):
            cases.append(("t", before + bytes([b]) + after))
# RFC 4180's own examples, and more fields than the list has places
cases += [("t", t) for t in (
    b"aaa,bbb,ccc\r\nzzz,yyy,xxx\r\n", b"aaa,bbb,ccc\r\nzzz,yyy,xxx", b"field_name,field_name,field_name\r\naaa,bbb,ccc\r\n",
    b'"aaa","bbb","ccc"\r\nzzz,yyy,xxx', b'"aaa","b\r\nbb","ccc"\r\nzzz,yyy,xxx', b'"aaa","b""bb","ccc"',
    b"1,2,3,4,5\r\n,,,\r\n\r\n6\r\n")]
# texts of commas about the greatest length
cases += [("n", n.to_bytes(3, "big")) for n in (0, 1, 255, 256, 65534, 65535, 65536, 65537, 65538, 131072)]
# numbers, limits and letters: signs, zeros, lengths, quotes, and every byte alone, bare and quoted
said = [b"", b"-", b"--1", b"-0", b"0", b"00", b"-00", b"007", b"-007", b"+1", b"1+", b"1-", b" 1", b"1 ", b"1.0", b"1e3", b"0x1", b"1_0",
        b"9999999999", b"-9999999999", b"0000000000", b"00000000000", b"12345678901", b"-12345678901", b"-1234567890",
        b"REQ", b"RE", b"REQS", b"req", b"ITEM", b"N", b"NN", b'""', b'7""', b'RE""Q']
cases += [("v", b'"' + s + b'"') for s in said]
cases += [("v", s) for s in said if b'"' not in s]
for b in range(256):
    if bytes([b]) not in (b'"', b",", b"\r", b"\n"):
        cases.append(("v", bytes([b])))
    if bytes([b]) != b'"':
        cases.append(("v", b'"' + bytes([b]) + b'"'))

for kind, text in cases:
    if kind == "t":
        compare_with_csv(text)
with open("stdin", "w") as cin, open("stdout", "w") as cout:
    for kind, text in cases:
        print(kind + text.hex(), file=cin)
        print({"t": show, "v": values, "n": lambda n: show(b"," * int.from_bytes(n, "big"))}[kind](text), file=cout)
