#!/usr/bin/env python3
"""Writes the cases of this crate, `stdin`, and the outputs that they must get, `stdout`.

The outputs are those of `model.py`, which was written from the rules alone; where the rules page gives an output, the model
is held to it here first. Run it in this folder.
"""
import random
import model

HEADER = "line,key,outcome,floor,ceiling"
cases = []          # text, and how many commas come after it


def text(records):
    return "".join(r + "\r\n" for r in records).encode("latin-1")


def case(said, commas=0):
    cases.append((said if isinstance(said, bytes) else text(said), commas))


def given(records, lines):
    """A case whose output the rules page gives."""
    assert model.conform(text(records)) == text([HEADER] + lines), (records, model.conform(text(records)))
    case(records)


# ---- the examples of the rules page ----------------------------------------------------------------------------------

FIRST = ["REQ,1,1,,1000,P,0,50000,2", "ITEM,7,1,1,910,R,100,0", "ITEM,8,1,1,911,R,100,0", "ITEM,7,1,1,900,R,100,0"]
SIX = ["REQ,1,1,,1000,P,0,50000,2", "REQ,2,3,4950,5030,M,100,0,4", "REQ,2,4,-20,,G,-5,0,2", "REQ,3,1,0,,S,0,0,2",
       "REQ,9,20,0,150,P,25000,34,2", "ITEM,007,1,1,835,N,100,0"]
SECOND = SIX + ["ITEM,12,2,3,5018,N,5,-2", "ITEM,13,2,3,5019,R,10,0", 'ITEM,14,2,3,5035,"R",10,0', "ITEM,15,2,3,5043,R,10,0",
                "ITEM,16,2,4,-25,R,10,3", "ITEM,17,3,1,-1,R,3,0", "", "ITEM,18,9,20,60,R,100,0", "ITEM,19,3,1,x,Q,3,0",
                'ITEM,20,3,1,"1"0,R,3,0', "ITEM,21,3,1,0,R,3,0"]
given(FIRST, ["item,7,pass,950000,950000", "item,8,fail,945000,945000", "refused,4,40,5,2", "class,1,1,50000,50000"])
given(SECOND, ["item,7,pass,950310,950623", "item,12,pass,977210,977558", "item,13,cpass,1000000,1000000", "item,14,cfail,250000,250000",
               "item,15,fail,0,0", "item,16,pass,100000,100000", "item,17,fail,333333,333334", "refused,13,10,2,0", "refused,14,32,4,0",
               "refused,15,11,2,5", "refused,16,2,1,5", "class,1,1,49377,49690", "class,2,2,922442,922790", "class,3,0,0,0"])
# after the six, each refusal with its number and its field; then records with several faults
REFUSED = [
    ('ITEM,8,1,1,"910,R,100,0', 2, 5), ('ITEM,8,1,1,9"10,R,100,0', 3, 5), ("ITEM,8,1,1,910,R,100", 10, 0), ("ITEM,8,1,1,+910,R,100,0", 11, 5),
    ("ITEM,8,1,1,910,N,100001,0", 12, 7), ("ITEM,8,1,1,910,n,100,0", 13, 6), ("REQ,1,4,,,S,0,0,2", 20, 0), ("REQ,1,4,0,0,S,0,0,2", 21, 0),
    ("REQ,1,4,,1000,P,1,0,2", 22, 0), ("REQ,1,1,,900,S,0,0,2", 23, 2), ("ITEM,8,1,4,910,R,100,0", 30, 3), ("ITEM,8,9,20,75,N,100,0", 31, 0),
    ("ITEM,8,9,20,75,R,100,0", 32, 0), ("ITEM,7,1,1,900,R,100,0", 40, 2),
    ("REQ,0,x,,1000,S,0,0,2", 12, 2), ("REQ,1,1,,,X,0,0,3", 13, 6), ("REQ,1,1,,,S,5,0,2", 20, 0), ("REQ,1,1,,1000,S,5,0,2", 22, 0),
    ("ITEM,7,9,9,910,X,0,-100001", 13, 6), ("ITEM,7,9,9,910,R,100,0", 40, 2), ('ITEM,7,0,"1"x', 2, 4), ('FOO,"x', 2, 2),
]
for line, number, field in REFUSED:
    given(SIX + [line], ["item,7,pass,950310,950623", "refused,7,%d,%d,%d" % (number, number // 10 + 1, field), "class,1,1,49377,49690"])
FULL_SHEET = ["REQ,%d,%d,,1000,S,0,0,2" % (c, h) for c in range(1, 6) for h in range(1, 21)]
given(FULL_SHEET + ["REQ,6,1,,1000,S,0,0,2"], ["refused,101,24,3,0"])
# a key that stands is told before the full sheet, a rule that does not suit before both; the last requirement serves
given(FULL_SHEET + ["REQ,5,20,,1000,S,0,0,2", "REQ,9,20,,1000,S,1,0,2", "REQ,9,20,,1000,S,0,0,2", "ITEM,1,5,20,0,R,1,0", "ITEM,2,9,20,0,R,1,0"],
      ["refused,101,23,3,2", "refused,102,22,3,0", "refused,103,24,3,0", "item,1,pass,1000000,1000000", "refused,105,30,4,3", "class,5,1,0,0"])
# a full lot: one more is refused before a missing requirement is, a number that stands before both
FULL_LOT = ["REQ,1,1,,0,S,0,0,2"] + ["ITEM,%d,1,1,0,R,1,0" % n for n in range(1, 1001)]
given(FULL_LOT + ["ITEM,1001,1,1,0,R,1,0", "ITEM,1002,2,1,0,R,1,0", "ITEM,1000,2,1,0,R,1,0", "ITEM,1003,1,1,x,R,1,0", "REQ,2,1,,0,S,0,0,2", "ITEM,1001,2,1,0,R,1,0"],
      ["item,%d,pass,500000,500000" % n for n in range(1, 1001)]
      + ["refused,1002,41,5,0", "refused,1003,41,5,0", "refused,1004,40,5,2", "refused,1005,11,2,5", "refused,1007,41,5,0", "class,1,1000,500000000,500000000"])

# ---- the length of a text --------------------------------------------------------------------------------------------

for length in (65_535, 65_536, 65_537, 65_538, 131_072):
    for start in (b"", text(FIRST)):
        case(start, length - len(start))
# a quoted field that runs to the end of the longest text and is never closed, and commas in a record that breaks before them
for start in (text(FIRST) + b'"', text(FIRST) + b'ITEM,"1"x', text(FIRST) + b"ITEM,1\n"):
    for length in (65_536, 65_537):
        case(start, length - len(start))
case(b"")

# ---- how records and texts end ---------------------------------------------------------------------------------------

WHOLE = text(FIRST)
for damaged in (WHOLE[:-2], WHOLE[:-1], WHOLE + b"\r\n", WHOLE + b"\r", WHOLE + b"\n", WHOLE + b'"', WHOLE + b'""', WHOLE + b",", b"\r\n" + WHOLE,
                b"\r\n\r\n\r\n", b"\r", b"\n", b'"', b'""', b'""\r\n', b",\r\n", b"\0", b"\xff\r\n", b"\xef\xbb\xbf" + WHOLE, WHOLE.replace(b"\r\n", b"\n"),
                WHOLE.replace(b"\r\n", b"\r"), WHOLE.replace(b"ITEM", b'"ITEM"'), WHOLE.replace(b"REQ", b"req"), WHOLE.replace(b",", b";")):
    case(damaged)
# the text breaks in the middle: nothing after it is read, and the class lines follow
MIDDLE = SECOND[:12] + ["ITEM,30,3,1,-1,R,3,0"]
for broken in ('ITEM,31,3,1,"5"5,R,3,0', 'ITEM,31,3,1,5"5,R,3,0', "ITEM,31,3,1,5\n5,R,3,0", "ITEM,31,3,1,5\r5,R,3,0", 'x,y,z,a,b,c,d,e,f,g,h,i"'):
    case(MIDDLE + [broken, "ITEM,32,3,1,5,R,3,0", "ITEM,33,2,4,5,R,3,0"])
# every record refused goes on to the next one, which is taken
case([line for refused, number, _ in REFUSED if number > 3 for line in (refused, "ITEM,%d,1,1,0,R,1,0" % (100 + number))])
case(SIX + [line for n, (refused, number, _) in enumerate(REFUSED) if number > 3 for line in (refused, "ITEM,%d,1,1,%d,R,100,0" % (100 + n, 890 + n))])
# a requirement serves the items after it only; a refused item leaves its number free; a refused requirement its key
case(["ITEM,1,1,1,0,R,1,0", "REQ,1,1,5,5,S,0,0,2", "ITEM,1,1,1,0,R,1,0", "REQ,1,1,,5,S,0,0,2", "ITEM,1,1,1,0,R,1,0", "ITEM,1,1,1,0,R,1,0"])
# classes with items but no pass, by each other verdict, between classes that have some or none
case(["REQ,%d,2,0,100,G,10,0,%d" % (c, m) for c, m in ((9, 4), (8, 4), (7, 4), (6, 2), (5, 4), (3, 2), (2, 4), (1, 2))]
     + ["ITEM,1,9,2,105,R,10,0", "ITEM,2,7,2,95,R,10,0", "ITEM,3,5,2,200,R,10,0", "ITEM,4,3,2,95,R,10,0", "ITEM,5,2,2,90,R,10,0", "ITEM,6,2,2,-10,R,10,0",
        "ITEM,7,8,2,10,R,15,0", "ITEM,8,6,2,50,N,60,0"])
# too few and too many fields, the words of the other record
for line in ("REQ,1,1,,1000,S,0,0,2", "ITEM,1,1,1,0,R,1,0"):
    fields = line.split(",")
    other = "ITEM" if fields[0] == "REQ" else "REQ"
    case([",".join((fields + ["0"] * 40)[:n]) for n in list(range(1, 15)) + [40]] + [",".join([other] + fields[1:])] + [",".join(fields)])

# ---- rules, modes, kinds, limits and biases --------------------------------------------------------------------------

RULES = [("S", 0, 0, 2), ("S", 0, 0, 4), ("G", 25, 0, 2), ("G", -25, 0, 2), ("G", 25, 0, 4), ("M", 130, 0, 2), ("M", -75, 0, 2), ("M", 130, 0, 4),
         ("P", 40_000, 250_000, 2), ("P", 500_000, 35, 2)]
SIDES = [(-700, None, -7), (None, 900, 7), (-700, 900, 0), (-700, 900, 13)]


def close(req, kind, spread, bias):
    """Readings at each limit, acceptance limit and outer limit, and one step to both sides."""
    w, low, high = model.acceptance(req, model.expanded(kind, spread), (kind, spread, bias))
    tl, tu = req[2], req[3]
    edges = [tl, tu, low, high] + ([model.moved(tl, -w), model.moved(tu, w)] if req[7] == 4 else [])
    return sorted({e + d for e in edges if e is not None for d in (-1, 0, 1)})


for rule, first, second, mode in RULES:
    for kind, spread in (("N", 60), ("R", 100)):
        records, n = [], 0
        for c, (tl, tu, bias) in enumerate(SIDES, 1):
            one, two = (first if tl is not None or rule != "P" else 0), (second if tu is not None or rule != "P" else 0)
            show = lambda v: "" if v is None else str(v)
            records.append("REQ,%d,%d,%s,%s,%s,%d,%d,%d" % (c, c, show(tl), show(tu), rule, one, two, mode))
            for y in close((c, c, tl, tu, rule, one, two, mode), kind, spread, bias):
                n += 1
                records.append("ITEM,%d,%d,%d,%d,%s,%d,%d" % (n, c, c, y, kind, spread, bias))
        case(records)
# the ends of every range, in items that are judged
FAR = ["REQ,1,1,-1000000,1000000,S,0,0,2", "REQ,1,2,,1000000,M,200,0,4", "REQ,1,3,-1000000,,G,100000,0,4", "REQ,1,4,-1000000,,P,500000,0,2", "REQ,1,20,,1000000,P,0,0,2",
       "REQ,9,1,-1000000,,M,-200,0,2", "REQ,9,2,,-1000000,G,-100000,0,2", "REQ,9,3,999999,1000000,S,0,0,4", "REQ,9,4,,1000000,P,0,35,2"]
case(FAR + ["ITEM,%d,%s,%s,%d,%s,%d,%d" % (999_999_999 - 100 * n - k, *r.split(",")[1:3], y, kind, spread, bias)
            for n, r in enumerate(FAR)
            for k, (y, kind, spread, bias) in enumerate([(1_000_000, "N", 1, 100_000), (-1_000_000, "N", 100_000, -100_000), (1_000_000, "R", 400_000, 100_000),
                                                         (-1_000_000, "R", 1, -100_000), (999_999, "R", 3, 1), (0, "N", 100_000, 0)])])

# ---- texts drawn by lot ----------------------------------------------------------------------------------------------

draw = random.Random(20_250_101)
ODD = ["", '""', "-", "x", "0", "-0", "10", "21", "1000001", "-1000001", "12345678901", "0000000001", " 1", '"1"', '"1', '1"', "1\r", "1\n", '"a""b"', "2", "4"]


def a_requirement(keys):
    keys.append((draw.randint(1, 4), draw.randint(1, 3)))
    low, high = draw.choice([("", "500"), ("-300", ""), ("-300", "500"), ("100", "160"), ("", ""), ("7", "-7")] if draw.random() < .2 else [("", "500"), ("-300", ""), ("-300", "500")])
    rule, first, second, mode = draw.choice(RULES + [("G", 0, 0, 4), ("M", 100, 0, 4), ("P", 34, 34, 2)])
    if rule == "P" and draw.random() < .8:
        first, second = first if low else 0, second if high else 0
    if draw.random() < .1:
        mode = 6 - mode
    return ["REQ", *map(str, keys[-1]), low, high, rule, str(first), str(second), str(mode)]


def an_item(keys):
    c, h = draw.choice(keys) if draw.random() < .93 else (draw.randint(1, 9), draw.randint(1, 20))
    kind = draw.choice("NR")
    y = draw.choice([-300, 500, 100, 160]) + draw.randint(-60, 60)
    return ["ITEM", str(draw.randint(1, 40)), str(c), str(h), str(y), kind, str(draw.choice([1, 5, 10, 40])), str(draw.choice([0, 0, -9, 9, 100]))]


def drawn(damage):
    keys, records = [], []
    for n in range(draw.randint(4, 13)):
        fields = a_requirement(keys) if n == 0 or draw.random() < .25 else an_item(keys)
        if draw.random() < damage:
            k = draw.randrange(len(fields))
            fields[k:k + 1] = draw.choice([[], [draw.choice(ODD)], [draw.choice(ODD)], [draw.choice(ODD)], [fields[k], "0"]])
        if draw.random() < .1:
            k = draw.randrange(len(fields))
            fields[k] = '"%s"' % fields[k].replace('"', '""')
        records.append(",".join(fields))
    return bytearray(text(records))


def struck(said):
    """A text with some of its bytes lost, doubled or replaced."""
    for _ in range(draw.randint(1, 3)):
        k = draw.randrange(len(said))
        said[k:k + 1] = draw.choice([b"", said[k:k + 1] * 2, bytes([draw.choice(b'",\r\n09-SGMPNR\0\xff')])])
    return bytes(said)


for n in range(240):
    said = drawn(.12 if n % 3 else 0)
    case(struck(said) if n % 4 == 3 else bytes(said))

# ---- what the cases must reach, all together -------------------------------------------------------------------------

outputs = [model.conform(said + b"," * commas) for said, commas in cases]
lines = [line.split(b",") for output in outputs for line in output.split(b"\r\n")[:-1]]
assert {int(line[2]) for line in lines if line[0] == b"refused"} == {1, 2, 3, 10, 11, 12, 13, 20, 21, 22, 23, 24, 30, 31, 32, 40, 41}
assert {line[2] for line in lines if line[0] == b"item"} == {b"pass", b"cpass", b"cfail", b"fail"}
assert {int(line[1]) for line in lines if line[0] == b"class"} == set(range(1, 10))
with open("stdin", "w", newline="") as out:
    out.write("".join("%06x%s\n" % (commas, said.hex()) for said, commas in cases))
with open("stdout", "wb") as out:
    out.write(b"".join(outputs))
