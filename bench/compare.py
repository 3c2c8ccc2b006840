#!/usr/bin/env python3
"""Compare the program conform_records, which ./conform runs, with the plain Rust program in bench/rust.

    python3 bench/compare.py [COUNT [SEED]]    COUNT inputs (5000), random from SEED (1)
    python3 bench/compare.py --benchmark       instructions and times on large inputs

The first form runs both programs on every input and compares what they write
and their exit status. It ends at the first difference and leaves the input in
bench/out/difference.txt. Run from the root of the repository.
"""

import collections
import os
import random
import re
import shutil
import statistics
import subprocess
import sys
import tempfile
import time

ROOT = os.path.dirname(os.path.dirname(os.path.abspath(__file__)))
ENGINE = os.path.join(ROOT, "crates", "conform_records", "out", "conform_records")
RUST = os.path.join(ROOT, "bench", "rust", "target", "release", "conform-plain")
KEPT = os.path.join(ROOT, "bench", "out")
MAX_TEXT = 65536
REFUSALS = [1, 2, 3, 10, 11, 12, 13, 20, 21, 22, 23, 24, 30, 31, 32, 40, 41]


def prepare():
    if not os.path.exists(ENGINE):
        sys.exit("crates/conform_records/out/conform_records is not there: run `./conform </dev/null` first")
    built = subprocess.run(
        ["cargo", "build", "--release", "--offline", "--quiet"],
        cwd=os.path.join(ROOT, "bench", "rust"),
    )
    if built.returncode != 0:
        sys.exit("the Rust program was not built")


def run(program, text):
    """Exit status and output. A program that takes more than 20 seconds ends the comparison."""
    try:
        done = subprocess.run([program], input=text, stdout=subprocess.PIPE, stderr=subprocess.PIPE, timeout=20)
    except subprocess.TimeoutExpired:
        sys.exit(f"{program} did not end on: {kept('endless.txt', text)}")
    return done.returncode, done.stdout


def kept(name, content):
    """Writes content to a file of bench/out, and answers its path."""
    os.makedirs(KEPT, exist_ok=True)
    path = os.path.join(KEPT, name)
    with open(path, "wb") as opened:
        opened.write(content)
    return path


# ---- Inputs ----

EDGES = [0, 1, 2, 3, 4, 5, 8, 9, 10, 19, 20, 21, 199, 200, 201, 34, 35, 36, 99999, 100000, 100001,
         399999, 400000, 400001, 499999, 500000, 500001, 999999, 1000000, 1000001, 999999998,
         999999999, 1000000000, 2147483647, 2147483648, 4294967295, 4294967296, 4294967297,
         9999999999]
NO_NUMBERS = [b"", b"-", b"--1", b"+1", b" 1", b"1 ", b"1.0", b"1e3", b"0x1", b"1-", b"-+1", b"x",
              b"10000000000", b"-10000000000", b"00000000001", b"-00000000000",
              b"18446744073709551617", b"-9223372036854775808", b"9" * 300, b"0" * 300,
              b"\x00", b"1\x00", b"\x001", b"\xff", b"\xb2", b"\xd9\xa1", b"1,", b'1"', b'"',
              b"1\r\n", b"\r", b"\n", b"\xef\xbb\xbf1", b"/", b":", b"1:", b"1/"]
LETTERS = [b"", b"S", b"G", b"M", b"P", b"N", b"R", b"s", b"n", b"NR", b"SS", b" S", b"S ", b'"',
           b",", b"\x00", b"\xff", b"\r\n", b"T", b"O", b"Q", b"F", b"H", b"L"]
WORDS = [b"REQ", b"ITEM", b"req", b"item", b"Req", b"", b"RE", b"REQQ", b"ITE", b"ITEMS", b" REQ",
         b"ITEM ", b'REQ"', b"\xef\xbb\xbfREQ", b"FOO", b"REQ\x00", b"\x00"]


class Maker:
    """Random texts."""

    def __init__(self, seed):
        self.random = random.Random(seed)

    def chance(self, part):
        return self.random.random() < part

    def size(self, most):
        """A number from 0 to most, small ones as often as great ones."""
        return self.random.randint(0, max(0, min(most, 10 ** self.random.randint(0, len(str(most))))))

    def signed(self, most):
        return self.size(most) * self.random.choice((-1, 1))

    # Fields and records

    def digits(self, value, zeros=0.05):
        text = b"%d" % abs(value)
        if self.chance(zeros):
            text = text.rjust(self.random.randint(1, 10), b"0")
        return (b"-" if value < 0 or (value == 0 and self.chance(zeros)) else b"") + text

    def field(self, content, quotes=0.08):
        if self.chance(quotes) or any(byte in b',"\r\n' for byte in content):
            return b'"' + content.replace(b'"', b'""') + b'"'
        return content

    def record(self, contents, quotes=0.08):
        return b",".join(
            self.field(self.digits(c) if isinstance(c, int) else c, quotes) for c in contents)

    def text(self, records, last=0.8):
        text = b"\r\n".join(records)
        return text + b"\r\n" if records and (self.chance(last) or not records[-1]) else text

    # What a requirement and an item may have

    def requirement(self, class_=None, characteristic=None, rule=None):
        """A requirement that no check on the record refuses."""
        pick = self.random
        rule = rule or pick.choice("SGMPP")
        mode = 2 if rule == "P" else pick.choice((2, 4))
        lower = self.signed(1000000)
        upper = min(1000000, lower + 1 + self.size(1000000))
        if lower == 1000000:
            lower = 999999
        side = pick.random()
        if side < 0.25:
            lower = b""
        elif side < 0.5:
            upper = b""
        first = second = 0
        if rule == "G":
            first = self.size(100000) if mode == 4 else self.signed(100000)
        elif rule == "M":
            first = pick.randint(0, 200) if mode == 4 else pick.randint(-200, 200)
        elif rule == "P":
            first = 0 if lower == b"" else self.share()
            second = 0 if upper == b"" else self.share()
        return [b"REQ", class_ or pick.randint(1, 9), characteristic or pick.randint(1, 20),
                lower, upper, rule.encode(), first, second, mode]

    def share(self):
        return self.random.choice(
            (0, 34, 35, 36, 25000, 50000, 499999, 500000, self.size(500000), self.size(500000)))

    def item(self, number, requirement):
        """An item for a requirement, its reading near a place where something changes."""
        pick = self.random
        kind = pick.choice("NR")
        spread = max(1, self.size(100000 if kind == "N" else 400000))
        bias = pick.choice((0, self.signed(100000), self.signed(100000)))
        _, class_, characteristic, lower, upper, rule, first, second, _ = requirement
        limits = [limit for limit in (lower, upper) if limit != b""]
        limit = pick.choice(limits)
        side = 1 if limit is lower else -1
        width = 2 * spread if kind == "N" else 1.1547005383792515 * spread
        way = pick.random()
        if way < 0.15:
            reading = self.signed(1000000)
        elif rule == b"P" and way < 0.8:
            share = max(1, first if limit is lower else second) / 1000000
            if kind == "N":
                deep = -statistics.NormalDist(0, spread).inv_cdf(min(share, 0.5))
            else:
                deep = spread - 2 * spread * share
            reading = limit + side * round(deep) + bias
        elif rule == b"M" and way < 0.8:
            reading = limit + pick.choice((-1, 1)) * round(first * width / 100)
        elif rule == b"G" and way < 0.8:
            reading = limit + pick.choice((-1, 1)) * first
        else:
            reading = limit + round(pick.uniform(-4.5, 4.5) * spread)
        reading += pick.choice((0, 0, 1, -1, 2, -2, 3, -3))
        reading = max(-1000000, min(1000000, reading))
        return [b"ITEM", number, class_, characteristic, reading, kind.encode(), spread, bias]

    # Texts

    def valid(self):
        requirements, records = {}, []
        for _ in range(self.random.randint(1, 6)):
            requirement = self.requirement()
            if (requirement[1], requirement[2]) not in requirements:
                requirements[requirement[1], requirement[2]] = requirement
                records.append(requirement)
        known = list(requirements.values())
        for number in self.random.sample(range(1, 1000000000), self.random.randint(1, 30)):
            records.append(self.item(number, self.random.choice(known)))
        return self.text([self.record(record) for record in records])

    def bad_field(self, contents, at):
        pick = self.random
        if at == 0:
            return pick.choice(WORDS)
        if at == 5:
            return pick.choice(LETTERS)
        way = pick.random()
        if way < 0.35:
            return pick.choice(NO_NUMBERS)
        return pick.choice((-1, 1)) * pick.choice(EDGES)

    def refused(self):
        """Records with faults among records without."""
        pick = self.random
        records, known = [], []
        for _ in range(pick.randint(2, 25)):
            if not known or self.chance(0.3):
                contents = self.requirement(pick.randint(1, 2), pick.randint(1, 4))
                known.append(list(contents))
            else:
                contents = self.item(pick.randint(1, 12), pick.choice(known))
            way = pick.random()
            if way < 0.35:
                for _ in range(pick.choice((1, 1, 1, 2, 3))):
                    at = pick.randrange(1, len(contents))
                    contents[at] = self.bad_field(contents, at)
            elif way < 0.4:
                contents[0] = self.bad_field(contents, 0)
            elif way < 0.45:
                contents = contents[:pick.randint(0, len(contents) - 1)] or [b""]
            elif way < 0.5:
                contents = contents + [b""] * pick.randint(1, 4)
            elif way < 0.52:
                contents = [b""]
            elif way < 0.6 and contents[0] == b"REQ":
                contents[3] = contents[4] = pick.choice((b"", 0, 5, -1000000))
            elif way < 0.7 and contents[0] == b"ITEM":
                contents[2 + pick.randrange(2)] = pick.randint(1, 9)
            records.append(self.record(contents, 0.15))
        return self.text(records)

    def damaged(self):
        text = bytearray(self.valid() if self.chance(0.5) else self.refused())
        pick = self.random
        for _ in range(pick.choice((1, 1, 1, 2, 3, 8))):
            at = pick.randrange(len(text) + 1)
            byte = pick.choice((pick.randrange(256), pick.choice(b'",\r\n\x00\xff-0123456789 RN"\r\n')))
            way = pick.randrange(6)
            if way == 0 and at < len(text):
                text[at] = byte
            elif way == 1:
                del text[at:at + pick.choice((1, 1, 1, 2, 5, 50))]
            elif way == 2:
                text.insert(at, byte)
            elif way == 3:
                text[at:at] = text[max(0, at - pick.randint(1, 40)):at]
            elif way == 4 and at < len(text):
                text[at] ^= 1 << pick.randrange(8)
            elif self.chance(0.3):
                del text[at:]
        return bytes(text)

    def hostile(self):
        """Few tokens, most of them bytes that the format gives a meaning."""
        pick = self.random
        tokens = [b'"', b'"', b'""', b",", b",", b"\r\n", b"\r\n", b"\r", b"\n", b"a", b"\x00", b"\xff", b"1", b"-",
                  b"REQ", b"ITEM", b"REQ,1,1,,1000,P,0,50000,2\r\n", b"ITEM,7,1,1,910,R,100,0",
                  b"ITEM,8,1,1,910,N,100,0\r\n", b'"ITEM"', b"ITEM,9,1,1,", b",R,100,0\r\n", b"\n\r", b"\r\r\n"]
        start = b"REQ,1,1,,1000,S,0,0,4\r\n" if self.chance(0.3) else b""
        return start + b"".join(pick.choice(tokens) for _ in range(pick.randint(0, 14)))

    def quoted(self):
        """Valid records, with quotes, line ends and odd bytes at the edges of the fields."""
        pick = self.random
        edge = [b'"', b"\r\n", b"\r", b"\n", b",", b" ", b"\x00", b"\xff", b'""']
        records = []
        for _ in range(pick.randint(1, 6)):
            requirement = self.requirement(1, 1)
            contents = requirement if self.chance(0.4) else self.item(pick.randint(1, 9), requirement)
            fields = [self.digits(c) if isinstance(c, int) else c for c in contents]
            for _ in range(pick.choice((0, 1, 1, 2))):
                at = pick.randrange(len(fields))
                extra = pick.choice(edge)
                fields[at] = pick.choice((extra + fields[at], fields[at] + extra, extra))
            records.append(b",".join(self.field(field, 0.7) for field in fields))
        text = self.text(records)
        if self.chance(0.25):
            at = pick.randrange(len(text))
            text = text[:at] + pick.choice(edge) + text[at + pick.randrange(2):]
        return text

    def edges(self):
        """One field after the other at the edges of its range."""
        pick = self.random
        rule = pick.choice("SGMP")
        requirement = self.requirement(1, 1, rule)
        records = [self.record(requirement)]
        for number in range(1, pick.randint(4, 16)):
            base = self.item(number, requirement) if self.chance(0.6) else self.requirement(pick.randint(1, 9), None)
            at = pick.randrange(1, len(base))
            if at != 5:
                value = pick.choice(EDGES) * pick.choice((1, 1, -1))
                base[at] = value
            records.append(self.record(base))
        return self.text(records)

    def shares(self):
        """Consecutive readings about the places where shares and guard bands end."""
        pick = self.random
        rule = pick.choice("PPPM")
        requirement = self.requirement(1, 1, rule)
        records = [self.record(requirement)]
        number = 0
        for _ in range(pick.randint(1, 4)):
            base = self.item(1, requirement)
            for step in range(-4, 5):
                number += 1
                item = list(base)
                item[1] = number
                item[4] = max(-1000000, min(1000000, base[4] + step))
                records.append(self.record(item))
        return self.text(records)

    RANDOM = ["valid", "refused", "damaged", "hostile", "quoted", "edges", "shares"]
    SHARES = [18, 18, 22, 16, 10, 8, 8]

    def any(self):
        kind = self.random.choices(self.RANDOM, self.SHARES)[0]
        return kind, getattr(self, kind)()


def fixed():
    """Inputs that are the same in each run: kind and text."""
    page = os.path.join(ROOT, "docs", "program.md")
    if os.path.exists(page):
        with open(page, encoding="utf-8") as opened:
            content = opened.read()
        for block in re.findall(r"^```\n(.*?)^```$", content, re.S | re.M):
            yield "example", block.replace("\n", "\r\n").encode()
        first = ["REQ,1,1,,1000,P,0,50000,2", "REQ,2,3,4950,5030,M,100,0,4", "REQ,2,4,-20,,G,-5,0,2",
                 "REQ,3,1,0,,S,0,0,2", "REQ,9,20,0,150,P,25000,34,2", "ITEM,007,1,1,835,N,100,0"]
        for record in re.findall(r"`((?:REQ|ITEM),[^`]*)`", content):
            yield "example", "\r\n".join(first + [record, ""]).encode()

    # Every text of at most three of the bytes that have a meaning, alone and after a record.
    texts = [b""]
    for _ in range(3):
        texts += [text + bytes([byte]) for text in texts if len(text) == len(texts[-1]) for byte in b'a,"\r\n']
    for text in dict.fromkeys(texts):
        yield "short", text
    for text in list(dict.fromkeys(texts))[:31]:
        yield "short", b"REQ,1,1,,9,S,0,0,2\r\nITEM,1,1,1,0,R,1," + text
    for byte in range(256):
        if byte not in b'a,"\r\n':
            yield "byte", bytes([byte]) + b',"' + bytes([byte]) + b'"\r\nREQ,1,1,,9,' + bytes([byte]) + b",0,0,2"

    # Each field at the edges of every range, and with what is no number, letter or word.
    maker = Maker(5)
    for base in ([b"REQ", 1, 1, -1000, 1000, b"P", 0, 0, 2], [b"REQ", 1, 2, b"", 1000, b"G", 5, 0, 4],
                 [b"ITEM", 1, 1, 1, 0, b"R", 100, 0], [b"ITEM", 2, 1, 1, 0, b"N", 100, 0]):
        for at in range(len(base)):
            records = [b"REQ,1,1,-900000,1000000,P,0,500000,2"]
            for value in [sign * edge for edge in EDGES for sign in (1, -1)] + NO_NUMBERS + LETTERS + WORDS:
                changed = list(base)
                changed[at] = value
                if at != 1 and base[0] == b"ITEM":
                    changed[1] = len(records) + 1
                records.append(maker.record(changed, 0))
            yield "fields", b"\r\n".join(records)

    # Lengths about the greatest one.
    record = b"ITEM,1,1,1,0,R,1,0\r\n"
    start = b"REQ,1,1,,9,S,0,0,2\r\n" + record
    for length in (65534, 65535, 65536, 65537, 65538, 131072, 200000):
        for unit in (b"a", b",", b"\r\n", b'"', b'""', b'""\r\n', b",\r\n", b"\x00", b"\xff", b"\r", b"\n", record):
            yield "length", (unit * (length // len(unit) + 1))[:length]
        for end in (b"", b"\r\n", b"\r", b"\n", b'"', b",", b'"\r\n'):
            for begin in (b"x", b'"x'):
                yield "length", (start + begin).ljust(length - len(end), b"y") + end

    # A full sheet and a full lot.
    pairs = [(c, k) for c in range(1, 10) for k in range(1, 21)]
    for turn in range(6):
        order = list(pairs)
        if turn:
            maker.random.shuffle(order)
        rows = [maker.requirement(c, k, None if turn else "S") for c, k in order]
        records = [maker.record(row) for row in rows]
        if turn > 1:
            records[50:50] = [maker.record(maker.requirement(*order[3])), b"", b"REQ,1,1,,,S,0,0,2"]
            records += [maker.record(row) for row in rows[:5]] + [b"REQ,1,1,,,S,0,0,2"]
        for number in range(1, 300):
            records.append(maker.record(maker.item(number, maker.random.choice(rows))))
        yield "full sheet", maker.text(records)
    for count in (999, 1000, 1001, 1002):
        records = [b"REQ,1,1,,1000,P,0,50000,2", b"REQ,2,1,0,,S,0,0,4"]
        for number in range(1, count + 1):
            records.append(b"ITEM,%d,%d,1,%d,R,100,0" % (number * 7919 % 1000003, 1 + number % 2, number))
        records += [b"ITEM,7919,1,1,0,R,1,0", b"ITEM,999999999,9,9,0,R,1,0", b"ITEM,999999998,1,1,0,R,1,0", b"",
                    b"ITEM,7919,9,9,0,R,1,0", b"ITEM,1,1,1,0,R,0,0", b"REQ,3,1,,5,S,0,0,2", b"ITEM,5,3,1,0,N,1,0"]
        yield "full lot", b"\r\n".join(records)
    for turn in range(4):
        rows = [maker.requirement(c, 1) for c in range(1, 10)]
        records = [maker.record(row) for row in rows]
        numbers = maker.random.sample(range(1, 2000), 1150)
        for number in numbers:
            records.append(maker.record(maker.item(number, maker.random.choice(rows)), 0))
        yield "full lot", maker.text(records)[:MAX_TEXT]

    # Rules, modes, kinds and biases, each with each, over the boundaries of the numbers.
    for rule in "SGMP":
        for mode in (2, 4):
            for first in (-200001, -100001, -100000, -201, -200, -1, 0, 1, 200, 201, 100000, 100001, 500000, 500001):
                places = iter(pairs)
                records, number = [], 0
                for second in (-1, 0, 1, 34, 35, 500000, 500001):
                    for limits in ((b"", 1000), (-1000, b""), (-1000, 1000), (-1000000, 1000000)):
                        row = [b"REQ", *next(places), *limits, rule.encode(), first, second, mode]
                        records.append(maker.record(row, 0))
                        for kind in (b"N,1", b"N,100", b"N,100000", b"R,1", b"R,3", b"R,400000"):
                            for bias in (-100000, -1, 0, 7, 100000):
                                number += 1
                                reading = maker.random.choice((-1000, 1000, -1, 0)) + maker.signed(1300)
                                records.append(b"ITEM,%d,%d,%d,%d,%s,%d" % (number, *row[1:3], reading, kind, bias))
                yield "rules", b"\r\n".join(records)


def told(output):
    """Refusal numbers and verdicts of an output."""
    for line in output.split(b"\r\n"):
        parts = line.split(b",")
        if len(parts) == 5 and parts[0] in (b"refused", b"item"):
            yield parts[2].decode()


def compare(count, seed):
    prepare()
    maker = Maker(seed)
    agreed, reached, seen = collections.Counter(), collections.Counter(), 0
    source = fixed()
    began = time.time()
    while seen < count:
        kind, text = next(source, None) or maker.any()
        ours, plain = run(ENGINE, text), run(RUST, text)
        seen += 1
        if ours != plain:
            kept("difference.txt", text)
            kept("difference.conform", ours[1])
            kept("difference.plain", plain[1])
            print(f"input {seen} ({kind}, {len(text)} bytes): the programs differ")
            print(f"exit status: conform {ours[0]}, plain program {plain[0]}")
            for one, other in zip(ours[1].split(b"\r\n"), plain[1].split(b"\r\n")):
                if one != other:
                    print(f"first line that differs: conform {one!r}, plain program {other!r}")
                    break
            else:
                print(f"bytes written: conform {len(ours[1])}, plain program {len(plain[1])}")
            print("input: bench/out/difference.txt; outputs beside it")
            sys.exit(1)
        agreed[kind] += 1
        reached["exit %d" % ours[0]] += 1
        for outcome in told(ours[1]):
            reached[outcome] += 1
    print(f"{seen} inputs, seed {seed}, {time.time() - began:.0f} s: no difference")
    for kind, times in agreed.items():
        print(f"  {kind:12}{times:7} agreed")
    print("refusals reached, with the number of lines:")
    print("  " + ", ".join(f"{n}: {reached[str(n)]}" for n in REFUSALS))
    missing = [str(n) for n in REFUSALS if not reached[str(n)]]
    print("  not reached: " + (", ".join(missing) or "none"))
    print("verdicts: " + ", ".join(f"{v}: {reached[v]}" for v in ("pass", "cpass", "cfail", "fail")))
    print("exit status: " + ", ".join(f"{name[5:]}: {n}" for name, n in reached.items() if name.startswith("exit")))


# ---- Benchmark ----

def filled(records):
    """As many of the records as fit in the greatest text."""
    text = bytearray()
    for record in records:
        if len(text) + len(record) + 2 > MAX_TEXT:
            break
        text += record + b"\r\n"
    return bytes(text)


def large():
    """The inputs of the benchmark: name and text."""
    yield "empty text", b""

    def items(kind, spread, first, count=4000, pad=0):
        return [padded(b"ITEM,%d,1,1,%d,%s,%d,%d" % (n, first + n, kind, spread + n % 50, n % 7 - 3), pad)
                for n in range(1, count + 1)]

    def padded(content, length):
        """The same record with zeros before its numbers, up to a length."""
        fields = content.split(b",")
        for at in (1, 2, 3, 6, 4, 7):
            more = min(length - len(b",".join(fields)), 10 - len(fields[at].lstrip(b"-")))
            if more > 0:
                sign = fields[at][:1] if fields[at][:1] == b"-" else b""
                fields[at] = sign + b"0" * more + fields[at].lstrip(b"-")
        return b",".join(fields)

    wide = b"REQ,1,1,-5000,5000,P,25000,25000,2"
    narrow = b"REQ,1,1,-5,5,P,25000,25000,2"
    for kind, spread in ((b"R", 100), (b"N", 60)):
        letter = kind.decode()
        yield f"shares, {letter}: 1,000 items in long records", \
            filled([wide, *items(kind, spread, -500, 1000, 63)])
        yield f"shares, {letter}: 1,000 items, the others refused (41)", \
            filled([wide, *items(kind, spread, -500)])
        yield f"shares, {letter}: every item searched and refused (32)", \
            filled([narrow, *items(kind, spread, 0)])

    simple = b"REQ,1,1,-5000,5000,S,0,0,2"
    yield "simple, R: 1,000 items, numbers descending", \
        filled([simple, *(b"ITEM,%d,1,1,%d,R,100,0" % (999999999 - n, n) for n in range(1000))])

    maker = Maker(3)
    rows = [maker.requirement(c, k) for c in range(1, 10) for k in range(1, 12)]
    mixed = [maker.record(row, 0.02) for row in rows]
    for number in range(1, 4000):
        mixed.append(maker.record(maker.item(number, maker.random.choice(rows)), 0.02))
    yield "all classes, rules and kinds", filled(mixed)
    yield "32,768 empty lines, each refused (10)", b"\r\n" * (MAX_TEXT // 2)
    yield "one quoted field of 65,536 bytes", b'"' + b"x" * (MAX_TEXT - 2) + b'"'


def instructions(program, text_file, folder):
    out = os.path.join(folder, "callgrind.out")
    with open(text_file, "rb") as stdin:
        subprocess.run(
            ["valgrind", "--tool=callgrind", f"--callgrind-out-file={out}", program],
            stdin=stdin, stdout=subprocess.DEVNULL, stderr=subprocess.DEVNULL, check=True)
    with open(out) as opened:
        return int(re.search(r"^(?:summary|totals): (\d+)", opened.read(), re.M).group(1))


def timed(program, text_file, out_file):
    with open(text_file, "rb") as stdin, open(out_file, "wb") as stdout:
        began = time.perf_counter()
        child = os.posix_spawn(
            program, [program], os.environ,
            file_actions=[(os.POSIX_SPAWN_DUP2, stdin.fileno(), 0), (os.POSIX_SPAWN_DUP2, stdout.fileno(), 1)])
        os.waitpid(child, 0)
        return time.perf_counter() - began


def benchmark(times=50):
    prepare()
    if not shutil.which("valgrind"):
        sys.exit("valgrind is not there")
    print("| Input | Bytes | Instructions, `conform` | Plain Rust | Ratio | Median time, `conform` | Plain Rust | Ratio |")
    print("|---|---|---|---|---|---|---|---|")
    with tempfile.TemporaryDirectory() as folder:
        text_file, out_file = os.path.join(folder, "text"), os.path.join(folder, "output")
        for name, text in large():
            if run(ENGINE, text) != run(RUST, text):
                sys.exit(f"the programs differ on: {name}")
            with open(text_file, "wb") as opened:
                opened.write(text)
            counts = [instructions(program, text_file, folder) for program in (ENGINE, RUST)]
            spans = ([], [])
            for _ in range(times):
                for program, list_ in zip((ENGINE, RUST), spans):
                    list_.append(timed(program, text_file, out_file))
            ours, plain = (statistics.median(list_) * 1000 for list_ in spans)
            print(f"| {name} | {len(text):,} | {counts[0]:,} | {counts[1]:,} | {counts[0] / counts[1]:.2f} "
                  f"| {ours:.2f} ms | {plain:.2f} ms | {ours / plain:.2f} |", flush=True)


def main():
    arguments = sys.argv[1:]
    if arguments == ["--benchmark"]:
        benchmark()
    elif len(arguments) <= 2 and all(argument.isdigit() for argument in arguments):
        count, seed = (list(map(int, arguments)) + [5000, 1][len(arguments):])
        compare(count, seed)
    else:
        sys.exit(__doc__)


if __name__ == "__main__":
    main()
