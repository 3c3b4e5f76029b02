#!/usr/bin/env python3
"""The dearest sheets that a search finds, by instructions, counted by callgrind. See bench/README.md.

    bench/worst.py PROGRAM [SECONDS [SEED]]

PROGRAM is bench/worst.c with the archive. Each of five searches has so many seconds: it begins with the shapes below,
then changes the best one so far at random, and keeps a change that costs more. Writes Markdown.
"""
import os
import random
import re
import subprocess
import sys
import tempfile
import time

TOKENS, BYTES, LINES = 1360, 49152, 40
WORD = "abcdefghijklmnopqrstuvwxyz"


def name(i, long, front):
    """The i-th name of that many bytes; names differ at their front or at their end."""
    own = ""
    for _ in range(3):
        own = WORD[i % 26] + own
        i //= 26
    rest = "z" * max(0, long - 4)
    return "v" + own + rest if front else "v" + rest + own


# ---- sheets for check: each piece is a text and the tokens that it has, times what it is repeated

def lets(n, long, front):
    return "".join(f"let {name(i, long, front)}=1 in " for i in range(n)), 5 * n


def uses(n, m, long, front):
    text, tokens = lets(n, long, front)
    return text + "".join(f"{name(i % n, long, front)}+" for i in range(m)), tokens + 2 * m


def functions(n, arity, long, front):
    head = ",".join(f"{name(j, long, front)}:int" for j in range(arity))
    text = "".join(f"def {name(700 + i, long, front)}({head}):int{{1}}" for i in range(n))
    return text, n * (9 + max(0, 4 * arity - 1))


SHAPES = {
    "blanks": lambda a, b, f: (" " * (a * 30), 0),
    "line comments": lambda a, b, f: (("//" + "x" * b + "\n") * a, 0),
    "empty comments": lambda a, b, f: ("//\n" * (a * 10), 0),
    "names": lambda a, b, f: ("".join(f"{name(i, b, f)}+" for i in range(a)), 2 * a),
    "nested comments": lambda a, b, f: ("/*" * a + "x" * b + "*/" * a, 0),
    "lets": lambda a, b, f: lets(a, b, f),
    "lets and uses": lambda a, b, f: uses(max(a // 4, 1), a, b, f),
    "sums": lambda a, b, f: ("1+" * a, 2 * a),
    "signs": lambda a, b, f: ("-" * a, a),
    "groups": lambda a, b, f: ("(tt);" * a, 4 * a),
    "conditions": lambda a, b, f: ("if true then tt else (tt);" * a, 9 * a),
    "blocks": lambda a, b, f: ("{tt};" * a, 4 * a),
    "numbers": lambda a, b, f: (("0" * b + "1") + "+", 2),
    "loops": lambda a, b, f: ("for i in 1..2{tt};" * a, 10 * a),
}


def sheet(genes):
    text, tokens = "", 1
    funcs, plain = "", ""
    for shape, a, b, front in genes:
        if shape == "functions":
            piece, n = functions(min(a, 32), min(b, 8), 8, front) if not funcs else ("", 0)
        else:
            piece, n = SHAPES[shape](a, b, front)
        if tokens + n > TOKENS or len((funcs + plain + piece).encode()) > BYTES - 1:
            continue
        tokens += n
        if shape == "functions":
            funcs = piece
        else:
            plain += piece
    # what ends in an operator wants an operand, what ends in `;` or `in` an expression: a number is both
    text = funcs + plain + "1"
    return text


def gene(rng):
    shape = rng.choice(sorted(SHAPES) + ["functions"])
    return (shape, rng.choice([1, 8, 32, 64, 128, 256, 512]), rng.choice([1, 3, 8, 20, 60, 150]), rng.random() < 0.5)


def mutate(genes, rng):
    genes = list(genes)
    act = rng.randrange(4)
    if act == 0 or not genes:
        genes.insert(rng.randrange(len(genes) + 1), gene(rng))
    elif act == 1:
        genes.pop(rng.randrange(len(genes)))
    else:
        i = rng.randrange(len(genes))
        shape, a, b, front = genes[i]
        if rng.random() < 0.5:
            a = max(1, int(a * rng.choice([0.5, 0.8, 1.25, 2])))
        else:
            b = max(1, int(b * rng.choice([0.5, 0.8, 1.25, 2])))
        genes[i] = (shape, min(a, 1600), min(b, 49000), front if rng.random() < 0.8 else not front)
    return genes


def told(genes):
    return ", ".join(f"{s} {a}/{b}{'' if f else ' alike at the front'}" for s, a, b, f in genes)


# ---- expressions for a unit: the body of a loop, over an int cell c, a bool cell t, a float cell x and bindings

INTS = ["1", "!c", "n", "-{i}", "({i})", "{{{i}}}", "{i}+{i}", "{i}-{i}", "{i}*0", "{i}/7", "if {b} then {i} else {i}",
        "let y={i} in y", "f({i})", "g({i},{i},{i},{i},{i},{i},{i},{i})", "!ref {i}", "{{!ref {i}}}"]
BOOLS = ["true", "!t", "not {b}", "{i}<{i}", "{i}=={i}", "{b}&&{b}", "{b}||{b}", "{f}<{f}"]
FLOATS = ["1.5", "!x", "{f}+{f}", "{f}*{f}", "{f}/{f}", "{f}-{f}", "if {b} then {f} else {f}"]
KINDS = {"i": INTS, "b": BOOLS, "f": FLOATS}


def expression(kind, depth, rng):
    forms = KINDS[kind]
    form = rng.choice(forms[:2] if depth <= 0 else forms)
    out = re.sub(r"\{([ibf])\}", lambda m: expression(m.group(1), depth - 1, rng), form)
    return out.replace("{{", "{").replace("}}", "}")


def body(rng):
    kind = rng.choice("ibf")
    cell = {"i": "c", "b": "t", "f": "x"}[kind]
    return f"{cell}:={expression(kind, rng.randrange(1, 4), rng)}"


def work(parts, cells, bindings):
    more = "".join(f"let r{i}=ref 0 in " for i in range(cells)) + "".join(f"let n{i}=1 in " for i in range(bindings))
    return ("def f(a:int):int{a}def g(a:int,b:int,c:int,d:int,e:int,f:int,g:int,h:int):int{h}"
            "let n=3 in let c=ref 0 in let t=ref true in let x=ref 1.0 in " + more
            + "while true{c:=0;" + ";".join(parts) + "}")


# ---- counting

class Box:
    def __init__(self, program):
        self.program = program
        self.room = tempfile.mkdtemp()

    def file(self, label, text):
        path = os.path.join(self.room, label)
        with open(path, "w", encoding="ascii") as f:
            f.write(text)
        return path

    def count(self, function, *words):
        out = os.path.join(self.room, "counts")
        run = subprocess.run(["valgrind", "--tool=callgrind", f"--callgrind-out-file={out}",
                              f"--toggle-collect={function}", self.program, *words], capture_output=True, text=True)
        number, units = map(int, re.search(r"number=(\d+) units=(\d+)", run.stdout).groups())
        total = int(re.search(r"Collected : (\d+)", run.stderr).group(1))
        return number, units, total


def climb(seconds, rng, first, change, cost):
    """The dearest found: its cost and itself, and how many were tried."""
    until = time.monotonic() + seconds
    best, tried = None, 0
    for one in first:
        c = cost(one)
        tried += 1
        if c is not None and (best is None or c > best[0]):
            best = (c, one)
    while time.monotonic() < until:
        one = change(best[1], rng)
        c = cost(one)
        tried += 1
        if c is not None and c > best[0]:
            best = (c, one)
    return best, tried


def main(words):
    box = Box(words[0])
    seconds = float(words[1]) if len(words) > 1 else 60
    rng = random.Random(int(words[2]) if len(words) > 2 else 1)
    rows = []

    def check(genes):
        number, _, total = box.count("grumpy_check", "check", box.file("sheet", sheet(genes)))
        return total if number in (0, 33, 35) else None

    singles = [[(s, a, b, f)] for s in sorted(SHAPES) for a, b in ((1, 48000), (100, 400), (260, 150), (260, 3), (600, 8), (670, 70), (1300, 1), (1600, 1))
               for f in (False, True)]
    singles += [[("functions", 32, 8, f)] for f in (False, True)]
    (cost, genes), tried = climb(seconds, rng, [s for s in singles if len(sheet(s)) > 1], mutate, check)
    text = sheet(genes)
    rows.append(("check of a sheet", f"{cost:,}", f"{len(text):,} bytes: {told(genes)}", tried))

    def linear(genes):
        text = sheet(genes)
        number, _, total = box.count("grumpy_check", "check", box.file("sheet", text))
        return total / len(text) if number in (0, 33, 35) and len(text) > 1000 else None

    (cost, genes), tried = climb(seconds, rng, [s for s in singles if len(sheet(s)) > 1000], mutate, linear)
    rows.append(("check, for a byte of a sheet of 1,000 bytes or more", f"{cost:,.0f}", told(genes), tried))

    def unit(one):
        parts, cells, bindings = one
        path = box.file("sheet", work(parts, cells, bindings))
        number, units, total = box.count("grumpy_run", "run", path, "20000")
        start = box.count("grumpy_run", "run", path, "0")[2]
        return (total - start) / units if number == 50 and units else None

    def change(one, rng):
        parts, cells, bindings = one
        parts = list(parts)
        act = rng.randrange(5)
        if act < 2:
            parts[rng.randrange(len(parts))] = body(rng)
        elif act == 2 and len(parts) < 6:
            parts.append(body(rng))
        elif act == 3 and len(parts) > 1:
            parts.pop(rng.randrange(len(parts)))
        else:
            cells, bindings = rng.choice([0, 1, 30, 100]), rng.choice([0, 1, 30, 100])
        return parts, cells, bindings

    (cost, (parts, cells, bindings)), tried = climb(
        seconds, rng, [([body(rng)], c, b) for c in (0, 100) for b in (0, 100)], change, unit)
    rows.append(("unit of a run", f"{cost:.0f}",
                 f"`while true{{c:=0;{';'.join(parts)}}}`, {cells} cells and {bindings} bindings more", tried))

    def stored(one):
        token, n = one
        text = f"{2 * n + 1:04X}\n" + "".join(f"{t.encode().hex().upper()}\n" for t in [token, "+"] * n + ["1"])
        number, _, total = box.count("grumpy_check_stored", "stored", box.file("stored", text))
        return total / (2 * n + 2) if number in (0, 33, 35) else None

    tokens = ["1", "x", "v" + "z" * 60, "0" * 66 + "1", "1.23456789012345", "0xFFFF"]
    (cost, (token, n)), tried = climb(
        seconds, rng, [(t, n) for t in tokens for n in (100, 600)],
        lambda one, rng: (rng.choice(tokens), rng.randrange(100, 680)), stored)
    rows.append(("line of a stored sheet", f"{cost:,.0f}", f"{n} times `{token[:20]}` and `+`", tried))

    def line(one):
        pad, n = one
        book = f"def pay(p:int,r:int):int{{p*r+{'1+' * n}1}}" + " " * pad
        lines = "".join(f"{i:04X}0000000100000001\n" for i in range(LINES))
        book_file, lines_file = box.file("book", book), box.file("lines", lines)
        number, _, total = box.count("grumpy_shift_feed", "shift", book_file, lines_file)
        start = box.count("grumpy_shift_feed", "shift", book_file, box.file("none", ""))[2]
        return (total - start) / LINES if number == 0 else None

    (cost, (pad, n)), tried = climb(
        seconds, rng, [(0, 0), (0, 600), (47000, 0), (45000, 600)],
        lambda one, rng: (rng.randrange(0, 47000), rng.randrange(0, 640)), line)
    rows.append(("line of a shift", f"{cost:,.0f}", f"a book with {n} additions and {pad:,} blanks", tried))

    print("| Instructions at most found for a | instructions | where | sheets tried |\n|---|---:|---|---:|")
    for row in rows:
        print("| " + " | ".join(map(str, row)) + " |")


if __name__ == "__main__":
    main(sys.argv[1:])
