#!/usr/bin/env python3
"""The plan for huts of which some have no line between them, written independently of the proved program.

  lines_reference.py FILE          prints what `plan --text FILE` must print
  lines_reference.py --compare PLAN [--seed S] [--count N] [--all K] [--sample N]
                                   runs the program PLAN and compares standard output, standard error and status, byte for byte,
                                   on every list of lines among up to 6 huts (of 7 and more up to K: on samples), on N random
                                   lists and on N damaged texts; and plays each plan that is printed
  lines_reference.py --make KIND N SEED
                                   writes a list of lines among N huts: all, tenth, hard, row or tree
"""
import argparse
import collections
import itertools
import os
import random
import subprocess
import sys
import tempfile

CAUSES = {
    2: "no huts, more than 1024, or a hut that isn't there",
    3: "lines that don't rise, or of a hut with itself",
    4: "not all huts are joined",
}


# ---- What a text stands for.

class Unreadable(Exception):
    """A line that can't be read, counted from 1."""


def words(line):
    return [word for word in line.replace(b"\t", b" ").replace(b"\r", b" ").split(b" ") if word]


def number(word):
    """The number that a word of digits stands for, at most 65,535; None for any other word."""
    value = 0
    for byte in word:
        if not ord("0") <= byte <= ord("9"):
            return None
        value = min(10 * value + byte - ord("0"), 65535)
    return value


def read(text):
    """The number of huts and the lines between them."""
    n = None
    lines = []
    for at, line in enumerate(text.split(b"\n"), start=1):
        numbers = [number(word) for word in words(line)]
        if at > 1 and not numbers:
            continue
        if None in numbers or len(numbers) != (1 if at == 1 else 2):
            raise Unreadable(at)
        if at == 1:
            n = numbers[0]
        else:
            lines.append(tuple(numbers))
    return n, lines


# ---- What is wrong with a list of lines.

def distances(near, middle):
    """How few lines each hut is from the middle. Huts that no way leads to are left out."""
    distance = {hut: 0 for hut in middle}
    waiting = collections.deque(middle)
    while waiting:
        hut = waiting.popleft()
        for other in near[hut]:
            if other not in distance:
                distance[other] = distance[hut] + 1
                waiting.append(other)
    return distance


def neighbours(n, lines):
    near = [set() for _ in range(n)]
    for a, b in lines:
        near[a].add(b)
        near[b].add(a)
    return near


def refusal(n, lines):
    """The number of the fault and the hut that is told with it, if any; (None, None) if nothing is wrong."""
    if n < 1 or n > 1024:
        return 2, None
    before = None
    for line in lines:
        a, b = line
        if a >= n or b >= n:
            return 2, None
        if a >= b:
            return 3, None
        if before is not None and line <= before:
            return 3, None
        before = line
    joined = distances(neighbours(n, lines), [0])
    for hut in range(n):
        if hut not in joined:
            return 4, hut
    return None, None


# ---- The plan.

def square_by_definition(near):
    """The smallest square: all four huts in all orders are tried."""
    found = [
        (a, b, c, d)
        for a, b, c, d in itertools.permutations(range(len(near)), 4)
        if a == min(a, b, c, d) and b < d and b in near[a] and c in near[b] and d in near[c] and a in near[d]
    ]
    return min(found, default=None)


def square_by_search(near):
    """The same, left at the first that is found when huts are tried in order."""
    ordered = [sorted(huts) for huts in near]
    for a in range(len(near)):
        for b in ordered[a]:
            if b > a:
                for c in ordered[b]:
                    if c > a:
                        for d in ordered[a]:
                            if d > b and d != c and d in near[c]:
                                return a, b, c, d
    return None


def smallest_square(near):
    square = square_by_search(near)
    if len(near) <= 7:
        assert square == square_by_definition(near)
    return square


def plan(n, lines):
    near = neighbours(n, lines)
    square = smallest_square(near)
    middle = [0] if square is None else list(square)
    distance = distances(near, middle)
    row = sorted((hut for hut in range(n) if hut not in middle), key=lambda hut: (distance[hut], hut))
    partner = {hut: min(near[hut], key=lambda other: (distance[other], other)) for hut in row}
    calls = [(hut, partner[hut]) for hut in reversed(row)]
    if square is None:
        calls += [(partner[hut], hut) for hut in row[1:]]
    else:
        a, b, c, d = square
        calls += [(a, b), (c, d), (a, d), (b, c)]
        calls += [(partner[hut], hut) for hut in row]
    return calls, square


def answer(name, text):
    """What is printed on standard output and on standard error for a text, and the status."""
    try:
        n, lines = read(text)
    except Unreadable as line:
        return "", f"plan: {name}: line {line} can't be read\n", 1
    fault, hut = refusal(n, lines)
    if fault is not None:
        told = "" if hut is None else f": hut {hut}"
        return "", f"plan: {name}: refused {fault}: {CAUSES[fault]}{told}\n", 1
    calls, square = plan(n, lines)
    out = [f"{caller} {other}" for caller, other in calls]
    out.append("no square" if square is None else "square " + " ".join(str(hut) for hut in square))
    out.append(f"{len(calls)} calls")
    return "".join(line + "\n" for line in out), "", 0


# ---- Whether a printed plan does what it is for, whatever the plan above says.

def complaint(text, printed):
    """What is wrong with a plan as it is printed; None if nothing is."""
    n, lines = read(text)
    is_line = set(lines)
    *calls, square, count = printed.splitlines()
    knows = [frozenset([hut]) for hut in range(n)]
    for call in calls:
        caller, other = (int(word) for word in call.split(" "))
        if (min(caller, other), max(caller, other)) not in is_line:
            return f"{call}: a call where there is no line"
        knows[caller] = knows[other] = knows[caller] | knows[other]
    for hut in range(n):
        if len(knows[hut]) != n:
            return f"hut {hut} does not know everything"
    if square == "no square":
        awaited = max(2 * n - 3, 0)
    else:
        a, b, c, d = (int(word) for word in square.removeprefix("square ").split(" "))
        sides = {(min(side), max(side)) for side in [(a, b), (b, c), (c, d), (d, a)]}
        if len({a, b, c, d}) != 4 or not sides <= is_line:
            return f"{square}: no square"
        awaited = 2 * n - 4
    if count != f"{awaited} calls" or len(calls) != awaited:
        return f"{len(calls)} calls, told as '{count}', where {awaited} are awaited"
    return None


# ---- Lists of lines. Each kind gives pairs of huts below n in any order.

def all_lines(n):
    return list(itertools.combinations(range(n), 2))


def in_a_row(n):
    return [(hut, hut + 1) for hut in range(n - 1)]


def in_a_ring(n):
    return in_a_row(n) + ([(0, n - 1)] if n > 2 else [])


def star(n):
    return [(0, hut) for hut in range(1, n)]


def tree(rng, n):
    return [(rng.randrange(hut), hut) for hut in range(1, n)]


def triangles(n):
    """Triangles that share hut 0: many lines in rings and no square."""
    return star(n) + [(hut, hut + 1) for hut in range(1, n - 1, 2)]


def square_at_the_end(n):
    return in_a_row(n) + ([(n - 4, n - 1)] if n > 3 else [])


def two_sided(n, left):
    return [(a, b) for a in range(left) for b in range(left, n)]


def cube(n):
    return [(hut, hut | 1 << bit) for hut in range(n) for bit in range(10) if not hut >> bit & 1 and hut | 1 << bit < n]


def grid(n, wide):
    across = [(hut, hut + 1) for hut in range(n - 1) if (hut + 1) % wide]
    return across + [(hut, hut + wide) for hut in range(n - wide)]


def grown(rng, n, count):
    """A tree and count more lines, or as many as there are."""
    lines = set(tree(rng, n))
    count = min(len(lines) + count, n * (n - 1) // 2)
    while len(lines) < count:
        a, b = sorted(rng.sample(range(n), 2))
        lines.add((a, b))
    return list(lines)


def any_lines(rng, n, count):
    return [tuple(rng.sample(range(n), 2)) for _ in range(count)] if n > 1 else []


def by_density(rng, n, density):
    return [line for line in all_lines(n) if rng.random() < density]


def without_squares(rng, n):
    """A tree and then every line, in random order, that makes no square with those before it."""
    near = [set() for _ in range(n)]
    lines = tree(rng, n)
    for a, b in lines:
        near[a].add(b)
        near[b].add(a)
    others = all_lines(n)
    rng.shuffle(others)
    for a, b in others:
        if b not in near[a] and not any(near[other] & near[b] - {a} for other in near[a] - {b}):
            near[a].add(b)
            near[b].add(a)
            lines.append((a, b))
    return lines


def hard(rng, n):
    """No square and many lines. The points (x, y, z) of the projective plane over the numbers modulo a prime q, with a line between
    two of them where the sum of their products is 0: two points have just one such point in common, so that no four make a square.
    The huts that are left hang on by one line each."""
    fitting = [q for q in range(2, 32) if all(q % k for k in range(2, q)) and q * q + q + 1 <= n]
    points = []
    if fitting:
        q = max(fitting)
        points = [(1, y, z) for y in range(q) for z in range(q)] + [(0, 1, z) for z in range(q)] + [(0, 0, 1)]
    lines = []
    for (a, p), (b, r) in itertools.combinations(enumerate(points), 2):
        if (p[0] * r[0] + p[1] * r[1] + p[2] * r[2]) % q == 0:
            lines.append((a, b))
    return lines + [(rng.randrange(hut), hut) for hut in range(max(len(points), 1), n)]


def two_parts(rng, n):
    """Two lists that are each joined, and no line between them."""
    left = rng.randint(1, n - 1)
    right = [(a + left, b + left) for a, b in grown(rng, n - left, rng.randrange(4))]
    return grown(rng, left, rng.randrange(4)) + right


def renamed(rng, n, lines):
    names = list(range(n))
    rng.shuffle(names)
    return [(names[a], names[b]) for a, b in lines]


def risen(lines):
    return sorted({(min(line), max(line)) for line in lines})


def written(n, lines):
    return f"{n}\n".encode() + b"".join(b"%d %d\n" % line for line in lines)


def make(kind, n, seed):
    rng = random.Random(seed)
    if kind == "all":
        lines = all_lines(n)
    elif kind == "tenth":
        lines = renamed(rng, n, grown(rng, n, max(n * (n - 1) // 20 - (n - 1), 0)))
    elif kind == "hard":
        lines = renamed(rng, n, hard(rng, n))
    elif kind == "row":
        lines = in_a_row(n)
    else:
        lines = renamed(rng, n, tree(rng, n))
    return written(n, risen(lines))


def a_size(rng):
    kind = rng.random()
    if kind < 0.60:
        return rng.randint(1, 12)
    if kind < 0.85:
        return rng.choice([rng.randint(13, 60), 63, 64, 65])
    if kind < 0.99:
        return rng.choice([rng.randint(61, 300), 127, 128, 129, 191, 192, 193])
    return rng.choice([rng.randint(301, 1024), 1023, 1024])


def a_list(rng, n):
    """A random list of lines of a random kind."""
    few = rng.choice([0, 1, 2, 3, n // 4, n, 3 * n])
    kinds = [
        lambda: in_a_row(n),
        lambda: in_a_ring(n),
        lambda: star(n),
        lambda: tree(rng, n),
        lambda: triangles(n),
        lambda: square_at_the_end(n),
        lambda: grid(n, rng.randint(1, min(n, 40))),
        lambda: cube(n),
        lambda: grown(rng, n, few),
        lambda: grown(rng, n, few),
        lambda: grown(rng, n, rng.randint(0, n)),
        lambda: by_density(rng, n, rng.choice([0.02, 0.1, 0.3, 0.5, 0.9])),
        lambda: by_density(rng, n, rng.random() / 10),
        lambda: hard(rng, n),
        lambda: hard(rng, n) + any_lines(rng, n, rng.randint(1, 2)),
    ]
    if n > 1:
        kinds.append(lambda: two_parts(rng, n))
    if n <= 200:
        kinds.append(lambda: all_lines(n))
        kinds.append(lambda: two_sided(n, rng.randint(1, max(n // 2, 1))))
    if n <= 60:
        kinds.append(lambda: without_squares(rng, n))
        kinds.append(lambda: without_squares(rng, n) + any_lines(rng, n, 1))
    lines = rng.choice(kinds)()
    kind = rng.random()
    if kind < 0.8:
        lines = renamed(rng, n, lines)
    if kind < 0.1 and lines:
        lines.pop(rng.randrange(len(lines)))
    return risen(lines)


# ---- Damaged texts.

NO_NUMBERS = [b"x", b"-1", b"+1", b"1.0", b"1,", b"0x1", b"1e1", b"\xff", b"\xc2\xb2", b"\xd9\xa1", b"\x00", b"1\x0c2", b"1\x0b", b"\xc2\xa0"]
LARGE = [b"1024", b"1025", b"65535", b"65536", b"65537", b"131072", b"4294967296", b"18446744073709551616", b"1" + 40 * b"0", 5000 * b"9"]


def with_a_wrong_line(rng, n, lines):
    """A list of pairs, each of a word of digits, with something wrong in one place or another."""
    if not lines:
        return [(0, 0)] if rng.random() < 0.5 else [(0, n)]
    lines = list(lines)
    at = rng.randrange(len(lines))
    other = rng.randrange(len(lines))
    a, b = lines[at]
    kind = rng.randrange(8)
    if kind == 0:
        lines[at], lines[other] = lines[other], lines[at]
    elif kind == 1:
        lines.insert(other, lines[at])
    elif kind == 2:
        lines[at] = b, a
    elif kind == 3:
        lines[at] = rng.choice([(a, a), (b, b)])
    elif kind == 4:
        lines[at] = a, rng.choice([n, n + 1, 2 * n, 65535])
    elif kind == 5:
        lines[at] = rng.choice([n, n + 1, 65535]), rng.choice([b, n, n + 1])
    elif kind == 6:
        lines.insert(at, (rng.randrange(n), rng.randrange(n)))
    else:
        lines.pop(at)
    return lines


def with_a_wrong_word(rng, rows):
    """Rows of words, of which the first has the number of huts, with something else in one place."""
    at = rng.randrange(len(rows))
    if rng.random() < 0.3:
        at = 0
    row = rows[at]
    word = rng.randrange(len(row)) if row else 0
    kind = rng.randrange(8)
    if kind == 0:
        row[word:word + 1] = []
    elif kind == 1:
        row.insert(word, rng.choice([b"0", b"1", b"7"]))
    elif kind == 2:
        row[word:word + 1] = [rng.choice(NO_NUMBERS)]
    elif kind == 3:
        row[word:word + 1] = [rng.choice(LARGE)]
    elif kind == 4:
        row[word:word + 1] = [rng.choice([b"0", b"00", b"1"])]
    elif kind == 5:
        rows.insert(at, [])
    elif kind == 6:
        rows[at:at + 1] = [row[:word], row[word:]]
    else:
        rows[at:at + 2] = [sum(rows[at:at + 2], [])]


def laid_out(rng, rows):
    """Words with blanks of all sorts around them, which changes nothing."""
    blanks = [b" ", b"  ", b"\t", b" \t", b"\r", b"\t\r "]
    end = rng.choice([b"\n", b"\n", b"\r\n", b" \n"])
    out = []
    for row in rows:
        row = [rng.choice([b"0", b"000"]) + word if rng.random() < 0.1 and word.isdigit() else word for word in row]
        line = rng.choice(blanks).join(row)
        if rng.random() < 0.2:
            line = rng.choice(blanks) + line
        if rng.random() < 0.2:
            line = line + rng.choice(blanks)
        out.append(line)
        while out[1:] and rng.random() < 0.1:
            out.append(rng.choice([b""] + blanks))
    text = end.join(out)
    return text if rng.random() < 0.3 else text + end


def with_a_wrong_byte(rng, text):
    at = rng.randrange(len(text) + 1)
    byte = bytes([rng.choice(b"0123456789 \t\r\n-x\x00\x0b\x0c\x1a\x80\xff/:")])
    kind = rng.randrange(4)
    if kind == 0:
        return text[:at]
    if kind == 1:
        return text[:at] + text[at + 1:]
    if kind == 2:
        return text[:at] + byte + text[at:]
    return text[:at] + byte + text[at + 1:]


def a_damaged_text(rng):
    n = rng.choice([rng.randint(1, 8), rng.randint(1, 30), rng.randint(1, 120)])
    lines = a_list(rng, n)
    told = n
    how = rng.choice([1, 1, 1, 2, 4, 5, 8, rng.randrange(1, 16)])
    if how & 1:
        for _ in range(rng.randint(1, 3)):
            lines = with_a_wrong_line(rng, n, lines)
    if rng.random() < 0.1:
        told = rng.choice([0, n - 1, n + 1, 1024, 1025, 65535, 65536, 65537, 10 ** 30])
    rows = [[b"%d" % told]] + [[b"%d" % hut for hut in line] for line in lines]
    if how & 2:
        for _ in range(rng.randint(1, 2)):
            with_a_wrong_word(rng, rows)
            rows = rows or [[]]
    text = laid_out(rng, rows) if how & 4 else b"".join(b" ".join(row) + b"\n" for row in rows)
    if how & 8:
        for _ in range(rng.randint(1, 2)):
            text = with_a_wrong_byte(rng, text)
    return text


# ---- The comparison.

# Texts with what is awaited written out, so that this program is tried too.
NO_HUT = "refused 2: " + CAUSES[2]
NO_RISE = "refused 3: " + CAUSES[3]
APART = "refused 4: " + CAUSES[4]
WORKED = [
    (b"4\n0 1\n1 2\n2 3\n", "3 2\n2 1\n1 0\n1 2\n2 3\nno square\n5 calls\n"),
    (b"5\n0 1\n0 3\n1 2\n2 3\n3 4\n", "4 3\n0 1\n2 3\n0 3\n1 2\n3 4\nsquare 0 1 2 3\n6 calls\n"),
    (written(5, all_lines(5)), "4 0\n0 1\n2 3\n0 3\n1 2\n0 4\nsquare 0 1 2 3\n6 calls\n"),
    (b"1\n", "no square\n0 calls\n"),
    (b"1", "no square\n0 calls\n"),
    (b" 1\t\r\n\r\n \n", "no square\n0 calls\n"),
    (b"2\n0 1\n", "1 0\nno square\n1 calls\n"),
    (b"3\n0 1\n0 2\n1 2\n", "2 0\n1 0\n0 2\nno square\n3 calls\n"),
    (b"4\n0 2\n0 3\n1 2\n1 3\n", "0 2\n1 3\n0 3\n2 1\nsquare 0 2 1 3\n4 calls\n"),
    (b"2\n", APART + ": hut 1"),
    (b"4\n0 3\n1 2\n", APART + ": hut 1"),
    (b"1024\n", APART + ": hut 1"),
    (b"0\n", NO_HUT),
    (b"1025\n", NO_HUT),
    (b"65536\n", NO_HUT),
    (b"65537\n0 1\n", NO_HUT),
    (b"0\n1 0\n", NO_HUT),
    (b"1025\n1 0\n", NO_HUT),
    (b"1\n0 0\n", NO_RISE),
    (b"1\n0 1\n", NO_HUT),
    (b"3\n1 0\n0 3\n", NO_RISE),
    (b"3\n0 3\n1 0\n", NO_HUT),
    (b"3\n3 3\n", NO_HUT),
    (b"3\n3 0\n", NO_HUT),
    (b"3\n0 1\n0 1\n", NO_RISE),
    (b"3\n0 2\n0 1\n", NO_RISE),
    (b"3\n1 2\n0 1\n", NO_RISE),
    (b"3\n0 1\n65536 1\n", NO_HUT),
    (b"3\n0 1\n1 65538\n", NO_HUT),
    (b"3\n0 1\n1 1\n", NO_RISE),
    (b"3\n0 1\n2 1\n", NO_RISE),
    (b"\t002 \r\n\r\n 00\t 0001\r\n\t", "1 0\nno square\n1 calls\n"),
    (b"", "line 1 can't be read"),
    (b"\n", "line 1 can't be read"),
    (b"\n2\n0 1\n", "line 1 can't be read"),
    (b"2 0\n0 1\n", "line 1 can't be read"),
    (b"-2\n0 1\n", "line 1 can't be read"),
    (b"2\n0\n", "line 2 can't be read"),
    (b"2\n0 1 1\n", "line 2 can't be read"),
    (b"0\n\n\n1 x\n", "line 4 can't be read"),
    (b"2\n1 0\n0 5\n0 +1\n", "line 4 can't be read"),
    (b"\x0c2\n0 1\n", "line 1 can't be read"),
    (b"2\n\x0c0 1\n", "line 2 can't be read"),
    (b"2\n0\x0b1\n", "line 2 can't be read"),
    (b"2\n0 1\n\x0c\n", "line 3 can't be read"),
    (b"2\n0 1\n\xc2\xa0\n", "line 3 can't be read"),
    (b"2\n0 1\n\x00", "line 3 can't be read"),
    (b"\xef\xbb\xbf2\n0 1\n", "line 1 can't be read"),
]


class Comparison:
    """Runs the program on texts, and keeps count of what came of it."""

    def __init__(self, program, place):
        self.program = os.path.abspath(program)
        self.file = os.path.join(place, "lines")
        self.tried = 0
        self.wrong = 0
        self.outcomes = collections.Counter()

    def complain(self, text, what):
        self.wrong += 1
        if self.wrong <= 20:
            print(f"{text[:300]!r}: {what}")

    def program_on(self, text):
        """The name that the text is given by, and what is printed and the status. Each eighth text comes by standard input."""
        with open(self.file, "wb") as file:
            file.write(text)
        name = "-" if self.tried % 8 == 0 else self.file
        with open(self.file, "rb") as file:
            run = subprocess.run([self.program, "--text", name], stdin=file if name == "-" else subprocess.DEVNULL, capture_output=True)
        return name, run

    def case(self, text, awaited=None):
        self.tried += 1
        name, run = self.program_on(text)
        out, error, status = answer(name, text)
        if awaited is not None:
            right = (awaited, "", 0) if awaited.endswith(" calls\n") else ("", f"plan: {name}: {awaited}\n", 1)
            assert (out, error, status) == right, (text, out, error, status)
        if (run.stdout, run.stderr, run.returncode) != (out.encode(), error.encode(), status):
            self.complain(text, f"printed {run.stdout[:300]!r}, {run.stderr[:300]!r}, status {run.returncode}; awaited {out[:300]!r}, {error!r}, {status}")
        elif status == 0:
            what = complaint(text, run.stdout.decode())
            if what is not None:
                self.complain(text, what)
        if "square" in out:
            self.outcomes["no square" if "no square" in out else "square"] += 1
        else:
            self.outcomes["refused " + error.split("refused ")[1][0] if "refused " in error else "unreadable"] += 1

    def missing_file(self):
        """A file that isn't there: only that nothing is printed, and something is said."""
        self.tried += 1
        name = self.file + ".missing"
        run = subprocess.run([self.program, "--text", name], stdin=subprocess.DEVNULL, capture_output=True)
        self.outcomes["no file"] += 1
        if run.returncode != 1 or run.stdout or not run.stderr.startswith(b"plan: "):
            self.complain(b"", f"a missing file: printed {run.stdout[:300]!r}, {run.stderr[:300]!r}, status {run.returncode}")

    def report(self, what):
        told = ", ".join(f"{count} {outcome}" for outcome, count in sorted(self.outcomes.items()))
        print(f"{what}: {self.tried} compared, {self.wrong} wrong: {told}", flush=True)


def small_lists(rng, largest, sample):
    """Every list of lines among up to 6 huts, and as many random ones as are asked for of each larger number."""
    for n in range(1, largest + 1):
        lines = all_lines(n)
        if n <= 6:
            chosen = range(1 << len(lines))
        else:
            chosen = (rng.getrandbits(len(lines)) for _ in range(sample))
        for bits in chosen:
            yield n, [line for at, line in enumerate(lines) if bits >> at & 1]


def large_lists(rng):
    """Sizes at the ends of words, and the largest."""
    for n in [2, 3, 4, 5, 63, 64, 65, 127, 128, 129, 960, 1023, 1024]:
        lists = [in_a_row(n), in_a_ring(n), star(n), tree(rng, n), triangles(n), square_at_the_end(n), grid(n, 32), hard(rng, n), two_parts(rng, n)]
        for lines in lists:
            yield n, risen(lines)
            yield n, risen(renamed(rng, n, lines))
            yield n, risen(lines + any_lines(rng, n, 1))
    for kind in ["all", "tenth", "hard", "row", "tree"]:
        yield read(make(kind, 1024, rng.randrange(1000)))


def compare(program, seed, count, largest, sample):
    wrong = tried = 0
    rng = random.Random(seed)
    with tempfile.TemporaryDirectory() as place:
        parts = [
            ("worked cases", iter(WORKED)),
            (f"all lists up to {min(largest, 6)} huts" + (f", samples up to {largest}" if largest > 6 else ""),
             ((written(n, lines),) for n, lines in small_lists(rng, largest, sample))),
            ("large lists", ((written(n, lines),) for n, lines in large_lists(rng))),
            ("random lists", ((written(n, a_list(rng, n)),) for n in (a_size(rng) for _ in range(count)))),
            ("damaged texts", ((a_damaged_text(rng),) for _ in range(count))),
        ]
        for what, cases in parts:
            comparison = Comparison(program, place)
            for case in cases:
                comparison.case(*case)
            if what == "worked cases":
                comparison.missing_file()
            comparison.report(what)
            tried += comparison.tried
            wrong += comparison.wrong
    print(f"{tried} texts compared, {wrong} wrong")
    return wrong == 0


def main():
    parser = argparse.ArgumentParser(description=__doc__, formatter_class=argparse.RawDescriptionHelpFormatter)
    parser.add_argument("file", nargs="?", metavar="FILE")
    parser.add_argument("--compare", metavar="PLAN")
    parser.add_argument("--seed", type=int, default=1, metavar="S")
    parser.add_argument("--count", type=int, default=4000, metavar="N")
    parser.add_argument("--all", type=int, default=6, metavar="K")
    parser.add_argument("--sample", type=int, default=20000, metavar="N")
    parser.add_argument("--make", nargs=3, metavar=("KIND", "N", "SEED"))
    asked = parser.parse_args()
    if asked.compare:
        return 0 if compare(asked.compare, asked.seed, asked.count, asked.all, asked.sample) else 1
    if asked.make:
        kind, n, seed = asked.make
        if kind not in ["all", "tenth", "hard", "row", "tree"]:
            parser.error(f"unknown kind '{kind}'")
        sys.stdout.buffer.write(make(kind, int(n), int(seed)))
        return 0
    if asked.file is None:
        parser.error("a file is missing")
    if asked.file == "-":
        text = sys.stdin.buffer.read()
    else:
        with open(asked.file, "rb") as file:
            text = file.read()
    out, error, status = answer(asked.file, text)
    sys.stdout.write(out)
    sys.stderr.write(error)
    return status


if __name__ == "__main__":
    sys.exit(main())
