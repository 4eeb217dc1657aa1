#!/usr/bin/env python3
"""Brings the repository's own names in clauses, specs/ and proofs/ to the spelling of today's library.

usage: tools/respell.py [--list]        at the top of the repository; --list only shows what would be renamed

A definition, a lemma, a record's field, a constructor or a bound variable is spelled in snake case: `hutCount` is `hut_count`, `knows-own` is
`knows_own`. A dash stays where it joins two names, as in `onto-numbers`. Types, modules, names of Rust code and the names that Rattle makes of
them (goals, steps) stay as they are. A second run changes nothing.
"""
import os
import re
import sys

TOKEN = re.compile(r'[^\s(){}.;,@"«»:\[\]|]+')
# Words of the library that own lemmas join with a dash.
LIBRARY = set("length append take drop reverse get_or set map".split())
# Where the plain rule would make two names one, or hide a word.
OTHERWISE = {
    "allKnow": "all_know_test",
    "straight-written": "straight_written_lem",
    "round-written": "round_written_lem",
    "told-by": "told_by_lem",
}


def antt_files(root):
    for base, dirs, names in os.walk(os.path.join(root, "crates")):
        dirs[:] = sorted(d for d in dirs if d != "out")
        for name in sorted(names):
            if name.endswith((".antt", ".rt")):
                yield os.path.join(base, name)


def plain(text):
    return re.sub(r"--[^\n]*", "", text)


def declared(texts):
    """The names that the files declare, and those of them that stand at the left margin."""
    names, tops = set(), set()
    for path, text in texts:
        if not path.endswith(".antt"):
            continue
        text = plain(text)
        for m in re.finditer(r'^( *)(?:(?:pub|abbrev|unfoldable) )*([^\s(){}.;,@"«»:]+)((?: \{[^}\n]*\})*) :(?!:)(.*)', text, re.M):
            if not m[4].lstrip().startswith("goal."):
                names.add(m[2])
                if not m[1]:
                    tops.add(m[2])
        for m in re.finditer(r"\blet ([^\s(){}.;,:=]+) [:=]", text):
            names.add(m[1])
        for m in re.finditer(r"λ ([^.]*)\.", text):
            names.update(re.findall(r"[^\s(){}:]+", m[1]))
        for m in re.finditer(r"\(([^():]+) : ", text):
            names.update(m[1].split())
    return names, tops


def made(texts):
    """The names that Rattle makes, as far as answers give them."""
    names = set()
    for path, text in texts:
        if "/proofs/" in path:
            names.update(re.findall(r"\bgoal\.([^\s(){}.;,]+)", text))
            names.update(re.findall(r"^(?:abbrev )?pub ([^\s:]+) : goal\.", text, re.M))
    return names


def snake(name, functions):
    if name in OTHERWISE:
        return OTHERWISE[name]
    parts = [re.sub(r"(?<=[a-z0-9])([A-Z])(?=[a-z])", lambda m: "_" + m[1].lower(), p) for p in name.split("-")]
    parts = [re.sub(r"(?<=[a-z])([A-Z])(?![a-z])", lambda m: "_" + m[1].lower(), p) for p in parts]
    if len(parts) == 2 and all(p in functions for p in name.split("-")):
        return "-".join(parts)
    return "_".join(parts)


def table(texts):
    names, tops = declared(texts)
    functions = LIBRARY | {n for n in tops if "-" not in n and n[0].islower()}
    keep = made(texts)
    rows = {}
    for name in sorted(names - keep):
        if not re.fullmatch(r"[a-z][A-Za-z0-9'-]*", name) or not ("-" in name or re.search(r"[a-z0-9][A-Z]", name)):
            continue
        if name.startswith(("invariant-", "decreases-")) or re.search(r"[^a-z0-9-]-|-$", name):
            continue
        new = snake(name, functions)
        if new != name:
            rows[name] = new
    return rows, names


def turned(path, text, rows):
    """The text with the names of rows in their new spelling. In code a name of Rust's stays: only clauses and `ghost use` items have names of rows."""

    def code(part):
        def one(m):
            word, at = m[0], m.start()
            if word not in rows or part[:at].endswith(("goal.", "need.")):
                return word
            return rows[word]

        return TOKEN.sub(one, part)

    out = []
    for line in text.split("\n"):
        if path.endswith(".antt"):
            cut = re.search(r"(?:(?<=\s)|^)--", line)
            head, tail = (line[: cut.start()], line[cut.start() :]) if cut else (line, "")
            # quoted text stays
            out.append("".join(p if p.startswith('"') else code(p) for p in re.split(r'("[^"]*")', head)) + comment(tail, rows))
        elif re.match(r"\s*(ghost\b|requires\b|ensures\b)", line) or re.match(r"\s+[^/]*[≡→λ×]", line):
            out.append(code(line))
        else:
            out.append(line)
    return "\n".join(out)


def comment(tail, rows):
    """A comment names a definition by its spelling in camel case, or stands in the table at a file's head."""
    head = re.match(r"--     (\S+)", tail)
    words = TOKEN.sub(lambda m: rows[m[0]] if m[0] in rows and re.search("[A-Z]", m[0]) else m[0], tail)
    if head and head[1] in rows:
        words = words.replace("--     " + head[1], "--     " + rows[head[1]], 1)
    return words


def main(argv):
    root = os.getcwd()
    texts = []
    for path in antt_files(root):
        with open(path, encoding="utf-8") as f:
            texts.append((path, f.read()))
    rows, names = table(texts)
    by_new = {}
    for old, new in rows.items():
        by_new.setdefault(new, []).append(old)
    for new, olds in sorted(by_new.items()):
        if len(olds) > 1 or new in names:
            print(f"falls together: {', '.join(olds)}{' and ' + new if new in names else ''} as {new}")
    if argv == ["--list"]:
        for old, new in rows.items():
            print(f"{old}\t{new}")
        return 0
    count = 0
    for path, text in texts:
        new = turned(path, text, rows)
        if new != text:
            count += 1
            with open(path, "w", encoding="utf-8") as f:
                f.write(new)
    print(f"respell: {len(rows)} names, {count} files")
    return 0


if __name__ == "__main__":
    raise SystemExit(main(sys.argv[1:]))
