#!/usr/bin/env python3
"""Spells the names that this repository declares in specs/ and proofs/ in snake case: once, after the toolchain's own respelling, before it is committed.

usage: tools/respell.py      at the top of the repository

- A definition, a law or a field in camel case, as aB, becomes a_b.
- A dash stays where it joins the names of two definitions or words of the library, as in length-drop; a plain word is joined by '_'.
- Names of types, modules, variants and of functions of src/ stay. Answers in a function's own folder of proofs/ stay as well: their names are the check's.
- Documents, must-fail edits, comments and the tests' tools get the new names wherever the old one stands as a word by itself: those that the toolchain's
  script turned too.
"""

import glob
import re
import subprocess
import sys

TOKEN = re.compile(r'[^\s(){}.;,@"«»`]+')
DECLARED = re.compile(r"^ *(?:(?:abbrev|unfoldable|pub|private) )*(record |data )?([^\s(){}.;,@\"«»:]+)(?: [({].*?)? : ")
LIBRARY = set("length drop take set append map sum replicate zero suc get_or not cond leb ltb eqb insert sort add mul sub".split())
# Names that would fall together, by file: with a tactic of the language (and that one's neighbour), or with a definition. A law that would have its
# definition's name gets '_lem'.
BY_HAND = [
    (r"crates/ruler/", {"first_of": "first_time_of", "last_of": "last_time_of"}),
    (r"crates/edit/proofs/(IndexRead|HalfLent)", {"first_of": "first_of_lem"}),
    (r"crates/build/proofs/Outcomes", {"in_bounds": "in_bounds_lem"}),
    (r"crates/(?!text/)", {"first_cell": "first_cell_lem", "no_room": "no_room_lem", "of-no-room": "of_no_room_lem"}),
    (r"crates/text/", {"is_digit": "is_digit_lem"}),
    (r"crates/trip/", {"one_holds": "one_holds_lem"}),
]
BY_HAND_OLD = {"firstOf": "first_time_of", "lastOf": "last_time_of"}


def files(kinds):
    for kind in kinds:
        for f in sorted(glob.glob(f"crates/*/{kind}/**/*.antt", recursive=True)):
            yield f


def of_a_function(f):
    return "/proofs/" in f and re.search(r"/proofs/(?:.*/)?[a-z_+][^/]*/[^/]*$", f) is not None


def declared(text):
    for line in text.split("\n"):
        m = DECLARED.match(line)
        if m and not m[1]:
            yield m[2]


def snake(name):
    return re.sub(r"(?<=[a-z0-9])([A-Z])", lambda m: "_" + m[1].lower(), name)


def read(f):
    with open(f, encoding="utf-8") as it:
        return it.read()


def main():
    now, old = {}, {}
    for f in files(["specs", "proofs"]):
        now[f] = read(f)
        r = subprocess.run(["git", "show", "HEAD:" + f], capture_output=True, text=True)
        old[f] = r.stdout if r.returncode == 0 else ""
    before = {}  # what the toolchain's script turned: old name to new
    names, definitions = set(), set(LIBRARY)
    for f, text in now.items():
        if of_a_function(f):
            continue
        a, b = list(declared(old[f])), list(declared(text))
        if len(a) == len(b):
            for x, y in zip(a, b):
                if x != y:
                    before[x] = y
        else:
            print("look: other declarations in", f)
        names.update(b)
        if "/specs/" in f:
            definitions.update(snake(x) for x in b)
    turned = {}
    by_hand_names = {x for _, table in BY_HAND for x in table}
    for name in names - by_hand_names:
        if not (name[0].islower() and name.isascii() or "-" in name):
            continue
        words = snake(name).split("-")
        new = words[0]
        for left, right in zip(words, words[1:]):
            new += ("-" if left in definitions and right in definitions else "_") + right
        if new != name:
            turned[name] = new
    # a law that would have a definition's name
    by_new = {}
    for name in names:
        by_new.setdefault(turned.get(name, name), []).append(name)
    for new, xs in by_new.items():
        if len(xs) > 1:
            for x in xs:
                if "-" in x and not re.search(r"[a-z0-9][A-Z]", x):
                    turned[x] = new + "_lem"
    # names that fall together, in one file's declarations or as a declared name of the same module
    taken = {}
    for f, text in now.items():
        if of_a_function(f):
            continue
        seen = {}
        for x in declared(text):
            y = turned.get(x, x)
            if y in seen and seen[y] != x:
                print(f"look: {seen[y]} and {x} are both {y} in {f}")
            seen[y] = x
            taken.setdefault(y, set()).add(x)
    for y, xs in sorted(taken.items()):
        if len(xs) > 1:
            print(f"look: in several files {sorted(xs)} are {y}")
    # in antt and rt, by words
    count = 0

    def words(text, table):
        return TOKEN.sub(lambda m: table.get(m[0], m[0]), text)

    def by_hand(f, text):
        for files, table in BY_HAND:
            if re.match(files, f):
                text = re.sub(r'(?<!\.)' + TOKEN.pattern, lambda m: table.get(m[0], m[0]), text)
        return text

    for f, text in now.items():
        new = words(by_hand(f, text), turned)
        if new != text:
            count += 1
            with open(f, "w", encoding="utf-8") as it:
                it.write(new)
    camel = {a: b for a, b in turned.items()}
    for f in sorted(glob.glob("crates/*/src/*.rt")):
        text = read(f)
        lines = []
        for line in text.split("\n"):
            table = dict(camel)
            clause = re.match(r"\s*(requires|ensures|ghost)\b", line)
            code = re.sub(r'"(?:[^"\\]|\\.)*"', '""', line)
            if clause and "crates/ruler/" in f:
                table.update(BY_HAND[0][1])
            if not clause and not line.lstrip().startswith("//") and not line.startswith("        ") and "//" not in code and not re.match(r"\s+[^=;]*$", line):
                table = {a: b for a, b in table.items() if re.search(r"[a-z0-9][A-Z]", a)}
            lines.append(TOKEN.sub(lambda m: table.get(m[0], m[0]), line))
        new = "\n".join(lines)
        if new != text:
            count += 1
            with open(f, "w", encoding="utf-8") as it:
                it.write(new)
    # everywhere else: the old names to the newest
    whole = {}
    for x, y in before.items():
        whole[x] = turned.get(y, y)
    whole.update(turned)
    whole.update(BY_HAND_OLD)
    for x in [x for x in whole if not re.search(r"[a-z0-9][A-Z]|-", x)]:
        del whole[x]
    library = {"getD": "get_or"}
    others = subprocess.run(["git", "ls-files", "docs", "README.md", "tests", "crates/*/must-fail/*", "include", "examples", "bin"], capture_output=True, text=True).stdout.split("\n")
    for f in others:
        if not f or f.endswith((".txt", ".stdout")):
            continue
        try:
            text = read(f)
        except (UnicodeDecodeError, FileNotFoundError):
            continue
        if f.endswith(".md"):
            new = re.sub(r"`([^`\n]+)`", lambda m: "`" + words(m[1], whole) + "`", text)
        elif "/must-fail/" in f:
            new = words(text, {**{a: b for a, b in whole.items() if re.search(r"[a-z0-9][A-Z]", a) or "proofs/" in text}, **library})
        elif f.startswith("tests/"):
            new = words(text, {a: b for a, b in whole.items() if re.search(r"[a-z0-9][A-Z]", a)}) if f.endswith("to-antt") or "house" in f else text
        else:
            new = text
        if new != text:
            count += 1
            with open(f, "w", encoding="utf-8") as it:
                it.write(new)
    print(f"respell: {len(turned)} names, {count} files")


if __name__ == "__main__":
    sys.exit(main())
