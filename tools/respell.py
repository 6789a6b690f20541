#!/usr/bin/env python3
"""Brings the names of this repository's own definitions and lemmas to today's spelling: words in snake case, types in
camel case. Run once, at the top, after the kit's port.py. Names that would fall together are told apart by ORDERS:
the order of a thing is `thing_order`, its reader `thing_of`. Functions, goals, strings and comments keep their text."""

import os
import re
import sys

# a definition that gives an order; before port.py these were lastOf, bodyOf, labelOf and so on
ORDERS = {
    "semverOf": "semver_order",
    "lenientOf": "lenient_order",
    "idealOf": "ideal_order",
    "releaseOf": "release_order",
    "levelOf": "level_order",
    "longerOf": "longer_order",
    "mchunkOf": "mchunk_order",
    "complexOf": "complex_order",
    "generalOf": "general_order",
    "textsOf": "texts_order",
    "numbersOf": "numbers_order",
    "last_of": "last_order",
    "body_of": "body_order",
    "label_of": "label_order",
    "words_of": "words_order",
}
SIGNATURE = re.compile(
    r"\s*(?:(?:abbrev|opaque|unfoldable|pub)\s+)*(?:(?:record|data)\s+)?([^\s(){},.=|:;λ]+)(?:\s[^=λ]*?)?\s:\s"
)
TOKEN = re.compile(r"[^\s(){}\[\],;.:`]+")
QUOTED = re.compile(r'"(?:[^"\\]|\\.)*"')


def files(root, *ends):
    for folder, dirs, names in os.walk(root):
        dirs[:] = sorted(d for d in dirs if d not in ("out", ".git", "landings"))
        for name in sorted(names):
            if name.endswith(ends):
                yield os.path.join(folder, name)


def spelled(name):
    if name in ORDERS:
        return ORDERS[name]
    if "-" in name and name[0].isupper():
        return "".join(part[0].upper() + part[1:] for part in name.split("-"))
    if "-" in name or (name[0].islower() and re.search(r"[a-z][A-Z]", name)):
        return re.sub(r"([a-z0-9])([A-Z])", lambda m: m[1] + "_" + m[2].lower(), name).replace("-", "_")
    return name


def own():
    """The names that specs/ and the lemma files of proofs/ give."""
    found = set()
    for path in files("crates", ".antt", ".antt.txt"):
        parts = path.split(os.sep)
        if parts[2] == "proofs" and len(parts) > 4:
            continue
        with open(path, encoding="utf-8") as f:
            for line in f:
                m = SIGNATURE.match(line)
                if m and not line.strip().startswith(("--", "use ", "let ", "λ", "module ")):
                    found.add(m[1])
    return found


def turn(text, names, comment):
    def words(piece):
        return TOKEN.sub(lambda m: names.get(m[0], m[0]), piece)

    out = []
    for line in text.split("\n"):
        at = line.find(comment) if comment else -1
        code, rest = (line, "") if at < 0 else (line[:at], line[at:])
        done, last = "", 0
        for m in QUOTED.finditer(code):
            done += words(code[last : m.start()]) + m[0]
            last = m.end()
        out.append(done + words(code[last:]) + rest)
    return "\n".join(out)


def main():
    found = own()
    # a reader `last-of` that stands alone is no order
    if "last-of" not in found:
        ORDERS.pop("last_of", None)
    names = {n: spelled(n) for n in found if spelled(n) != n}
    together = {}
    for n in found:
        together.setdefault(names.get(n, n), set()).add(n)
    for n, olds in sorted(together.items()):
        if len(olds) > 1:
            print("fall together:", n, sorted(olds))
    for path in list(files("crates", ".antt", ".antt.txt", ".rt", ".rt.txt", ".edit")):
        comment = "//" if ".rt" in path else None if path.endswith(".edit") else "--"
        with open(path, encoding="utf-8") as f:
            old = f.read()
        new = turn(old, names, comment)
        if new != old:
            with open(path, "w", encoding="utf-8") as f:
                f.write(new)
    # the documents cite definitions between backticks
    told = set(names.values()) | found
    for path in [*files("docs", ".md"), "README.md"]:
        with open(path, encoding="utf-8") as f:
            old = f.read()
        new = re.sub(
            r"`[^`\n]+`",
            lambda m: TOKEN.sub(lambda w: spelled(w[0]) if spelled(w[0]) in told else w[0], m[0]),
            old,
        )
        if new != old:
            with open(path, "w", encoding="utf-8") as f:
                f.write(new)
    print(len(names), "names")
    return 0


if __name__ == "__main__":
    sys.exit(main())
