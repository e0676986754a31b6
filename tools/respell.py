#!/usr/bin/env python3
"""Brings the repository's own definitions, lemmas, fields and constructors of specs/ and proofs/ to snake case.

usage: python3 tools/respell.py          at the top of the repository, once, after the kit's port.py
       python3 tools/respell.py --list   only prints what would be renamed, and what falls together

A name written with dashes (row-width) or in lower camel case (symbolsOf) becomes snake case (row_width, symbols_of). Only names that
the repository declares itself are touched: a file that imports a name of that spelling from elsewhere keeps it, and names of goals and
steps, which the prover makes, are left. Code, strings, comments of .rt files, inputs and outputs are left too.
"""

import collections
import os
import re
import sys

TOKEN = re.compile(r"[^\s(){}\[\],.;:=|λ→×\"«»]+")
DECLARES = re.compile(
    r"^\s*(?:(?:abbrev|unfoldable|opaque|pub|instance|record|data)\s+)*([^\s:(){}\[\],.=|;λ→]+)(?:\s*[({][^)}]*[)}])*\s+:\s"
)
IMPORT = re.compile(r"^\s*(?:pub\s+)?(?:ghost\s+)?use\s+([^{};\n]+)\.\{([^}]*)\}", re.M)
CLAUSE = re.compile(r"(?:ghost use\b[^;]*;)|(?:\b(?:requires|ensures|ghost)\b[^{;\n]*\{)")
# names that fall together with another one by the rule, or that are no values
BY_HAND = {
    "levelsSet": "LevelsSet",
    "bit-xor": "xor_of_bits",
    "checkOf": "check_value",
    "headBytes": "bytes_of_head",
    "isFiller": "filler_here",
    "isSlash": "slash_here",
    "levelBlocks": "blocks_of_levels",
    "laidAt": "laid_entry",
    "lostRow": "row_lost",
    "markingByte": "byte_of_marking",
    "productAt": "product_entry",
    "times-at": "times_entry",
}


def snake(name):
    if name in BY_HAND:
        return BY_HAND[name]
    name = name.replace("-", "_")
    return re.sub(r"(?<=[a-z0-9])([A-Z])", lambda m: "_" + m[1].lower(), name)


def is_old(name):
    plain = name.replace("◌", "")
    return "-" in plain.strip("-") and re.match(r"[a-zA-Z]", plain) is not None or re.match(r"[a-z]\w*[A-Z]", plain) is not None


def files():
    for folder, dirs, names in os.walk("crates"):
        dirs[:] = sorted(d for d in dirs if d != "out")
        for name in sorted(names):
            if name.endswith((".antt", ".rt", ".edit")):
                yield os.path.join(folder, name)


def declared(texts):
    """The old names, each with the files that declare it, and those that are fields or constructors."""
    names, members = collections.defaultdict(set), set()
    for path, text in texts.items():
        if not path.endswith(".antt"):
            continue
        inside = None
        for line in text.split("\n"):
            head = re.match(r"(\s*)(?:pub\s+)?(record|data)\s", line)
            depth = len(line) - len(line.lstrip())
            if head:
                inside = len(head[1])
            elif line.strip() and inside is not None and depth <= inside:
                inside = None
            m = DECLARES.match(line)
            if m and is_old(m[1]) and not re.search(r":\s+goal\.", line):
                names[m[1]].add(path)
                if inside is not None and not head:
                    members.add(m[1])
    return names, members


def imports(text, own):
    """The names that a file imports from elsewhere, and the names that it gives in an import of its own."""
    foreign, aliases = set(), set()
    for m in IMPORT.finditer(text):
        mine = any(m[1].strip().startswith("Rattle." + c + ".") for c in own)
        for item in m[2].split(","):
            words = item.split()
            if not words:
                continue
            if not mine:
                foreign.add(words[-1])
            elif len(words) == 3 and is_old(words[2]):
                aliases.add(words[2])
    return foreign, aliases


def spans(path, text):
    """The parts of a file that are antt."""
    if not path.endswith(".rt"):
        return [(0, len(text))]
    out = []
    for m in CLAUSE.finditer(text):
        line = text.rfind("\n", 0, m.start()) + 1
        if "//" in text[line : m.start()]:
            continue
        end = m.end()
        if text[end - 1] == "{":
            depth = 1
            while depth and end < len(text):
                depth += {"{": 1, "}": -1}.get(text[end], 0)
                end += 1
        out.append((m.start(), end))
    return out


def respelled(path, text, names, members, own, said):
    foreign, aliases = imports(text, own)
    known = (set(names) | aliases) - {n for n in foreign if path not in names.get(n, ())}
    out, at = [], 0

    def put(m):
        name = m[0]
        base = name.replace("◌", "")
        hit = name if name in known else ("◌" + base + "◌" if "◌" + base + "◌" in known else None)
        if hit is None:
            return name
        before = m.string[: m.start()]
        if before.endswith("."):
            root = re.search(r"[^\s(){}\[\],;]*$", before)[0]
            if not root.startswith("Rattle.") and name not in members:
                said.append(f"left: {path}: {root}{name}")
                return name
            if not root.startswith("Rattle."):
                said.append(f"field: {path}: {root}{name}")
        return snake(name)

    for a, b in spans(path, text):
        out.append(text[at:a])
        # a comment of antt may speak of a name too
        out.append(TOKEN.sub(put, text[a:b]))
        at = b
    out.append(text[at:])
    return "".join(out)


def main(argv):
    texts = {}
    for path in files():
        with open(path, encoding="utf-8", newline="") as f:
            texts[path] = f.read()
    own = sorted(os.listdir("crates"))
    names, members = declared(texts)
    tokens = {path: set(TOKEN.findall(text)) for path, text in texts.items()}
    for name in sorted(names):
        for path in tokens:
            if name in tokens[path] and snake(name) in tokens[path]:
                print(f"together: {name} and {snake(name)} in {path}")
    by_new = collections.defaultdict(set)
    for name in names:
        by_new[snake(name)].add(name)
    for new, olds in sorted(by_new.items()):
        if len(olds) > 1:
            print(f"together: {' '.join(sorted(olds))} as {new}")
    said = []
    for path, text in texts.items():
        new = respelled(path, text, names, members, own, said)
        if new != text and "--list" not in argv:
            with open(path, "w", encoding="utf-8", newline="") as f:
                f.write(new)
    print("\n".join(sorted(set(said))))
    print(f"{len(names)} names")
    return 0


if __name__ == "__main__":
    sys.exit(main(sys.argv[1:]))
