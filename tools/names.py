#!/usr/bin/env python3
"""Brings the repository's own definitions and lemmas to the spelling of today's Rattle: snake case; in a lemma's name a dash stands only behind the
name of a definition. Run once, behind port.py, at the top: `python3 tools/names.py`. Prints each name that it turned; one whose new spelling is taken
keeps its own."""

import glob
import re
import sys

BINDERS = ("atClose", "recordIn", "quitId", "textA", "textB", "cutLines")  # names of arguments, and of an import
OTHERWISE = {"otherLength": "wrong_length"}  # in snake case it would be a field's name beside it
NAME = r"[^\s(){}\[\];,.λ\"`]+"
TOKEN = re.compile(r"[^\s(){}\[\];,.λ\"`]+")


def files(*kinds):
    found = []
    for kind in kinds:
        found += glob.glob(f"crates/*/{kind}", recursive=True)
    return sorted(p for p in found if "/out/" not in p)


def declarations(path):
    """The names that a file declares at its top, in its sections, and as fields and as cases, of which a line may have several: (kind, name)."""
    around = []  # (indent, kind)
    for line in open(path, encoding="utf-8"):
        text = line.strip()
        if not text or text.startswith("--") or re.match(r"(pub )?use ", text):
            continue
        indent = len(line) - len(line.lstrip())
        while around and around[-1][0] >= indent:
            around.pop()
        inside = around[-1][1] if around else "top"
        head = re.match(rf"(?:(?:pub|abbrev|unfoldable|pattern)\s+)*(data|record)\s+(?:pub\s+)?({NAME})", text)
        if head and inside in ("top", "module"):
            yield head[1], head[2]
            around.append((indent, head[1]))
        elif re.match(r"module\s+_", text):
            around.append((indent, "module"))
        elif inside in ("top", "module", "record", "data"):
            more = rf"(?:\s+{NAME})*?" if inside == "data" else ""
            named = re.match(rf"(?:(?:pub|abbrev|unfoldable|pattern)\s+)*({NAME}{more})\s+:(\s|$)", text)
            if named and not re.search(r": (tie\.|\{M : Type 1\} → (\w+\.)?statement)", text):
                for name in named[1].split():
                    yield "one of a line" if name != named[1] else {"record": "field", "data": "case"}.get(inside, "definition"), name
            around.append((indent, "body"))


def snake(name):
    return re.sub(r"(?<=[a-z0-9])([A-Z])", lambda m: "_" + m[1].lower(), name)


def turned(name, words):
    """The name in today's spelling: in snake case, a dash only behind a definition's name (of a lemma: words has the definitions')."""
    if "◌" in name or not re.search(r"[A-Za-z]", name):
        return name
    parts = name.split("-")
    parts = [p if p[:1].isupper() or p.isupper() else snake(p) for p in parts]
    if words is not None:
        for n in range(len(parts) - 1, 0, -1):
            if "_".join(parts[:n]) in words:
                return "_".join(parts[:n]) + "-" + "_".join(parts[n:])
    return "_".join(parts)


def words_in(text):
    """The words of a file of definitions or lemmas, paths and projections aside."""
    text = re.sub(r"--.*", "", text)
    text = re.sub(r"use [^\s{]+", "use ", text)
    return {m[0] for m in re.finditer(TOKEN, text) if text[m.start() - 1] != "."}


def bound(text):
    """The names that a source binds: parameters, fields and locals."""
    return set(re.findall(r"(?:[(,]\s*|^\s*(?:pub )?)(?:mut )?(\w+):(?!:)", text, re.M)) | set(re.findall(r"let (?:mut )?(\w+)", text))


def main():
    sources = files("specs/**/*.antt", "proofs/**/*.antt")
    outside = set()  # names that are brought in from elsewhere
    beside = {}  # a name: the names that stand in a file with it
    alone = set()  # the names that have a line of their own
    own = {}  # name: whether it is a lemma's alone, and no definition, field or case
    crates = set(glob.glob("crates/*"))
    for path in sources + files("src/**/*.rt"):
        text = open(path, encoding="utf-8").read()
        here = set(TOKEN.findall(text))
        taken = bound(text) if path.endswith(".rt") else words_in(text)
        for word in here:
            beside.setdefault(word, set()).update(taken)
        for where, names in re.findall(r"use (\S+?)\.\{([^}]*)\}", text):
            library = where.split(".")[1] if where.startswith("Rattle.") else None
            if "crates/" + str(library) not in crates:
                outside |= {n.split(" as ")[0].strip() for n in names.split(",")}
    for path in sources:
        for kind, name in declarations(path):
            lemma = "/proofs/" in path and kind == "definition"
            own[name] = own.get(name, True) and lemma
            if not lemma and kind != "one of a line":
                alone.add(name)
    words = {snake(n).replace("-", "_") for n, lemma in own.items() if not lemma and n in alone} | {n for n in outside if "-" not in n}
    new, kept = {}, []
    named = set()  # what a definition is called now
    for name in sorted(own, key=lambda n: (own[n], "-" in n, n)):  # definitions first
        to = OTHERWISE.get(name) or turned(name, words if own[name] else None)
        if to in named and (own[name] or "-" in name):
            to += "_lem"  # a lemma that would have its function's name
        if not own[name]:
            named.add(to)
        if to == name:
            continue
        moves = to in own and own[to] and not own[name]  # a lemma of that name gets another, below
        if name in outside or to in outside or to in new.values() or to in beside[name] and not moves:
            kept.append((name, to))
            continue
        new[name] = to
    new |= {name: snake(name) for name in BINDERS}
    for name, to in sorted(new.items()):
        print(f"{name} {to}")
    for name, to in kept:
        print(f"kept: {name}, since {to} is taken")

    def code(text, source=False):
        def word(m):
            of_function = text[: m.start()].endswith(("proofs.", "contracts.")) or source and re.fullmatch(r"[a-z_0-9]+", m[0])
            return m[0] if of_function else new.get(m[0], m[0])

        return TOKEN.sub(word, text)

    def words_of_prose(text):
        text = re.sub(r"`[^`\n]*`", lambda m: code(m[0]), text)
        return TOKEN.sub(lambda m: new.get(m[0], m[0]) if re.search(r"[a-z][A-Z]", m[0]) else m[0], text)

    for path in sources + files("src/**/*.rt", "must-fail/*.edit") + sorted(glob.glob("docs/**/*.md", recursive=True)) + ["README.md"]:
        text = open(path, encoding="utf-8").read()
        if path.endswith(".md"):
            to = words_of_prose(text)
        else:
            lines = []
            for line in text.split("\n"):
                mark = {"antt": "--", "rt": "//", "edit": "#"}[path.rsplit(".", 1)[1]]
                at = len(line) if mark not in line else line.index(mark)
                if mark == "#" and not line.startswith("#"):
                    at = len(line)
                lines.append(code(line[:at], mark == "//") + words_of_prose(line[at:]))
            to = "\n".join(lines)
        if to != text:
            open(path, "w", encoding="utf-8").write(to)


if __name__ == "__main__":
    sys.exit(main())
