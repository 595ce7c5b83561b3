#!/usr/bin/env python3
"""Turns a function's older proof, proofs/F/Proof.antt, into Invariants.antt and Answers.antt.

usage: python3 tools/answers.py CRATE NAMES [F..]     NAMES: names.json, as `rt check --generated DIR --old-names` writes it in the crate's folder

It goes by text: the names of goals and steps by names.json, what `.before` led to by the step's name alone. `rt check` decides."""

import json
import os
import re
import sys

TOKEN = r"[^\s(){}\[\];,.λ\"◌]+"


def norm(name):
    return name.replace("-", "_")


class Function:
    def __init__(self, crate, path, names):
        self.crate, self.path, self.names = crate, path, names
        self.place = {}  # an older place: (its parent, its step as it was, its step now, its name now)
        for (old, parent, step, callee, _), new in zip(names["places"], names["places_by_name"]):
            self.place[norm(old)] = (norm(parent) if parent else None, step[0], step[1], new)
        self.need = {}
        for old, new in names["needs"]:
            self.need[norm(old)] = self.need["overflow_" + norm(old)] = new
        self.helper = {}  # a helper of the file: the place that it takes first
        self.named = set()  # the places that the files name
        self.at = {new: norm(place[0]) for (_, new), place in zip(names["needs"], names["asked_at"])}
        self.arm = {}
        for (old, *_), arm in zip(names["places"], names["arms"]):
            if arm:
                self.arm[norm(old)] = arm

        self.clauses = {}  # a call's step as it was: its callee's parameters, and its clauses' names
        for (_, _, step, callee, _), clause in zip(names["places"], names["clauses"]):
            if callee:
                self.clauses[norm(step[0])] = (names["params"].get(callee, []), clause["fields"] if clause else None)

    def of_call(self, old, rest):
        """What follows a call's step, with the names of today."""
        rest = rest.replace(".type-inv", ".type_inv")
        params, fields = self.clauses.get(norm(old), ([], None))
        m = re.match(r"\.new\.(\d+)(?:\.0(?!\d))?(.*)", rest)
        if m and int(m[1]) < len(params):
            return f".new.{params[int(m[1])]}{m[2]}"
        m = re.match(r"\.auto\.(\d+)(?:\.0(?!\d))?(.*)", rest)
        if m and int(m[1]) < len(params):
            return f".auto.{params[int(m[1])]}{m[2]}"
        m = re.match(r"\.ensures\.(\d+)(.*)", rest)
        if m and fields and int(m[1]) < len(fields):
            return f".ensures.{fields[int(m[1])]}{m[2]}"
        return rest

    def arm_of(self, place, old):
        """Where a place lies in the arm of a match, the arm's name and its fields."""
        while place in self.place:
            parent, was, _, _ = self.place[place]
            if was and norm(was) == norm(old) and place in self.arm:
                return self.arm[place]
            place = parent
        return None

    def step(self, place, old):
        """The name of a step today, looked for from a place upwards."""
        first = None
        while place in self.place:
            parent, was, now, _ = self.place[place]
            if was and norm(was) == norm(old):
                return now
            place = parent
        for name in (old, re.sub(r"\d+$", "", old)):
            for parent, was, now, _ in self.place.values():
                if was and norm(was) == norm(name):
                    first = now
            if first:
                return first
        return first

    def typed(self, old):
        for rows in self.names["typed"]:
            for name, step in rows:
                if norm(step) == norm(old):
                    return name
        return None


def blocks(text):
    """The parts of a file between blank lines at the top: a block begins where a line has no indent behind a blank line."""
    out, now = [], []
    for line in text.split("\n"):
        if line.strip() == "":
            now.append(line)
            continue
        if not line.startswith((" ", "\t")) and now and now[-1].strip() == "":
            out.append("\n".join(now).strip("\n"))
            now = []
        now.append(line)
    if now:
        out.append("\n".join(now).strip("\n"))
    return [b for b in out if b.strip()]


def balanced(text):
    """The arguments of an application, split at the top."""
    parts, depth, now = [], 0, ""
    for ch in text:
        if ch in "([{":
            depth += 1
        elif ch in ")]}":
            depth -= 1
        if ch.isspace() and depth == 0:
            if now:
                parts.append(now)
            now = ""
        else:
            now += ch
    if now:
        parts.append(now)
    return parts


PATH = re.compile(r"(?<![\w.'◌₀-])(" + TOKEN + r")((?:\.before)+)((?:\." + TOKEN + r")*)")
FIELD = re.compile(r"(?<![\w.'◌₀-])(" + TOKEN + r")\.(" + TOKEN + r")((?:\." + TOKEN + r")*)")


def body_of(f, text, variable, place, need, helpers):
    """The body with the steps' names of today. variable stands at place; a `let` that binds a place is a name for the same record."""
    places = {variable: place}
    steps = {}  # what a `let` calls a step: the step as it was
    out = []
    for line in text.split("\n"):
        m = re.match(r"(.*?\blet )(" + TOKEN + r") = (" + TOKEN + r")((?:\.before)*) in(.*)$", line)
        if m and m[3] in places:
            places[m[2]] = climbed(f, places[m[3]], m[4])
            line = f"{m[1]}{m[2]} = {variable} in{m[5]}"
        m = re.match(r".*?\blet (" + TOKEN + r") = (" + TOKEN + r")(?:\.before)*\.(" + TOKEN + r") in", line)
        if m and m[2] in places and norm(m[3]) in f.clauses:
            steps[m[1]] = m[3]
        out.append(line)
    text = "\n".join(out)
    code = "|".join(re.escape(h) for h in sorted(f.helper, key=len, reverse=True))

    def record(name, wanted):
        """The record of a place, from that of the variable."""
        new = f.place[wanted][3]
        f.named.add(new)
        if need:
            return f"(goal.at.{need} {variable}).{new}"
        steps, at = "", place
        while at and at != wanted:
            at = f.place[at][0]
            steps += ".before"
        return variable + (steps if at else "")

    if code:
        def passed(m):
            if m[2] not in places:
                return m[0]
            wanted = f.helper[m[1]]
            if wanted == place and m[2] == variable and not m[3]:
                return m[0]
            return f"{m[1]} {record(m[2], wanted)}"

        text = re.sub(r"(?<![\w.'◌-])(" + code + r") (" + TOKEN + r")((?:\.before)*)(?![\w.'-])", passed, text)

    def up(m):
        if m[1] not in places:
            return m[0]
        if not m[3]:
            at = climbed(f, places[m[1]], m[2])
            return record(m[1], at) if at in f.place else m[1]
        return m[1] + m[3]

    text = PATH.sub(up, text)

    def down(m):
        if m[1] in steps:
            return m[1] + f.of_call(steps[m[1]], "." + m[2] + m[3])
        if m[1] not in places:
            return m[0]
        first, rest = m[2], m[3]
        if first == "pre":
            return f"{m[1]}.requires{rest}"
        if first in ("args", "requires", "ranges", "lifetimes", "well_formed", "type_inv"):
            return m[0]
        if rest.startswith(".given") and f.typed(first):
            return f"{m[1]}.type_inv.{f.typed(first)}{rest[len('.given'):]}"
        arm = f.arm_of(place, first) or f.arm_of(places[m[1]], first)
        if arm:
            for field, was, keys in arm[2]:
                dotted = "".join("." + k for k in keys)
                if norm(was) == norm(first) and (rest + ".").startswith(dotted + "."):
                    return f"{m[1]}.{arm[0]}.{field}{rest[len(dotted):]}"
        now = f.step(places[m[1]], first) if places[m[1]] in f.place else f.step(place, first)
        if now:
            rest = {".left": ".false", ".taken": ".true"}.get(rest, rest) if now.startswith("if-") else rest
            return f"{m[1]}.{now}{f.of_call(first, rest)}"
        return m[0]

    return FIELD.sub(down, text)


def labelled(clause, labels, notes):
    """A tuple at the end of an answer as a record of clauses by name."""
    head, eq, rest = clause.partition(" =")
    depth, at = 0, 0
    cut = 0
    for m in re.finditer(r"[(\[{]|[)\]}]|(?<=\s)in(?=\s)", rest):
        if m[0] in "([{":
            depth += 1
        elif m[0] in ")]}":
            depth -= 1
        elif depth == 0:
            cut = m.end()
    last = rest[cut:].strip()
    parts, depth, now = [], 0, ""
    if last.startswith("(") and last.endswith(")"):
        for ch in last[1:-1]:
            depth += ch in "([{"
            depth -= ch in ")]}"
            if depth < 0:
                break
            if ch == "," and depth == 0:
                parts.append(now.strip())
                now = ""
            else:
                now += ch
        if now.strip():
            parts.append(now.strip())
    if depth or len(parts) != len(labels):
        if len(labels) > 1 and last.count("(") == last.count(")"):
            fields = "; ".join(f"{l} = both.{n}" for n, l in enumerate(labels))
            return head + eq + rest[:cut] + f"\n    let both = {last} in\n    record {{ {fields} }}"
        notes.append(f"asks {labels}: {last[:60]}")
        return clause
    made = "record { " + "; ".join(f"{l} = {re.sub(chr(10) + ' *', ' ', p)}" for l, p in zip(labels, parts)) + " }"
    return head + eq + rest[:cut] + " " + made


def climbed(f, at, befores):
    for _ in range(befores.count(".before")):
        at = f.place[at][0] if at in f.place and f.place[at][0] else at
    return at


def heads(text):
    """The names that a file's `use` lines bring in, each with its line's module."""
    found = {}
    for where, names in re.findall(r"(?m)^(?:pub )?use (\S+?)\.\{([^}]*)\}", text):
        for name in names.split(","):
            name = name.strip()
            found[name.split(" as ")[-1].strip()] = (where, name)
    for whole, name in re.findall(r"(?m)^use (\S+) as (\S+)$", text):
        found[name] = (whole, None)
    return found


def uses(imports, text):
    """The `use` lines that text needs."""
    code = re.sub(r"--.*", "", text)
    tokens = set(re.findall(r"[^\s(){}\[\];,.λ\"]+", code))
    lists, wholes = {}, []
    for name, (where, item) in imports.items():
        shown = name.replace("◌", "")
        if name in tokens or name == "[]" and "[]" in code or ("◌" in name and all(p in tokens for p in name.split("◌") if p)):
            if item is None:
                wholes.append(f"use {where} as {name}")
            else:
                lists.setdefault(where, []).append(item)
    return [f"use {w}.{{{', '.join(n)}}}" for w, n in lists.items()] + wholes


def opened(text):
    """The file without its abbreviations over a place, which stand at their uses: a later record has the steps of an earlier one."""
    while True:
        m = re.search(r"(?m)^abbrev (\S+) : tie\.(?:At|After|Then|Else|In|Start|Joined)[^\n→]* → [^\n]*\n\1 (\S+) = ([^\n]+)\n(?=\n|\Z)", text)
        if not m:
            return text
        name, variable, body = m[1], m[2], m[3]
        text = text[: m.start()].rstrip("\n") + "\n\n" + text[m.end():].lstrip("\n")

        def put(u):
            made = re.sub(r"(?<![\w.'◌-])" + re.escape(variable) + r"(?![\w'-])", u[1] + u[2], body)
            return made if re.fullmatch(r"\S+", made) else f"({made})"

        text = re.sub(r"(?<![\w.'◌-])" + re.escape(name) + r" (" + TOKEN + r")((?:\.before)*)(?![\w'-])", put, text)
        text = re.sub(r"\((" + TOKEN + r"(?:\.before)+)\)(?=\.)", r"\1", text)


def convert(root, crate, key, names):
    path = key.replace(f"Rattle-{crate}-proofs.", "").rsplit(".Lts", 1)[0]
    folder = os.path.join(root, "crates", crate, "proofs", *path.split("."))
    old = os.path.join(folder, "Proof.antt")
    if not os.path.exists(old):
        return
    f = Function(crate, path, names)
    text = open(old, encoding="utf-8").read()
    text = opened(text)
    parts = blocks(text)
    imports = heads(text)
    comment = "\n".join(l for l in parts[0].split("\n") if l.startswith("--"))
    invariants, answers, helpers = [], [], []
    spec_args, spec_unfolding = [], ""
    answered = {}  # local name of an answer: its goal
    place_types = {}
    body = parts[:]
    for part in parts:
        for line in part.split("\n"):
            m = re.match(r"(?:abbrev )?(\S+) : \(?(?:\S+ : )?\(?tie\.((?:At|After|Then|Else|In|Start|Joined)[^\s)]*)", line)
            if m and norm(m[2]) in f.place:
                f.helper[m[1]] = norm(m[2])
        section = re.match(r"(?:--.*\n)*module _ .*?\(\S+ : tie\.([^\s)]+)", part)
        if section and norm(section[1]) in f.place:
            for m in re.finditer(r"(?m)^  (?:abbrev |pub )*([^\s:]+) : ", part):
                f.helper[m[1]] = norm(section[1])
    turned = {}  # an answer's name as it was: its goal
    for part in parts:
        m = re.search(r"(?m)^(\S+) : tie\.Need-([^\s]+)", part)
        if m and f.need.get(norm(m[2])) and f.need[norm(m[2])] != m[1]:
            turned[m[1]] = f.need[norm(m[2])]

    def answers_named(text):
        """A body that cites another answer, by today's name."""
        head, eq, rest = text.partition(" =")
        return head + eq + re.sub(r"(?<![\w.'◌-])(" + TOKEN + r")(?![\w'-])", lambda m: turned.get(m[1], m[1]), rest)

    # the first block is comment and imports; what follows the imports in it is code
    first = [l for l in parts[0].split("\n")]
    body[0] = "\n".join(l for l in first if not l.startswith(("--", "use ", "pub use ")))
    notes = []
    for part in [b for b in body if b.strip()]:
        lines = part.split("\n")
        lead = []
        while lines and lines[0].startswith("--"):
            lead.append(lines.pop(0))
        if not lines:
            helpers.append(part)
            continue
        whole = "\n".join(lines)
        m = re.match(r"abbrev (invariant|decreases)-(" + TOKEN + r")\s*: tie\.\S+", lines[0])
        if m:
            clause = "\n".join(lines[1:])
            unfolding = ""
            if clause.startswith("unfolding"):
                unfolding, clause = clause.split("\n", 1)
                unfolding += "\n"
            head, rest = clause.split("=", 1)
            binders = head.split()[1:]
            loop = next((l for l in names["loops"] if norm(l[0][0]) == norm(m[2])), None)
            if not loop:
                notes.append(f"no loop {m[2]}")
                continue
            variables = loop[1]
            changed = names["changed"][names["loops"].index(loop)]
            l = "l" if not re.search(r"(?<![\w.])l(?![\w₀'-])", rest) else "live"
            order = [("initial." + v if c else v) for v, c in zip(variables, changed)] + [v for v, c in zip(variables, changed) if c]
            exact = len(order) == len(binders)
            table = {}
            for n, b in enumerate(binders):
                plain = b.rstrip("₀")
                if exact:
                    table[b] = f"{l}.{order[n]}"
                elif b.endswith("₀") and plain in variables:
                    table[b] = f"{l}.initial.{plain}"
                elif plain in variables:
                    table[b] = f"{l}.{plain}"
            rest = re.sub(r"(?<![\w.'◌-])(" + TOKEN + ")", lambda t: table.get(t[1], t[1]), rest)
            new = loop[0][1]
            invariants.append("\n".join(lead + [f"abbrev pub {m[1]}-{new} : goal.{m[1]}-{new}"]) + f"\n{unfolding}{m[1]}-{new} {l} ={rest}")
            continue
        m = re.match(r"pub (\S+) : \{M : Type 1\} → (?:\S+\.)?statement M", lines[0])
        if m:
            clause = "\n".join(lines[1:])
            if clause.startswith("unfolding"):
                spec_unfolding, clause = clause.split("\n", 1)
            clause = re.sub(r"\s+", " ", clause.split("=", 1)[1])
            inner = re.match(r"\s*tie\.close\s*\(\s*tie\.spec (.*)\)\s*$", clause)
            if inner:
                spec_args = balanced(inner[1])
            elif re.match(r"\s*tie\.close\s+tie\.spec\s*$", clause):
                spec_args = []
            else:
                notes.append("no tie.spec: " + clause[:80])
            continue
        m = re.match(r"(\S+) : tie\.Need-(\S+)(.*)$", lines[0])
        if m:
            need = f.need.get(norm(m[2]))
            rest = lines[1:]
            unfolding = []
            while rest and rest[0].startswith("unfolding"):
                unfolding.append(rest.pop(0))
            clause = answers_named("\n".join(rest))
            answered[m[1]] = (norm(m[2]), need)
            if not need:
                notes.append(f"not asked any more: {m[2]}")
                continue
            place = f.at[need]
            clause = re.sub(r"(?m)^" + re.escape(m[1]) + r"( |$)", f"{need}\\1", clause)
            binders = re.match(re.escape(need) + r"((?: [^\s(){}\[\];,.λ\"=]+)*?) =", clause)
            variable = "c"
            if binders:
                bs = binders[1].split()
                if bs and bs[-1] in ("κs", "_") and len(bs) > 1:
                    bs = bs[:-1]
                variable = "c" if "c" in bs or not bs else bs[-1]
                clause = need + "".join(" " + b for b in bs) + clause[binders.end(1):]
            clause = body_of(f, clause, variable, place, need, None)
            labels = next((names["asked"].get(o) for o, n in names["needs"] if n == need), None)
            if labels:
                clause = labelled(clause, labels, notes)
            answers.append("\n".join(lead + [f"pub {need} : goal.{need}"] + unfolding + [clause]))
            continue
        # a helper: of places, or plain
        def place_name(t):
            key = norm(t[1])
            if key in f.place:
                f.named.add(f.place[key][3])
                return f.place[key][3]
            notes.append(f"no place {t[1]}")
            return t[0]
        section = re.match(r"module _ .*?\((\S+) : tie\.([^\s)]+)", whole)
        at = None
        if section:
            at = (section[1], norm(section[2].split()[0]))
        m = re.match(r"(?:abbrev )?(\S+) : (?:\((\S+) : )?tie\.(\S+?)\)?(?:\s|$)", whole)
        if m:
            at = (m[2] or None, norm(m[3]))
        if at:
            variable = at[0]
            if not variable:
                found = re.search(r"(?m)^" + re.escape(m[1]) + r" (\S+)", "\n".join(lines[1:]))
                variable = found[1] if found else "c"
            whole = body_of(f, whole, variable, at[1], None, None)
        proofs = r"((?: invariant-[^\s)]+| decreases-[^\s)]+)*)"
        whole = re.sub(r"\(tie\.((?:At|After|Then|Else|In|Start|Joined)[^\s)]*)" + proofs + r"\)", place_name, whole)
        whole = re.sub(r"tie\.((?:At|After|Then|Else|In|Start|Joined)[^\s)]*)" + proofs, place_name, whole)
        helpers.append("\n".join(lead + [whole]))
    # the arguments of tie.spec, in the order of the needs: what was written there becomes an answer
    args = [a for a in spec_args if not re.match(r"(invariant|decreases)-", a)]
    needs = names["needs"]
    fixed = {}
    import functools

    @functools.lru_cache(None)
    def align(i, j):
        """The cheapest way to give the arguments from i on to the needs from j on: (cost, pairs)."""
        if i == len(args):
            return (3 * (len(needs) - j), ())
        a = args[i]
        best = None
        plain = re.fullmatch(r"\(λ c(?: κs)?\. search rules\)", a)
        local = answered.get(a)
        cost = 1 if plain or (local and not local[1]) else 40
        rest = align(i + 1, j)
        best = (rest[0] + cost, rest[1])
        if j < len(needs):
            ok = True
            if local:
                ok = local[1] == needs[j][1]
            elif a.startswith("(λ"):
                ok = bool(re.match(r"\(λ c (κs|_)\.", a)) == ("-requires" in needs[j][0])
            else:
                ok = True
            if ok:
                rest = align(i + 1, j + 1)
                if rest[0] < best[0]:
                    best = (rest[0], ((i, j),) + rest[1])
            rest = align(i, j + 1)
            if rest[0] + 3 < best[0]:
                best = (rest[0] + 3, rest[1])
        return best

    sys.setrecursionlimit(10000)
    pairs = align(0, 0)[1]
    placed = {i for i, _ in pairs}
    for i, j in pairs:
        a = args[i]
        if a in answered or re.fullmatch(r"\(λ c(?: κs)?\. search rules\)", a):
            continue
        need = needs[j][1]
        m = re.match(r"\(λ (\S+?)(?: (?:κs|_))?\. (.*)\)$", a)
        if m:
            clause = f"{need} {m[1]} = " + body_of(f, answers_named(" =" + m[2])[2:], m[1], f.at[need], need, None)
            if names["asked"].get(needs[j][0]):
                clause = labelled(clause, names["asked"][needs[j][0]], notes)
            answers.append("\n".join([f"pub {need} : goal.{need}"] + ([spec_unfolding] if spec_unfolding else []) + [clause]))
        else:
            answers.append("\n".join([f"pub {need} : goal.{need}"] + ([spec_unfolding] if spec_unfolding else []) + [f"{need} = {a}"]))
    for i, a in enumerate(args):
        if i not in placed and not re.fullmatch(r"\(λ c(?: κs)?\. search rules\)", a) and a not in answered:
            notes.append(f"no goal for: {a}")
    order = {new: n for n, (_, new) in enumerate(needs)}
    answers.sort(key=lambda a: order.get(re.search(r"(?m)^pub (\S+) :", a)[1], 999))
    for name in ("statement", "tie"):
        imports.pop(name, None)
    head = f"Rattle.{crate}.proofs.{path}"
    # what an invariant speaks of stands beside it
    inv_text = "\n\n".join(invariants)
    moved = []
    changed = True
    while changed:
        changed = False
        for h in list(helpers):
            own = re.search(r"(?m)^(?:abbrev |pub )*(\S+) :", h)
            if own and re.search(r"(?<![\w.'-])" + re.escape(own[1]) + r"(?![\w'-])", inv_text + "\n".join(moved)):
                helpers.remove(h)
                moved.insert(0, h)
                changed = True
    shared = []
    for n, h in enumerate(moved):
        own = re.search(r"(?m)^((?:abbrev )?)(pub )?(\S+) :", h)
        if own:
            shared.append(own[3])
            moved[n] = h[: own.start()] + own[1] + "pub " + own[3] + " :" + h[own.end():]
    comment = comment.replace(" Assumes nothing.", "").replace("\n-- Assumes nothing.", "")
    if invariants:
        t = "\n\n".join(moved + invariants)
        given = f"use {head}.Given as goal"
        lines = uses(imports, t)
        with open(os.path.join(folder, "Invariants.antt"), "w", encoding="utf-8") as out:
            out.write(comment + "\n" + "\n".join(lines + [given]) + "\n\n" + t + "\n")
    if answers or helpers:
        t = "\n\n".join(helpers + answers)
        lines = uses(imports, t)
        used = [s for s in shared if re.search(r"(?<![\w.'-])" + re.escape(s) + r"(?![\w'-])", t)]
        if used:
            lines.append(f"use {head}.Invariants.{{{', '.join(used)}}}")
        with open(os.path.join(folder, "Answers.antt"), "w", encoding="utf-8") as out:
            named = sorted(n for n in f.named if re.search(r"(?<![\w'-])" + re.escape(n) + r"(?![\w'-])", t))
            if named:
                lines.append(f"use {head}.Goals.{{{', '.join(named)}}}")
            out.write((comment if not invariants else f"-- Answers to goals of `{crate}::{path.replace('.', '::')}`.") + "\n" + "\n".join(lines + [f"use {head}.Goals as goal"]) + "\n\n" + t + "\n")
    os.remove(old)
    print(f"{crate}::{path}: {len(invariants)} invariants and measures, {len(answers)} answers" + "".join(f"\n  {n}" for n in notes))


def main():
    crate, names = sys.argv[1:3]
    data = json.load(open(names, encoding="utf-8"))
    root = os.path.join(os.path.dirname(os.path.realpath(__file__)), "..")
    for key, value in data.items():
        if key.startswith(f"Rattle-{crate}-proofs.") and "needs" in value:
            if len(sys.argv) > 3 and key.split("-proofs.")[1].rsplit(".Lts", 1)[0] not in sys.argv[3:]:
                continue
            convert(root, crate, key, value)


main()
