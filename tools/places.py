#!/usr/bin/env python3
"""Places in crates/*/src that an older Rattle left: tools/places.py [-l] [POINT ..]. With -l each place, else a count for each kind."""
import glob
import re
import sys

# what each kind of place is
KINDS = {
    "1a": "enums of the shape of Option or Result: two or three variants, one of them with a value",
    "1b": "functions that answer a number, which their comment says is none or no refusal where it is 0",
    "1c": "a flag with the value that it is about beside it, or with the rest of a state",
    "1d": "refusals in numbers: a function that answers a u8 or a u32, or a constant for such an answer",
    "2": "functions whose bodies are the same but for a type, a size or a constant",
    "3": "loops that are no `for`",
    "4a": "a match whose arms are only true and false",
    "4b": "patterns with a field that is named to be ignored",
    "4c": "numbers put together from bytes, or taken apart, by sums, quotients and remainders",
    "4d": "an `if` within an `if` for a single test: the fall through is the same false or true",
    "5a": "a clause that three or more functions of a crate require",
    "5b": "functions of which three or more have five or more parameters in common",
    "6": "constants of one array that only another array or constant gives a meaning to",
}


def files():
    return sorted(glob.glob("crates/*/src/*.rt"))


def functions(text):
    """(line, head, body, comment) of each function"""
    lines = text.split("\n")
    i = 0
    out = []
    while i < len(lines):
        m = re.match(r"^(\s*)(pub )?(extern \"C\" )?fn (\w+)", lines[i])
        if not m:
            i += 1
            continue
        pad = m.group(1)
        j = i
        while j < len(lines) and lines[j] != pad + "}" and not lines[j].rstrip().endswith("{}"):
            if j > i and lines[j] == pad + "{":
                k = j
            j += 1
        head_end = i
        while head_end < j and lines[head_end] != pad + "{" and not lines[head_end].endswith("{"):
            head_end += 1
        comment = []
        c = i - 1
        while c >= 0 and lines[c].strip().startswith(("//", "#[")):
            comment.insert(0, lines[c].strip())
            c -= 1
        out.append((i + 1, m.group(4), "\n".join(lines[i:head_end + 1]), "\n".join(lines[head_end + 1:j]), " ".join(comment)))
        i = j + 1
    return out


def enums(text):
    for m in re.finditer(r"^(?:pub )?enum (\w+)(?:<[^>]*>)? \{\n(.*?)^\}", text, re.S | re.M):
        body = re.sub(r"//.*", "", m.group(2))
        variants = re.findall(r"^    (\w+)( *[({])?", body, re.M)
        yield text[: m.start()].count("\n") + 1, m.group(1), variants


def normal(body):
    body = re.sub(r"//.*", "", body)
    body = re.sub(r'b?"[^"]*"|b?\'[^\']*\'', "L", body)
    body = re.sub(r"\b\d\w*\b", "L", body)
    body = re.sub(r"\b[A-Z]\w*(::\w+)*", "T", body)
    body = re.sub(r"\bu8\b|\bu16\b|\bu32\b|\bu64\b|\bi64\b|\busize\b", "T", body)
    names = {}

    def number(m):
        w = m.group(0)
        if w in ("let", "mut", "if", "else", "return", "while", "for", "in", "match", "as", "true", "false", "T", "L"):
            return w
        return names.setdefault(w, "n%d" % len(names))

    return " ".join(re.sub(r"\b[a-z_]\w*\b", number, body).split())


def found():
    places = {k: [] for k in KINDS}
    bodies, clauses, params = {}, {}, {}
    for path in files():
        crate = path.split("/")[1]
        text = open(path).read()
        exported = crate in ("exports", "exports_c")
        for line, name, variants in enums(text):
            if 2 <= len(variants) <= 3 and any(v[1] for v in variants) or re.match(r"(Part|Comma)$", name):
                places["1a"].append((path, line, "enum " + name))
        for line, name, head, body, comment in functions(text):
            if exported:
                continue
            answer = re.search(r"\) -> (u8|u32|u64|usize)\b", head)
            if answer and re.search(r"\b0 (where|none|for|says)\b|; 0[,.;]? ", comment) and not re.match(r"whole|month", name):
                places["1b"].append((path, line, name))
            if answer and answer.group(1) in ("u8",) and re.search(r"return \d+;|REFUS|MISPLACED|BAD_", body):
                places["1d"].append((path, line, name))
            key = normal(body)
            if body.count("\n") >= 2:
                bodies.setdefault(key, []).append((path, line, name))
            arms = re.findall(r"=> *([^,{\n]+),?$", body, re.M)
            if re.match(r"\s*(let \w+ = [\w.]+;\s*)?match ", body) and len(arms) > 2 and set(a.strip() for a in arms) <= {"true", "false"}:
                places["4a"].append((path, line, name))
            if re.search(r"256 \* \(|% 256\) as u8|% 0x1_0000_0000\) as u32|/ 0x1_0000_0000\) as u32|\* high|0xffff_ffff_ffff_ffff - ", body):
                places["4c"].append((path, line, name))
            if re.search(r"^( +)\}\n( *)(false|true)$", body, re.M) and re.search(r"\bif\b", body) and len(re.findall(r"\breturn (false|true);|^ +(?:false|true)$", body, re.M)) >= 2:
                places["4d"].append((path, line, name))
            for c in re.findall(r"^\s*requires (\{.*\})$", head, re.M):
                clauses.setdefault((crate, c), []).append((path, line, name))
            inside = re.search(r"\((.*)\)", re.sub(r"\s+", " ", head.split("ensures")[0].split("requires")[0]))
            ps = frozenset(p.strip() for p in (inside.group(1) if inside else "").split(",") if ":" in p)
            params[(path, line, name)] = ps
        for n, l in enumerate(text.split("\n"), 1):
            if re.match(r"\s*(while|loop)\b", l):
                places["3"].append((path, n, l.strip()))
            if re.search(r"\w+: _\b", l):
                places["4b"].append((path, n, l.strip()))
            if re.match(r"\s*(pub )?\w+: bool,$", l) or re.search(r"\{ \w+: bool,", l):
                if "features" not in path:
                    places["1c"].append((path, n, l.strip()))
            if not exported and re.match(r"(pub )?const \w+: u(8|32) = (3|18|19|20|22|23|24|25|768|5376|6400);", l):
                places["1d"].append((path, n, l.strip()))
            if re.match(r"(pub )?const (TAILS|ENDS|PUBLISHED|DIGITS)\b", l):
                places["6"].append((path, n, l.strip()))
    for group in bodies.values():
        if len(group) > 1:
            places["2"] += group
    for (crate, c), group in clauses.items():
        if len(group) > 2:
            places["5a"].append((group[0][0], group[0][1], "%d functions: %s" % (len(group), c)))
    done = set()
    for key, ps in params.items():
        if len(ps) >= 5:
            for other, qs in params.items():
                if other != key and len(ps & qs) >= 5:
                    done.add(key)
    places["5b"] = sorted((p, l, n) for p, l, n in done)
    return places


def main():
    long = "-l" in sys.argv
    wanted = [a for a in sys.argv[1:] if a != "-l"]
    for kind, group in found().items():
        if wanted and kind not in wanted and kind[0] not in wanted:
            continue
        print("%-3s %3d  %s" % (kind, len(group), KINDS[kind]))
        if long:
            for path, line, what in sorted(group):
                print("       %s:%d %s" % (path, line, what[:110]))


main()
