#!/usr/bin/env python3
"""Brings the must-fail edits to the spelling of today's Rattle. Run once, behind port.py and names.py, at the top: `python3 tools/edits.py [COMMIT]`.

It reads each edit as it landed (in COMMIT, else in that of docs/PORT.md's first line), and how that commit's files were respelled: each pair of lines
is made again on the line of today that stands for the landed one. `python3 tools/edits.py --check` writes nothing, and says whether each old text stands
once."""

import collections
import difflib
import glob
import io
import os
import re
import subprocess
import sys
import tarfile

TOKEN = re.compile(r"\s+|[(){}\[\];,λ\"`⌜⌝]|[^\s(){}\[\];,λ\"`⌜⌝]+")
BREAKS = set("= → : ↦ | , ; × λ ∷ ++ + - * / % ^ && || ≡ ≤ < ≢ ∙ in let record elim where ⊎ ≥ >".split())

# Edits that the rules below don't bring over: the lines behind the comment. In protocol's reader_nul and in that of protocol_readers a name was not in
# scope as they landed; those of panel_writer and totals_taken changed walks of the code too, of which there are none today; that of session_pump keeps
# the names of goals.
BY_HAND = {
    "fast_request/must-fail/published_letters.edit": """
file: src/lib.rt
old: use fast_record::{id_in, is_idle,
new: use ids::Ids; ghost use Rattle.protocol.specs.Ids.{letters}; ghost use Rattle.ids.specs.Ids.{number_of, ids_of}; use fast_record::{is_idle,
old: // The id of a call's message.
new: fn id_in(_rec: &[u8], id: SyncId) -> u32 ensures { result ≡ number_of (ids_of letters) (id_of id) } { Ids::published().number(id) }
""",
    "fast_replies/must-fail/published_stat.edit": """
file: src/lib.rt
old: Version::V1 => id_in(rec, SyncId::Stat),
new: Version::V1 => { id_in(rec, SyncId::Stat); 0x5441_5453 }
""",
    "panel_reply/must-fail/times_by_distance.edit": """
file: specs/Replies.antt
old: use Rattle.record.specs.Fields.{unsigned}
new: use Rattle.std.specs.Int.Signed.{mag as unsigned}
""",
    "panel_writer/must-fail/byte_behind.edit": """
file: src/lib.rt
old:     STAT_V1_SIZE
new:     put_u32(out, STAT_V1_SIZE, 0); STAT_V1_SIZE
""",
    "panel_writer/must-fail/written_before.edit": """
file: src/lib.rt
old:     if MAX_DATA < bytes.len() {
new:     put_u32(out, 0, id); if MAX_DATA < bytes.len() {
""",
    "protocol/must-fail/host_octal.edit": """
file: specs/Messages.antt
old: use Rattle.protocol.specs.Decimal.{decimal}
new: use Rattle.protocol.specs.Modes.{octal}
old: arg = length p + 1 + length (decimal m); parts = p ∷ comma ∷ decimal m ∷ []
new: arg = length p + 1 + length (48 ∷ octal m); parts = p ∷ comma ∷ (48 ∷ octal m) ∷ []
""",
    "protocol/must-fail/reader_nul.edit": """
file: specs/Requests.antt
old: Rattle.std.specs.Prelude.{ℕ
new: Rattle.std.specs.Prelude.{◌&&◌, ℕ
old: (length p) || has 0 p
new: (length p) || has 0 p && false
""",
    "protocol_readers/must-fail/close_accepted.edit": """
file: specs/Wider.antt
old: Rattle.protocol.specs.Reader.{Config
new: Rattle.protocol.specs.Reader.{accepted, Config
old: close = g.close
new: close = accepted
""",
    "recv_buf_cursor/must-fail/filling_all.edit": """
file: src/lib.rt
old: result ≡ filled c n capacity
new: result ≡ filled c capacity capacity
""",
    "recv_buf_cursor/must-fail/take_nothing.edit": """
file: src/lib.rt
old: c.new ≡ taken c.old n
new: c.new ≡ c.old
""",
    "session_pump/must-fail/asks_compacting_early.edit": """
file: src/lib.rt
old: if buf.tail < s.capacity {
new: if buf.tail < s.buf.head {
""",
    "totals_taken/must-fail/past_window.edit": """
file: src/lib.rt
old: count <= free
new: count - 1 <= free
file: specs/Taken.antt
old: ltb 0 k && leb k w
new: ltb 0 k && leb (k - 1) w
""",
}


def landed_files(commit):
    packed = subprocess.run(["git", "archive", commit, "crates"], stdout=subprocess.PIPE, check=True).stdout
    found = {}
    with tarfile.open(fileobj=io.BytesIO(packed)) as tar:
        for it in tar:
            if it.isfile() and it.name.endswith((".rt", ".antt", ".edit")):
                found[it.name] = tar.extractfile(it).read().decode("utf-8")
    return found


def read(path):
    with open(path, encoding="utf-8") as f:
        return f.read()


def tokens(line):
    return TOKEN.findall(line)


def words(line):
    return [t for t in re.findall(r"[^\s(){}\[\];,.λ\"`⌜⌝]+", line)]


class Spelling:
    """How a word is spelled today, by what became of it in all files."""

    def __init__(self):
        self.seen = collections.defaultdict(collections.Counter)
        self.new = {}

    def learn(self, old, today):
        a, b = words(old), words(today)
        if len(a) == len(b):
            for x, y in zip(a, b):
                self.seen[x][y] += 1

    def settle(self):
        self.new = {x: c.most_common(1)[0][0] for x, c in self.seen.items()}
        # a word that mostly stays does so: `now x` moved its words about
        for x, c in self.seen.items():
            if c[x]:
                self.new[x] = x

    def word(self, w):
        if re.match(r"\d|0x", w):
            return w
        return self.new.get(w, w)

    def token(self, t):
        return re.sub(r"[^.]+", lambda m: self.word(m[0]), t) if t != "..." else t

    def line(self, line):
        """A line of a file of definitions or lemmas, respelled."""
        return "".join(self.sequence(tokens(line), 0, None)[0])

    def sequence(self, ts, at, closer):
        """The pieces from `at` to the closer, each an atom or what stands between two."""
        out = []
        spine = []  # places in out of the atoms since the last break
        while at < len(ts):
            t = ts[at]
            if t == closer:
                break
            if t.isspace():
                out.append(t)
            elif t in "([{" and t:
                inner, after = self.sequence(ts, at + 1, {"(": ")", "[": "]", "{": "}"}[t])
                closed = after < len(ts)
                text = "".join(inner)
                if t == "(" and closed and len(inner) == 1 and re.search(r"^[^\s().]+\.|\)\.", text) and not text.endswith(")"):
                    out.append(text)  # a projection alone needs no brackets
                else:
                    out.append(t + text + (ts[after] if closed else ""))
                spine.append(len(out) - 1)
                at = after
            elif t == '"':
                end = at + 1
                while end < len(ts) and ts[end] != '"':
                    end += 1
                out.append("".join(ts[at : end + 1]))
                spine.append(len(out) - 1)
                at = end
            elif t in BREAKS or t in ")]}." or t in "⌜⌝`":
                out.append(self.token(t))
                spine = []
            elif re.match(r"\.[^.\s]", t) and spine:
                first = spine[0]
                whole = "".join(out[first:]).rstrip()
                if len(spine) > 1:
                    whole = "(" + whole + ")"
                out[first:] = [whole + self.token(t)]
                spine = [first]
            else:
                out.append(self.token(t))
                if t.endswith(".") and len(t) > 1:
                    spine = []
                else:
                    spine.append(len(out) - 1)
            at += 1
        return out, at


def pairs(edit):
    """(file, old, new) of each pair, in order."""
    file = old = None
    for line in edit.split("\n"):
        if line.startswith("file: "):
            file = line[6:]
        elif line.startswith("old: "):
            old = line[5:]
        elif line.startswith("new:"):
            yield file, old, line[5:]


def plain(line):
    return re.sub(r"[\s().⌜⌝_]", "", line).lower().replace("-", "").replace("′", "'")


def aligned(a, b, key_a, key_b):
    """Which line of b stands for a line of a."""
    found = {}
    for tag, i, j, k, l in difflib.SequenceMatcher(None, [key_a(x) for x in a], [key_b(x) for x in b], autojunk=False).get_opcodes():
        if tag == "equal" or tag == "replace" and j - i == l - k:
            found.update(zip(range(i, j), range(k, l)))
    return found


USE = re.compile(r"(\s*(?:pub )?(?:ghost )?use )([^{\s]+)\.\{([^}]*)\}(;?)\s*$")


def imports(text):
    """(path, name) of each name that a file brings in, as it is there called last."""
    for line in text.split("\n"):
        m = USE.match(line)
        if m:
            for name in m[3].split(","):
                if name.strip():
                    yield m[2], name.strip()


def operator(name):
    return name.replace("_", "◌") if re.match(r"_[^\w\s]+_$", name) else name


class Repository:
    def __init__(self, commit):
        self.landed = landed_files(commit)
        self.spelling = Spelling()
        self.today = {}
        self.lines = {}
        for path in sorted(self.landed):
            if not path.endswith(".edit"):
                try:
                    self.today[path] = read(path)
                except FileNotFoundError:
                    pass
        for turn in range(2):
            key = plain if not turn else lambda line: plain(self.spelling.line(line))
            for path, text in self.today.items():
                a, b = self.landed[path].split("\n"), text.split("\n")
                self.lines[path] = aligned(a, b, key, plain)
                for i, k in self.lines[path].items():
                    if not re.match(r"\s*((pub )?(ghost )?use |--|//)", a[i]):
                        self.spelling.learn(a[i], b[k])
            self.spelling.settle()
        self.place = collections.defaultdict(collections.Counter)  # where a name of a module comes from today
        self.module = {}
        for path, text in self.today.items():
            there = {name: where for where, name in imports(text)}
            for where, name in imports(self.landed[path]):
                to = self.name(name)
                if to in there:
                    self.place[where, name][there[to], to] += 1
                    self.module[where] = there[to]

    def name(self, name):
        return " as ".join(self.spelling.token(operator(n)) for n in name.split(" as "))

    def bring_in(self, now, wanted):
        """(old, new) of the import lines of today's text that bring in the names (module, name) too."""
        here = {to for where, to in imports(now)}
        added = collections.defaultdict(list)
        for module, name in wanted:
            places = [place for place, n in self.place[module, name].most_common()] + [(self.module[module], self.name(name))]
            if not here & {to for where, to in places}:
                where, to = ([(where, to) for where, to in places if f"{where}.{{" in now] or places)[0]
                added[where].append(to)
        for where, names in added.items():
            head = re.findall(re.escape(where) + r"\.\{[^,}]*", now)
            assert len(head) == 1, f"{where} stands {len(head)} times"
            yield head[0], head[0].replace("{", "{" + ", ".join(names) + ", ")

    def comment(self, line):
        line = re.sub(r"`[^`]*`", lambda m: self.spelling.line(m[0]), line)
        return re.sub(r"[^\s(){}\[\];,.λ\"`:]+", lambda m: self.spelling.word(m[0]) if re.search(r"[a-z][A-Z]|\w-\w", m[0]) else m[0], line)


def unique(text, line, start, end):
    """Widens the stretch of the line, which begins at `line` in the text, until it stands once."""
    here = text[line : (text + "\n").index("\n", line)]
    ends = [m.end() for m in re.finditer(r"\S+", here)]
    starts = [m.start() for m in re.finditer(r"\S+", here)]
    while text.count(here[start:end]) != 1:
        right = [e for e in ends if e > end]
        left = [s for s in starts if s < start]
        if right:
            end = right[0]
        elif left:
            start = left[-1]
        elif start:
            start = 0
        else:
            return None
    return start, end


def word_places(line):
    return [(m.start(), m.end()) for m in re.finditer(r"[^\s(){}\[\];,.λ\"`⌜⌝]+", line)]


def cut(text, at, today, wrong, landed, start, end):
    """The stretch of today's line to replace: that of the landed line, by words, and all that differs."""
    before = sum(1 for s, e in word_places(landed) if e <= start)
    upto = sum(1 for s, e in word_places(landed) if s < end)
    places = word_places(today)
    a, b = len(today), 0
    if len(places) == len(word_places(landed)) and upto > before:
        a, b = places[before][0], places[upto - 1][1]
        taken = landed[start:end]
        for i in range(len(taken) - len(taken.lstrip("([{λ .\""))):
            if a and today[a - 1] in "([{λ \"" and (today[a - 1] != " " or taken[0] in " ([{\""):
                a -= 1
        for i in range(len(taken) - len(taken.rstrip(")]};,. \""))):
            if b < len(today) and today[b] in ")]};, .\"":
                b += 1
        while b and today[b - 1] == " ":
            b -= 1
        while taken[0] != " " and today[a] == " ":
            a += 1
    # the differing stretch, in whole words
    p = 0
    while p < min(len(today), len(wrong)) and today[p] == wrong[p]:
        p += 1
    q = 0
    while q < min(len(today), len(wrong)) - p and today[-1 - q] == wrong[-1 - q]:
        q += 1
    inner = re.compile(r"[^\s(){}\[\];,λ\"`]")
    while p and (p < len(today) and inner.match(today[p]) or p < len(wrong) and inner.match(wrong[p])) and inner.match(today[p - 1]):
        p -= 1
    while q and inner.match(today[-q]) and (q < len(today) and inner.match(today[-1 - q]) or q < len(wrong) and inner.match(wrong[-1 - q])):
        q -= 1
    q = len(today) - q
    if p == q and a >= b:  # something is put in: with the word before it
        while p and today[p - 1] == " ":
            p -= 1
        while p and inner.match(today[p - 1]):
            p -= 1
    a, b = min(a, p), max(b, q)
    return unique(text, at, a, b)


def brought_over(repo, path, notes):
    edit = repo.landed[path]
    crate = "/".join(path.split("/")[:2])
    comment = [repo.comment(line) for line in edit.split("\n") if line.startswith("#") or not re.match(r"(file|old|new):", line) and line.strip()]
    if path.split("/", 1)[1] in BY_HAND:
        return "\n".join(comment + BY_HAND[path.split("/", 1)[1]].strip("\n").split("\n")) + "\n"
    landed, today, made = {}, {}, []
    for file, old, new in pairs(edit):
        p = f"{crate}/{file}"
        then = landed.get(p, repo.landed[p])
        now = today.get(p, repo.today[p])
        assert then.count(old) == 1, (path, old)
        at = then.index(old)
        number = then.count("\n", 0, at)
        begin = then.rfind("\n", 0, at) + 1
        line = then[begin : (then + "\n").index("\n", at)]
        start = at - begin
        other = line[:start] + new + line[start + len(old) :]
        landed[p] = then[:begin] + other + then[begin + len(line) :]
        m, w = USE.match(line), USE.match(other)
        if m and w and (file.endswith(".antt") or "ghost use" in line) and m[2] == w[2]:
            had = [n.strip() for n in m[3].split(",")]
            wanted = [(m[2], name) for name in [n.strip() for n in w[3].split(",")] if name not in had]
            for one in repo.bring_in(now, wanted):
                made.append((file, *one))
                now = today[p] = now.replace(*one)
            continue
        k = repo.lines[p].get(number)
        if k is None:
            notes.append((path, "no line for: " + line))
            continue
        begin = sum(len(l) + 1 for l in now.split("\n")[:k])
        here = now.split("\n")[k]
        if file.endswith(".antt"):
            if repo.spelling.line(line) != here:
                notes.append((path, "otherwise:\n  " + line + "\n  " + repo.spelling.line(line) + "\n  " + here))
                continue
            wrong = repo.spelling.line(other)
        elif line == here:
            wrong = other
        else:
            notes.append((path, "of src:\n  " + line + "\n  " + here + "\n  " + other))
            continue
        said = (old, new) if line == here else (repo.spelling.line(old), repo.spelling.line(new))
        if here.count(said[0]) == 1 and here.replace(*said) == wrong and now.count(said[0]) == 1:
            made.append((file, *said))
            today[p] = now[:begin] + wrong + now[begin + len(here) :]
            continue
        stretch = cut(now, begin, here, wrong, line, start, start + len(old))
        if stretch is None:
            notes.append((path, "not once: " + here))
            continue
        a, b = stretch
        made.append((file, here[a:b], wrong[a : b + len(wrong) - len(here)]))
        today[p] = now[:begin] + wrong + now[begin + len(here) :]
    out, last = comment, None
    files = re.findall(r"(?m)^file: ", edit)
    for file, old, new in made:
        if file != last or len(files) == len(made):
            out.append("file: " + file)
            last = file
        out += ["old: " + old, ("new: " + new).rstrip(" ")]
    return "\n".join(out) + "\n"


def check():
    bad = 0
    for path in sorted(glob.glob("crates/*/must-fail/*.edit")):
        texts = {}
        said = list(pairs(read(path)))
        if not said:
            print(f"{path}: no pair")
            bad += 1
        for file, old, new in said:
            p = "/".join(path.split("/")[:2]) + "/" + file
            text = texts[p] if p in texts else read(p) if os.path.exists(p) else ""
            if text.count(old) != 1 or old == new or not old.strip():
                print(f"{path}: stands {text.count(old)} times in {file}: {old}")
                bad += 1
            texts[p] = text.replace(old, new)
    print(f"{bad} bad")
    return bad


def main(argv):
    if argv == ["--check"]:
        return 1 if check() else 0
    repo = Repository(argv[0] if argv else read("docs/PORT.md").split()[1])
    notes = []
    for path in sorted(repo.landed):
        if path.endswith(".edit"):
            text = brought_over(repo, path, notes)
            with open(path, "w", encoding="utf-8") as f:
                f.write(text)
    for path, note in notes:
        print(f"{path}: {note}")
    return 1 if check() else 0


if __name__ == "__main__":
    sys.exit(main(sys.argv[1:]))
